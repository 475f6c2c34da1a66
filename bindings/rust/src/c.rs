//! The structures and functions of bindings/c/include/codeplug.h, in its order and under its names: the one declaration of them in Rust,
//! which tests/compare and bench use too. Held to the header by the tests below.

/// C's bool, which holds 0 or 1. A byte here, so that a caller may look at whatever comes back.
pub type Flag = u8;

/// Declares each structure as C lays it out, and `layout`, which tells for the tests what bindings/c/layout.c tells.
macro_rules! structures {
    ($($name:ident, $c:literal: { $($field:ident: $type:ty),* })*) => {
        $(
            #[repr(C)]
            #[derive(Clone, Copy, Debug, Default, PartialEq)]
            pub struct $name {
                $(pub $field: $type),*
            }
        )*

        #[cfg(test)]
        pub fn layout() -> String {
            use std::{fmt::Write, mem::{align_of, offset_of, size_of}};
            let mut lines = String::new();
            $(
                writeln!(lines, "{} {} {}", $c, size_of::<$name>(), align_of::<$name>()).unwrap();
                $(
                    let (at, size) = (offset_of!($name, $field), size_of::<$type>());
                    writeln!(lines, "{}.{} {at} {size}", $c, stringify!($field)).unwrap();
                )*
            )*
            lines
        }
    };
}

structures! {
    ContactValues, "contact_values": { address: u64, id: u32, mode: u8, contact_type: u8, rx_tone: Flag, broadcast: Flag }
    ChannelCommon, "channel_common": {
        receive_hz: u32, transmit_hz: u32, latitude_e4: u16, longitude_e4: u16, altitude_plus_500: u16, latitude: i8, longitude: i8,
        bandwidth: u8, receive_only: Flag, power: u8, scan_list: u8, group_list: u8
    }
    ChannelInfo, "channel_info": {
        contact: u16, mode: u8, receive_tone: u8, receive_tone_on: Flag, transmit_tone: u8, transmit_tone_on: Flag, receive_colour: u8,
        transmit_colour: u8, slot: u8, receive_access: u8, transmit_access: u8, operation: u8, encryption: u8, position: Flag
    }
    Refusal, "refusal": { number: u8, place: usize }
    ValidateAnswer, "validate_answer": { number: u8, place: usize, contacts: u16, channels: u16, banks: u16 }
    HeaderAnswer, "header_answer": { number: u8, place: usize, timestamp: u64, contacts: u16, channels: u16, banks: u16 }
    ContactAnswer, "contact_answer": { number: u8, place: usize, values: ContactValues }
    ChannelAnswer, "channel_answer": { number: u8, place: usize, common: ChannelCommon, info: ChannelInfo }
    BankAnswer, "bank_answer": { number: u8, place: usize, entries: u16 }
    BankEntryAnswer, "bank_entry_answer": { number: u8, place: usize, channel: u16, next: usize }
    EncodeAnswer, "encode_answer": { number: u8, place: usize, address: u64 }
    DecodeAnswer, "decode_answer": { number: u8, place: usize, length: usize, broadcast: Flag }
    EditAnswer, "edit_answer": { number: u8, place: usize, length: usize, used: usize, entries: usize }
    HistoryAnswer, "history_answer": { number: u8, place: usize, entries: usize }
}

extern "C" {
    pub fn codeplug_version() -> u32;
    pub fn codeplug_validate(file: *const u8, file_length: usize, edition: u32) -> ValidateAnswer;
    pub fn codeplug_header(file: *const u8, file_length: usize, texts: *mut u8, texts_length: usize, edition: u32) -> HeaderAnswer;
    pub fn codeplug_contact(
        file: *const u8,
        file_length: usize,
        n: usize,
        name: *mut u8,
        name_length: usize,
        edition: u32,
    ) -> ContactAnswer;
    pub fn codeplug_channel(
        file: *const u8,
        file_length: usize,
        n: usize,
        texts: *mut u8,
        texts_length: usize,
        edition: u32,
    ) -> ChannelAnswer;
    pub fn codeplug_bank(file: *const u8, file_length: usize, n: usize, name: *mut u8, name_length: usize, edition: u32) -> BankAnswer;
    pub fn codeplug_bank_entry(file: *const u8, file_length: usize, bank: usize, i: usize, edition: u32) -> BankEntryAnswer;
    pub fn codeplug_contact_prevalidated(
        file: *const u8,
        file_length: usize,
        n: usize,
        name: *mut u8,
        name_length: usize,
        edition: u32,
    ) -> ContactAnswer;
    pub fn codeplug_channel_prevalidated(
        file: *const u8,
        file_length: usize,
        n: usize,
        texts: *mut u8,
        texts_length: usize,
    ) -> ChannelAnswer;
    pub fn codeplug_bank_prevalidated(file: *const u8, file_length: usize, n: usize, name: *mut u8, name_length: usize) -> BankAnswer;
    pub fn codeplug_bank_entry_prevalidated(file: *const u8, file_length: usize, bank: usize, i: usize) -> BankEntryAnswer;
    pub fn codeplug_validate_legacy(file: *const u8, file_length: usize, edition: u32) -> ValidateAnswer;
    pub fn codeplug_migrate(file: *mut u8, file_length: usize, edition: u32) -> ValidateAnswer;
    pub fn codeplug_write_contact(
        out: *mut u8,
        out_length: usize,
        name: *const u8,
        name_length: usize,
        values: ContactValues,
        edition: u32,
    ) -> Refusal;
    pub fn codeplug_write_channel(
        out: *mut u8,
        out_length: usize,
        name: *const u8,
        name_length: usize,
        description: *const u8,
        description_length: usize,
        common: ChannelCommon,
        info: ChannelInfo,
    ) -> Refusal;
    pub fn codeplug_write_text(out: *mut u8, out_length: usize, text: *const u8, text_length: usize) -> Refusal;
    pub fn codeplug_write_empty(out: *mut u8, out_length: usize) -> Refusal;
    pub fn codeplug_encode_callsign(text: *const u8, text_length: usize, edition: u32) -> EncodeAnswer;
    pub fn codeplug_decode_address(address: u64, out: *mut u8, out_length: usize, edition: u32) -> DecodeAnswer;
    pub fn codeplug_tone_frequency(index: u8) -> u16;
    pub fn codeplug_tone_index(tenths: u16) -> u8;
    pub fn codeplug_edit(
        room: *mut u8,
        room_size: usize,
        length: usize,
        history: *mut u8,
        history_size: usize,
        used: usize,
        kind: usize,
        first: usize,
        second: usize,
        record: *const u8,
        record_length: usize,
        edition: u32,
    ) -> EditAnswer;
    pub fn codeplug_undo(
        room: *mut u8,
        room_size: usize,
        length: usize,
        history: *mut u8,
        history_size: usize,
        used: usize,
        edition: u32,
    ) -> EditAnswer;
    pub fn codeplug_history_entries(history: *const u8, used: usize) -> HistoryAnswer;
}

#[cfg(test)]
mod tests;
