//! The functions of bindings/c/include/codeplug.h over slices. Structures and
//! declarations are those of bindings/rust, held to the header by its tests. A
//! bool of an answer is a byte there, so that any byte that comes back can be
//! compared.

use std::sync::atomic::{AtomicBool, Ordering};

use codeplug::c;
pub use codeplug::c::{
    BankAnswer, BankEntryAnswer, ChannelAnswer, ChannelCommon, ChannelInfo, ContactAnswer, ContactValues, DecodeAnswer, EditAnswer,
    EncodeAnswer, HeaderAnswer, HistoryAnswer, Refusal, ValidateAnswer,
};

use crate::edition::By;

// The slices keep what the header asks of a caller: a pointer with as many
// bytes as its length says, and no overlap.

static NULL: AtomicBool = AtomicBool::new(false);

/// Whether an empty slice is passed as null from now on.
pub fn pass_null(null: bool) {
    NULL.store(null, Ordering::Relaxed);
}

fn at(bytes: &[u8]) -> *const u8 {
    if bytes.is_empty() && NULL.load(Ordering::Relaxed) {
        std::ptr::null()
    } else {
        bytes.as_ptr()
    }
}

fn at_mut(bytes: &mut [u8]) -> *mut u8 {
    if bytes.is_empty() && NULL.load(Ordering::Relaxed) {
        std::ptr::null_mut()
    } else {
        bytes.as_mut_ptr()
    }
}

pub fn validate(file: &[u8], by: By) -> ValidateAnswer {
    unsafe { c::codeplug_validate(at(file), file.len(), by.number) }
}

pub fn validate_legacy(file: &[u8], by: By) -> ValidateAnswer {
    unsafe { c::codeplug_validate_legacy(at(file), file.len(), by.number) }
}

pub fn migrate(file: &mut [u8], by: By) -> ValidateAnswer {
    unsafe { c::codeplug_migrate(at_mut(file), file.len(), by.number) }
}

pub fn header(file: &[u8], texts: &mut [u8], by: By) -> HeaderAnswer {
    unsafe { c::codeplug_header(at(file), file.len(), at_mut(texts), texts.len(), by.number) }
}

macro_rules! readers {
    ($($name:ident $function:ident $answer:ty;)*) => { $(
        pub fn $name(file: &[u8], n: usize, texts: &mut [u8], by: By) -> $answer {
            unsafe { c::$function(at(file), file.len(), n, at_mut(texts), texts.len(), by.number) }
        }
    )* };
}

readers! {
    contact codeplug_contact ContactAnswer;
    channel codeplug_channel ChannelAnswer;
    bank codeplug_bank BankAnswer;
    contact_prevalidated codeplug_contact_prevalidated ContactAnswer;
}

/// Sees no address, and so takes no edition.
pub fn channel_prevalidated(file: &[u8], n: usize, texts: &mut [u8], _: By) -> ChannelAnswer {
    unsafe { c::codeplug_channel_prevalidated(at(file), file.len(), n, at_mut(texts), texts.len()) }
}

/// Sees no address either.
pub fn bank_prevalidated(file: &[u8], n: usize, texts: &mut [u8], _: By) -> BankAnswer {
    unsafe { c::codeplug_bank_prevalidated(at(file), file.len(), n, at_mut(texts), texts.len()) }
}

pub fn bank_entry(file: &[u8], bank: usize, i: usize, by: By) -> BankEntryAnswer {
    unsafe { c::codeplug_bank_entry(at(file), file.len(), bank, i, by.number) }
}

pub fn bank_entry_prevalidated(file: &[u8], bank: usize, i: usize) -> BankEntryAnswer {
    unsafe { c::codeplug_bank_entry_prevalidated(at(file), file.len(), bank, i) }
}

pub fn write_contact(out: &mut [u8], name: &[u8], values: ContactValues, by: By) -> Refusal {
    unsafe { c::codeplug_write_contact(at_mut(out), out.len(), at(name), name.len(), values, by.number) }
}

pub fn write_channel(out: &mut [u8], name: &[u8], description: &[u8], common: ChannelCommon, info: ChannelInfo) -> Refusal {
    let (out_length, name_length, description_length) = (out.len(), name.len(), description.len());
    let (out, name, description) = (at_mut(out), at(name), at(description));
    unsafe { c::codeplug_write_channel(out, out_length, name, name_length, description, description_length, common, info) }
}

pub fn write_text(out: &mut [u8], text: &[u8]) -> Refusal {
    unsafe { c::codeplug_write_text(at_mut(out), out.len(), at(text), text.len()) }
}

pub fn write_empty(out: &mut [u8]) -> Refusal {
    unsafe { c::codeplug_write_empty(at_mut(out), out.len()) }
}

pub fn encode_callsign(text: &[u8], by: By) -> EncodeAnswer {
    unsafe { c::codeplug_encode_callsign(at(text), text.len(), by.number) }
}

pub fn decode_address(address: u64, out: &mut [u8], by: By) -> DecodeAnswer {
    unsafe { c::codeplug_decode_address(address, at_mut(out), out.len(), by.number) }
}

pub fn tone_frequency(index: u8) -> u16 {
    unsafe { c::codeplug_tone_frequency(index) }
}

pub fn tone_index(tenths: u16) -> u8 {
    unsafe { c::codeplug_tone_index(tenths) }
}

/// An edit as the C interface takes it.
#[derive(Clone, Copy, Debug)]
pub struct EditRequest {
    pub kind: usize,
    pub first: usize,
    pub second: usize,
}

pub fn edit(room: &mut [u8], length: usize, history: &mut [u8], used: usize, request: EditRequest, record: &[u8], by: By) -> EditAnswer {
    unsafe {
        c::codeplug_edit(
            at_mut(room),
            room.len(),
            length,
            at_mut(history),
            history.len(),
            used,
            request.kind,
            request.first,
            request.second,
            at(record),
            record.len(),
            by.number,
        )
    }
}

pub fn undo(room: &mut [u8], length: usize, history: &mut [u8], used: usize, by: By) -> EditAnswer {
    unsafe { c::codeplug_undo(at_mut(room), room.len(), length, at_mut(history), history.len(), used, by.number) }
}

pub fn history_entries(history: &[u8]) -> HistoryAnswer {
    unsafe { c::codeplug_history_entries(at(history), history.len()) }
}
