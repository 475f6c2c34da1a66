//! Callsigns and addresses, and the tones.

use codeplug::c::{DecodeAnswer, EncodeAnswer};
use obcf_second::address::{self, Address};
use obcf_second::tone::TONES;

use crate::edition::edition_of;
use crate::refused::FromRefusal;
use crate::slices::{buffer, bytes};

#[no_mangle]
pub unsafe extern "C" fn second_encode_callsign(text: *const u8, length: usize, edition: u32) -> EncodeAnswer {
    match address::text_to_number(unsafe { bytes(text, length) }, edition_of(edition)) {
        Err(refusal) => EncodeAnswer::refused(refusal),
        Ok(number) => EncodeAnswer { address: number, ..EncodeAnswer::default() },
    }
}

#[no_mangle]
pub unsafe extern "C" fn second_decode_address(number: u64, out: *mut u8, size: usize, edition: u32) -> DecodeAnswer {
    let out = unsafe { buffer(out, size) };
    match address::number_to_text(number, out, edition_of(edition)) {
        Err(refusal) => DecodeAnswer::refused(refusal),
        Ok(Address::Broadcast) => DecodeAnswer { broadcast: 1, ..DecodeAnswer::default() },
        Ok(Address::Callsign(_)) => {
            let field = &out[..address::MOST_CHARACTERS];
            let length = field.iter().position(|&b| b == 0).unwrap_or(field.len());
            DecodeAnswer { length, ..DecodeAnswer::default() }
        }
    }
}

#[no_mangle]
pub extern "C" fn second_tone_frequency(index: u8) -> u16 {
    TONES.get(usize::from(index)).copied().unwrap_or(0)
}

#[no_mangle]
pub extern "C" fn second_tone_index(tenths: u16) -> u8 {
    TONES.iter().position(|&tone| tone == tenths).map_or(255, |index| index as u8)
}
