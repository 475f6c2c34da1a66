//! A text's number and a number's text, by tables and without a list.

use obcf_second::address::{Address, FIRST_HASH};
use obcf_second::{Edition, Reason, Refusal};

const ALPHABET: &[u8; 40] = b" ABCDEFGHIJKLMNOPQRSTUVWXYZ0123456789-/.";

const FOREIGN: u8 = 255;

const DIGITS: [u8; 256] = {
    let mut digits = [FOREIGN; 256];
    let mut d = 0;
    while d < ALPHABET.len() {
        digits[ALPHABET[d] as usize] = d as u8;
        d += 1;
    }
    digits
};

pub fn encode(text: &[u8], edition: Edition) -> Result<u64, Refusal> {
    if !(1..=9).contains(&text.len()) {
        return Err(Reason::CallsignLength.into());
    }
    // A hash sign counts as a character, and the first hash address is added for it.
    let hash = text[0] == b'#' && edition == Edition::Newer;
    let mut number = if hash { FIRST_HASH } else { 0 };
    let mut value = 1;
    for (place, &character) in text.iter().enumerate().skip(hash.into()) {
        let digit = DIGITS[usize::from(character)];
        if digit == FOREIGN {
            return Err(Refusal::at(Reason::ForeignCharacter, place));
        }
        number += u64::from(digit) * value;
        value *= 40;
    }
    match text.last() {
        Some(b' ') => Err(Reason::EndsInSpace.into()),
        _ => Ok(number),
    }
}

pub fn decode(number: u64, buffer: &mut [u8], edition: Edition) -> Result<Address, Refusal> {
    let field = buffer
        .first_chunk_mut::<9>()
        .ok_or(Refusal::from(Reason::TextBuffer))?;
    let address =
        Address::from_number(number, edition).ok_or(Refusal::from(Reason::AddressNumber))?;
    if let Address::Callsign(number) = address {
        let hash = number >= FIRST_HASH;
        let mut rest = if hash { number - FIRST_HASH } else { number };
        *field = [0; 9];
        if hash {
            field[0] = b'#';
        }
        for character in &mut field[hash.into()..] {
            if rest == 0 {
                break;
            }
            *character = ALPHABET[(rest % 40) as usize];
            rest /= 40;
        }
    }
    Ok(address)
}
