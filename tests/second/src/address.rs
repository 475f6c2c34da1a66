//! M17 addresses (paper: M17 addresses; source 001; paper 02: request [10]).

use crate::refusal::{ensure, Reason, Refusal};

/// Which edition of the M17 specification addresses are read and written by.
#[derive(Clone, Copy, Debug, PartialEq, Eq)]
pub enum Edition {
    /// No hash addresses.
    Older,
    /// Hash addresses: the numbers from [`FIRST_HASH`] to [`LAST_HASH`].
    Newer,
}

impl Edition {
    pub const BOTH: [Edition; 2] = [Edition::Older, Edition::Newer];
}

/// The characters in the order of their digits.
const ALPHABET: &[u8; 40] = b" ABCDEFGHIJKLMNOPQRSTUVWXYZ0123456789-/.";

/// What the text of a hash address starts with.
const HASH: u8 = b'#';

/// A text has at most this many characters, and a text buffer at least this
/// many bytes.
pub const MOST_CHARACTERS: usize = 9;

/// The largest number that is a callsign: nine dots.
pub const LAST_CALLSIGN: u64 = 40u64.pow(9) - 1;

/// The first hash address: the hash sign alone.
pub const FIRST_HASH: u64 = 40u64.pow(9);

/// The last hash address: the hash sign and eight dots.
pub const LAST_HASH: u64 = FIRST_HASH + 40u64.pow(8) - 1;

/// The number of the broadcast address.
pub const BROADCAST: u64 = 0xFFFF_FFFF_FFFF;

/// The numbers on both sides of every border between valid and invalid ones,
/// by either edition.
pub const BORDERS: [u64; 8] = [
    0,
    1,
    LAST_CALLSIGN,
    FIRST_HASH,
    LAST_HASH,
    LAST_HASH + 1,
    BROADCAST - 1,
    BROADCAST,
];

/// An address.
#[derive(Clone, Copy, Debug, PartialEq, Eq)]
pub enum Address {
    /// The number of a text, valid from 1 to [`LAST_CALLSIGN`] and, by the
    /// newer edition, from [`FIRST_HASH`] to [`LAST_HASH`].
    Callsign(u64),
    Broadcast,
}

impl Address {
    /// The address with this number; `None` where it is invalid.
    pub fn from_number(number: u64, edition: Edition) -> Option<Address> {
        match number {
            1..=LAST_CALLSIGN => Some(Address::Callsign(number)),
            FIRST_HASH..=LAST_HASH if edition == Edition::Newer => Some(Address::Callsign(number)),
            BROADCAST => Some(Address::Broadcast),
            _ => None,
        }
    }

    /// Reads six bytes, most significant first.
    pub fn from_bytes(bytes: [u8; 6], edition: Edition) -> Option<Address> {
        let number = bytes.iter().fold(0, |n, &b| n << 8 | u64::from(b));
        Address::from_number(number, edition)
    }

    /// Six bytes, most significant first; `None` for the number of a text that
    /// is out of its range.
    pub fn to_bytes(self, edition: Edition) -> Option<[u8; 6]> {
        let number = match self {
            Address::Callsign(number) => number,
            Address::Broadcast => BROADCAST,
        };
        let valid = Address::from_number(number, edition) == Some(self);
        let [_, _, low @ ..] = number.to_be_bytes();
        valid.then_some(low)
    }
}

/// The number of a text: 20, 21, 22 in that order. A hash sign, by the newer
/// edition, is a character like any other for 20 and for the place of 21.
pub fn text_to_number(text: &[u8], edition: Edition) -> Result<u64, Refusal> {
    ensure(
        (1..=MOST_CHARACTERS).contains(&text.len()),
        Reason::CallsignLength,
        0,
    )?;
    let (start, base) = match text[0] {
        HASH if edition == Edition::Newer => (1, FIRST_HASH),
        _ => (0, 0),
    };
    let digits = text
        .iter()
        .enumerate()
        .skip(start)
        .map(|(position, &character)| {
            digit(character).ok_or(Refusal::at(Reason::ForeignCharacter, position))
        })
        .collect::<Result<Vec<u64>, Refusal>>()?;
    ensure(text.last() != Some(&b' '), Reason::EndsInSpace, 0)?;
    // The first character is the least significant digit.
    let number = digits
        .iter()
        .rev()
        .fold(0, |number, digit| number * 40 + digit);
    Ok(base + number)
}

/// Writes the text of an address number into a buffer: 24, then 23. The text
/// and zeros after it fill the first nine bytes; broadcast leaves the buffer
/// unchanged.
pub fn number_to_text(
    number: u64,
    buffer: &mut [u8],
    edition: Edition,
) -> Result<Address, Refusal> {
    let field = buffer
        .first_chunk_mut::<MOST_CHARACTERS>()
        .ok_or(Refusal::from(Reason::TextBuffer))?;
    let address =
        Address::from_number(number, edition).ok_or(Refusal::from(Reason::AddressNumber))?;
    if let Address::Callsign(number) = address {
        field.fill(0);
        if number < FIRST_HASH {
            put_digits(field, number);
        } else {
            field[0] = HASH;
            put_digits(&mut field[1..], number - FIRST_HASH);
        }
    }
    Ok(address)
}

/// Writes the characters of a number; 0 has none.
fn put_digits(characters: &mut [u8], mut number: u64) {
    for character in characters {
        if number == 0 {
            break;
        }
        *character = ALPHABET[(number % 40) as usize];
        number /= 40;
    }
}

fn digit(character: u8) -> Option<u64> {
    ALPHABET
        .iter()
        .position(|&c| c == character)
        .map(|d| d as u64)
}
