//! M17 addresses both ways by both editions, which have to agree where both
//! accept, and tones.

use obcf_second::address::{number_to_text, text_to_number, Address, FIRST_HASH};
use obcf_second::doubtful;
use obcf_second::sample::{self, Rng};
use obcf_second::tone::{Tone, TONES};
use obcf_second::Edition;

use crate::edition::{is_hash, By};
use crate::interface::{self as library, DecodeAnswer, EncodeAnswer};
use crate::report::{bytes_differ, Compared, Difference, Pair};
use crate::work::Work;

/// The longest text buffer.
const LONGEST_OUT: usize = 24;

/// Texts and numbers that both editions accept, that the newer alone accepts,
/// and that it refuses otherwise than the older, or alike.
pub const PAIRS: [Pair; 10] = [
    ("text", 0, 0),
    ("text", 20, 20),
    ("text", 21, 0),
    ("text", 21, 21),
    ("text", 21, 22),
    ("text", 22, 22),
    ("number", 0, 0),
    ("number", 23, 0),
    ("number", 23, 23),
    ("number", 24, 24),
];

/// A text to its number, and a number to its text.
pub fn any(work: &mut Work, rng: &mut Rng) -> Compared {
    let both = By::both(rng);
    text(work, &doubtful::callsign(rng), both)?;
    let value = if rng.flag() {
        sample::callsign_number(rng, Edition::Newer)
    } else {
        sample::doubtful_number(rng)
    };
    let length = match rng.below(8) {
        0 => rng.below(9),
        1 => 8,
        2..=4 => 9 + rng.below(LONGEST_OUT - 8),
        _ => 9,
    };
    number(work, value, length, both)
}

/// Every text of at most two bytes, with and without a hash sign before it, and
/// every number of at most three characters, with and without.
pub fn every_short(work: &mut Work, rng: &mut Rng) -> Compared {
    let both = By::both(rng);
    text(work, b"", both)?;
    text(work, b"#", both)?;
    for n in 0..=u16::MAX {
        let [a, b] = n.to_be_bytes();
        text(work, &[a, b], both)?;
        text(work, &[b'#', a, b], both)?;
        if a == 0 {
            text(work, &[b], both)?;
            text(work, &[b'#', b], both)?;
        }
    }
    for value in 0..40 * 40 * 40 {
        number(work, value, 9, both)?;
        number(work, FIRST_HASH + value, 9, both)?;
    }
    Ok(())
}

/// Every tone and every frequency.
pub fn tones(work: &mut Work, _: &mut Rng) -> Compared {
    for index in 0..=u8::MAX {
        let found = library::tone_frequency(index);
        let right = Tone { enabled: true, index }.tenths_of_hertz().unwrap_or(0);
        work.tally.add_plain(0);
        if found != right {
            return Err(Difference::of(&("tone_frequency", index), &[], &found, &right));
        }
    }
    for tenths in 0..=u16::MAX {
        let found = library::tone_index(tenths);
        let right = TONES.iter().position(|&tone| tone == tenths).map_or(255, |index| index as u8);
        work.tally.add_plain(0);
        if found != right {
            return Err(Difference::of(&("tone_index", tenths), &[], &found, &right));
        }
    }
    Ok(())
}

/// A text by both editions. What the older accepts or refuses the newer does
/// alike, but where a hash sign stands first. An accepted text comes back.
pub fn text(work: &mut Work, text: &[u8], both: [By; 2]) -> Compared {
    let [older, newer] = [encode(work, text, both[0])?, encode(work, text, both[1])?];
    work.tally.add_pair(("text", older.number, newer.number));
    let first = text.first() == Some(&b'#') && older.number == 21 && older.place == 0;
    let right = match newer.number {
        _ if !first => newer == older,
        0 => is_hash(newer.address),
        21 => newer.place > 0,
        number => number == 22,
    };
    if !right {
        return Err(Difference::of(&"encode_callsign, both", &[("text", text)], &newer, &older));
    }
    for (answer, by) in [older, newer].into_iter().zip(both) {
        if answer.number == 0 {
            let (back, found) = decode(work, answer.address, 9, by)?;
            if found[..back.length] != *text {
                return Err(Difference::of(&("the text of", answer, by), &[], &found, &text));
            }
        }
    }
    Ok(())
}

/// A number by both editions. What the older accepts the newer does alike; what
/// it refuses is alike too, but for hash addresses. An accepted number comes
/// back.
pub fn number(work: &mut Work, number: u64, length: usize, both: [By; 2]) -> Compared {
    let [(older, older_text), (newer, newer_text)] = [decode(work, number, length, both[0])?, decode(work, number, length, both[1])?];
    work.tally.add_pair(("number", older.number, newer.number));
    let right = match older.number {
        23 if is_hash(number) => newer.number == 0 && newer.broadcast == 0 && newer.length > 0,
        _ => newer == older && newer_text == older_text,
    };
    if !right {
        return Err(Difference::of(&("decode_address, both", number), &[], &newer, &older));
    }
    for (answer, text, by) in [(older, older_text, both[0]), (newer, newer_text, both[1])] {
        if answer.number == 0 && answer.broadcast == 0 {
            let text = &text[..answer.length];
            let back = encode(work, text, by)?;
            if back.address != number {
                return Err(Difference::of(&("the number of", by), &[("text", text)], &back, &number));
            }
        }
    }
    Ok(())
}

fn encode(work: &mut Work, text: &[u8], by: By) -> Result<EncodeAnswer, Box<Difference>> {
    let found = library::encode_callsign(work.name.lend(text), by);
    let right = match text_to_number(text, by.edition) {
        Ok(address) => EncodeAnswer {
            address,
            ..Default::default()
        },
        Err(refusal) => EncodeAnswer {
            number: refusal.number,
            place: refusal.place,
            address: 0,
        },
    };
    work.tally.add(by, right.number);
    if found != right {
        return Err(Difference::of(&("encode_callsign", by), &[("text", text)], &found, &right));
    }
    Ok(found)
}

/// A number into a buffer of that length: the answer, and its first nine bytes.
fn decode(work: &mut Work, number: u64, length: usize, by: By) -> Result<(DecodeAnswer, [u8; 9]), Box<Difference>> {
    let mut before = [0; LONGEST_OUT];
    for (i, byte) in before.iter_mut().enumerate() {
        *byte = number as u8 ^ (i as u8).wrapping_mul(37);
    }
    let mut after = before;
    let (before, after) = (&before[..length], &mut after[..length]);
    let right = decoded(number_to_text(number, after, by.edition), after);
    let found = library::decode_address(number, work.out.lend(before), by);
    work.tally.add(by, right.number);
    let call = ("decode_address", number, by);
    if found != right {
        return Err(Difference::of(&call, &[("out", before)], &found, &right));
    }
    if work.out.slice() != after || !work.out.whole() {
        let (found, right) = bytes_differ(work.out.slice(), after);
        return Err(Difference::of(&call, &[("out", before)], &found, &right));
    }
    let mut text = [0; 9];
    text[..length.min(9)].copy_from_slice(&after[..length.min(9)]);
    Ok((found, text))
}

/// The answer that goes with a text in a buffer.
fn decoded(answer: Result<Address, obcf_second::Refusal>, buffer: &[u8]) -> DecodeAnswer {
    match answer {
        Ok(Address::Callsign(_)) => DecodeAnswer {
            length: buffer[..9].iter().position(|&byte| byte == 0).unwrap_or(9),
            ..Default::default()
        },
        Ok(Address::Broadcast) => DecodeAnswer {
            broadcast: 1,
            ..Default::default()
        },
        Err(refusal) => DecodeAnswer {
            number: refusal.number,
            place: refusal.place,
            ..Default::default()
        },
    }
}
