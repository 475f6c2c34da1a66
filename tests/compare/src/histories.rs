//! How many entries a history has: histories that calls made, or made of
//! random entries; the same spoiled; and arbitrary bytes.

use obcf_second::history::{self, Entry};
use obcf_second::lists;
use obcf_second::sample::Rng;
use obcf_second::{Edition, LONGEST};

use crate::expected;
use crate::interface as library;
use crate::report::{Compared, Difference};
use crate::work::Work;

/// How often a history is spoiled.
const SPOILED: usize = 24;

pub fn any(work: &mut Work, rng: &mut Rng) -> Compared {
    let history = if rng.one_in(4) { by_calls(rng) } else { by_entries(rng) };
    count(work, &history)?;
    for _ in 0..SPOILED {
        let mut spoiled = history.clone();
        spoil(rng, &mut spoiled);
        count(work, &spoiled)?;
        count(work, &arbitrary(rng))?;
    }
    Ok(())
}

/// Compares the count of one history.
pub fn count(work: &mut Work, history: &[u8]) -> Compared {
    let found = library::history_entries(work.history.lend(history));
    let right = expected::history(history::count(history));
    work.tally.add_plain(right.number);
    if found != right {
        return Err(Difference::of(&"history_entries", &[("history", history)], &found, &right));
    }
    Ok(())
}

/// What a list of calls leaves.
fn by_calls(rng: &mut Rng) -> Vec<u8> {
    let edition = rng.pick(&Edition::BOTH);
    let (mut lent, calls) = lists::list(rng, edition);
    for call in &calls {
        let _ = lent.call(call);
    }
    let used = lent.history.len().min(lent.history_length as usize);
    lent.history.truncate(used);
    lent.history
}

/// Entries whose numbers take one, two or three bytes; now and then one is too
/// large.
fn by_entries(rng: &mut Rng) -> Vec<u8> {
    const NUMBERS: [usize; 8] = [0, 1, 127, 128, 16_383, 16_384, LONGEST - 1, LONGEST];
    let number = |rng: &mut Rng| match rng.below(64) {
        0 => LONGEST + 1,
        n if n < 32 => rng.pick(&NUMBERS),
        _ => rng.below(LONGEST),
    };
    let entries = rng.below(12);
    let mut history = Vec::new();
    for _ in 0..entries {
        let old = match rng.below(8) {
            0 => rng.pick(&[127, 128, 300]),
            _ => rng.below(12),
        };
        let entry = Entry {
            start: number(rng),
            new_length: number(rng),
            old: rng.bytes(old),
        };
        history.extend(entry.to_bytes());
    }
    history
}

/// Cuts a history, changes, removes or adds a byte, or puts more after it.
fn spoil(rng: &mut Rng, history: &mut Vec<u8>) {
    let any = rng.byte();
    let byte = rng.pick(&[0, 1, 0x7F, 0x80, 0xBF, 0xC0, 0xFF, any]);
    let place = rng.below(history.len() + 1);
    match rng.below(5) {
        0 => history.truncate(place),
        1 => history.insert(place, byte),
        2 => history.extend(arbitrary(rng)),
        _ if place == history.len() => history.push(byte),
        3 => drop(history.remove(place)),
        _ => history[place] = byte,
    }
}

/// Short bytes, most of them small, so that some are whole entries.
fn arbitrary(rng: &mut Rng) -> Vec<u8> {
    let (length, small) = (rng.below(20), rng.below(4) > 0);
    (0..length)
        .map(|_| {
            let byte = rng.byte();
            if small {
                rng.pick(&[0, 0, 1, 2, 3, 0x80, byte])
            } else {
                byte
            }
        })
        .collect()
}
