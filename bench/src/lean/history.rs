//! The history: entries found by their ends, and a new one.

use obcf_second::history::{put_number, take_number};
use obcf_second::{Reason, Refusal};

/// The first entry of a history, and what comes after it.
pub struct First<'a> {
    pub start: usize,
    pub new_length: usize,
    pub old: &'a [u8],
    rest: &'a [u8],
}

pub fn first(mut history: &[u8]) -> Option<First<'_>> {
    let start = take_number(&mut history)?;
    let new_length = take_number(&mut history)?;
    let old_length = take_number(&mut history)?;
    let (old, rest) = history.split_at_checked(old_length)?;
    Some(First {
        start,
        new_length,
        old,
        rest,
    })
}

/// Where each entry ends, newest first; 31 unless the bytes are whole entries.
pub fn ends(history: &[u8]) -> Result<Vec<usize>, Refusal> {
    let mut rest = history;
    let mut ends = Vec::new();
    while !rest.is_empty() {
        rest = first(rest).ok_or(Refusal::from(Reason::HistoryForm))?.rest;
        ends.push(history.len() - rest.len());
    }
    Ok(ends)
}

/// The entry of the change from `old` to `new`.
pub fn entry(old: &[u8], new: &[u8]) -> Vec<u8> {
    let start = beginning(old, new);
    let (old, new) = (&old[start..], &new[start..]);
    let ending = ending(old, new);
    let gone = &old[..old.len() - ending];
    let mut bytes = Vec::with_capacity(9 + gone.len());
    for number in [start, new.len() - ending, gone.len()] {
        put_number(&mut bytes, number);
    }
    bytes.extend_from_slice(gone);
    bytes
}

const BLOCK: usize = 128;

fn beginning(a: &[u8], b: &[u8]) -> usize {
    let blocks = a.chunks_exact(BLOCK).zip(b.chunks_exact(BLOCK));
    let same = BLOCK * blocks.take_while(|(a, b)| a == b).count();
    let rest = a[same..].iter().zip(&b[same..]);
    same + rest.take_while(|(a, b)| a == b).count()
}

fn ending(a: &[u8], b: &[u8]) -> usize {
    let blocks = a.rchunks_exact(BLOCK).zip(b.rchunks_exact(BLOCK));
    let same = BLOCK * blocks.take_while(|(a, b)| a == b).count();
    let rest = a[..a.len() - same]
        .iter()
        .rev()
        .zip(b[..b.len() - same].iter().rev());
    same + rest.take_while(|(a, b)| a == b).count()
}
