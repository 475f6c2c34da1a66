//! The history of edits (paper: The history).

use crate::refusal::{Reason, Refusal};
use crate::LONGEST;

/// One entry: the `old` bytes were where the `new_length` bytes at `start` are
/// now. In the paper `old` is the m bytes, `new_length` is k and `start` is p.
#[derive(Clone, Debug, PartialEq, Eq)]
pub struct Entry {
    pub start: usize,
    pub new_length: usize,
    pub old: Vec<u8>,
}

impl Entry {
    /// The entry of the change from `old` to `new`: first the longest common
    /// beginning, then the longest common ending of what is left.
    pub fn between(old: &[u8], new: &[u8]) -> Entry {
        let start = common(old.iter(), new.iter());
        let (old, new) = (&old[start..], &new[start..]);
        let ending = common(old.iter().rev(), new.iter().rev());
        Entry {
            start,
            new_length: new.len() - ending,
            old: old[..old.len() - ending].to_vec(),
        }
    }

    pub fn to_bytes(&self) -> Vec<u8> {
        let mut bytes = Vec::new();
        for number in [self.start, self.new_length, self.old.len()] {
            put_number(&mut bytes, number);
        }
        bytes.extend_from_slice(&self.old);
        bytes
    }

    /// The file before the change; `None` where the changed bytes pass the
    /// end of `file`.
    pub fn take_back(&self, file: &[u8]) -> Option<Vec<u8>> {
        let after = self.start.checked_add(self.new_length)?;
        let ending = file.get(after..)?;
        Some([&file[..self.start], &self.old, ending].concat())
    }
}

/// The length of the longest common beginning of two sequences.
fn common<'a>(a: impl Iterator<Item = &'a u8>, b: impl Iterator<Item = &'a u8>) -> usize {
    a.zip(b).take_while(|(a, b)| a == b).count()
}

/// The entries of a history, newest first; 31 unless it is whole entries.
pub fn parse(mut bytes: &[u8]) -> Result<Vec<Entry>, Refusal> {
    let mut entries = Vec::new();
    while !bytes.is_empty() {
        entries.push(take_entry(&mut bytes).ok_or(Refusal::from(Reason::HistoryForm))?);
    }
    Ok(entries)
}

/// How many entries a history holds; 31 unless it is whole entries.
pub fn count(bytes: &[u8]) -> Result<usize, Refusal> {
    Ok(parse(bytes)?.len())
}

fn take_entry(bytes: &mut &[u8]) -> Option<Entry> {
    let start = take_number(bytes)?;
    let new_length = take_number(bytes)?;
    let old_length = take_number(bytes)?;
    let (old, rest) = bytes.split_at_checked(old_length)?;
    *bytes = rest;
    Some(Entry {
        start,
        new_length,
        old: old.to_vec(),
    })
}

/// Appends a number in groups of seven bits, low group first, the top bit
/// set on all but the last.
pub fn put_number(bytes: &mut Vec<u8>, mut number: usize) {
    while number >= 0x80 {
        bytes.push(number as u8 | 0x80);
        number >>= 7;
    }
    bytes.push(number as u8);
}

/// Takes a number off the front; `None` where it is cut off, not in its
/// shortest form or too large.
pub fn take_number(bytes: &mut &[u8]) -> Option<usize> {
    let last = bytes.iter().position(|byte| byte & 0x80 == 0)?;
    let (groups, rest) = bytes.split_at(last + 1);
    // A last group of zero could have been left out.
    if last > 0 && groups[last] == 0 {
        return None;
    }
    let mut number = 0usize;
    for group in groups.iter().rev() {
        number = number << 7 | usize::from(group & 0x7F);
        // Lower groups can only make it larger.
        if number > LONGEST {
            return None;
        }
    }
    *bytes = rest;
    Some(number)
}
