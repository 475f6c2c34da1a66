//! The twelve edits and undo, by a changed copy of the file.

use super::history;
use super::layout::Layout;
use super::validate::validate;
use obcf_second::edit::{Answer, Edit};
use obcf_second::{Counts, Edition, Reason, Refusal};

pub fn edit(
    room: &mut [u8],
    length: usize,
    past: &mut [u8],
    used: usize,
    edit: &Edit,
    edition: Edition,
) -> Result<Answer, Refusal> {
    let (file, counts, ends) = open(room, length, past, used, edition)?;
    let new = apply(file, counts, edit)?;
    validate(&new, edition)?;
    refuse_unless(new.len() <= room.len(), Reason::RoomFull)?;
    let entry = history::entry(file, &new);
    refuse_unless(entry.len() <= past.len(), Reason::HistoryFull)?;
    let kept = ends
        .iter()
        .take_while(|&&end| entry.len() + end <= past.len())
        .count();
    let old = if kept == 0 { 0 } else { ends[kept - 1] };

    past.copy_within(..old, entry.len());
    past[..entry.len()].copy_from_slice(&entry);
    clear(past, entry.len() + old, used);
    room[..new.len()].copy_from_slice(&new);
    clear(room, new.len(), length);
    Ok(Answer {
        length: new.len(),
        history_length: entry.len() + old,
        entries: kept + 1,
    })
}

pub fn undo(
    room: &mut [u8],
    length: usize,
    past: &mut [u8],
    used: usize,
    edition: Edition,
) -> Result<Answer, Refusal> {
    let (file, _, ends) = open(room, length, past, used, edition)?;
    let top = *ends.first().ok_or(Refusal::from(Reason::HistoryEmpty))?;
    let restored = taken_back(file, &past[..used])
        .filter(|restored| restored.len() <= room.len() && validate(restored, edition).is_ok())
        .ok_or(Refusal::from(Reason::EntryDoesNotFit))?;

    past.copy_within(top..used, 0);
    clear(past, used - top, used);
    room[..restored.len()].copy_from_slice(&restored);
    clear(room, restored.len(), length);
    Ok(Answer {
        length: restored.len(),
        history_length: used - top,
        entries: ends.len() - 1,
    })
}

fn refuse_unless(allowed: bool, reason: Reason) -> Result<(), Refusal> {
    allowed.then_some(()).ok_or(reason.into())
}

/// Zeros from the new length up to the old.
fn clear(buffer: &mut [u8], new: usize, old: usize) {
    if new < old {
        buffer[new..old].fill(0);
    }
}

fn open<'a>(
    room: &'a [u8],
    length: usize,
    past: &[u8],
    used: usize,
    edition: Edition,
) -> Result<(&'a [u8], Counts, Vec<usize>), Refusal> {
    let stated = Refusal::from(Reason::StatedLength);
    let file = room.get(..length).ok_or(stated)?;
    let past = past.get(..used).ok_or(stated)?;
    let counts = validate(file, edition)?;
    Ok((file, counts, history::ends(past)?))
}

fn taken_back(file: &[u8], past: &[u8]) -> Option<Vec<u8>> {
    let top = history::first(past)?;
    let ending = file.get(top.start + top.new_length..)?;
    Some([&file[..top.start], top.old, ending].concat())
}

/// The file with `new` in place of `gone` bytes at `at`.
fn spliced(file: &[u8], at: usize, gone: usize, new: &[u8]) -> Vec<u8> {
    [&file[..at], new, &file[at + gone..]].concat()
}

/// The file after an edit: 32, 33, 34, 35. The result is not validated.
fn apply(file: &[u8], counts: Counts, edit: &Edit) -> Result<Vec<u8>, Refusal> {
    let l = Layout::of(counts);
    check(&l, edit)?;
    match edit.kind {
        1..=3 => contact_edit(file, &l, edit),
        4..=6 => channel_edit(file, &l, edit),
        7..=9 => bank_edit(file, &l, edit),
        10 | 11 => entry_edit(file, &l, edit),
        _ => Ok(spliced(file, 10, 72, &edit.record)),
    }
}

/// 32, and 33 but for an entry's place.
fn check(l: &Layout, edit: &Edit) -> Result<(), Refusal> {
    let kind = edit.kind;
    let size = match kind {
        1 | 3 => 39,
        4 | 6 => 90,
        7 | 9 => 32,
        10 => 2,
        12 => 72,
        2 | 5 | 8 | 11 => 0,
        _ => return Err(Reason::NoSuchEdit.into()),
    };
    refuse_unless(edit.record.len() == size, Reason::NoSuchEdit)?;
    let places = match kind {
        1..=3 => l.contacts + usize::from(kind == 1),
        4..=6 => l.channels + usize::from(kind == 4),
        7..=9 => l.banks + usize::from(kind == 7),
        10 | 11 => l.banks,
        _ => 1,
    };
    let second = edit.second == 0 || matches!(kind, 10 | 11);
    refuse_unless(edit.first < places && second, Reason::NoSuchPlace)
}

fn not_full(count: usize) -> Result<(), Refusal> {
    refuse_unless(count < 65_535, Reason::CountFull)
}

/// Edits 1, 2 and 3.
fn contact_edit(file: &[u8], l: &Layout, edit: &Edit) -> Result<Vec<u8>, Refusal> {
    let (first, at) = (edit.first, l.contact_at(edit.first));
    match edit.kind {
        1 => {
            not_full(l.contacts)?;
            let mut new = spliced(file, at, 0, &edit.record);
            add_at(&mut new, 82, 1);
            contact_indexes(&mut new[l.channel_at(0) + 39..][..90 * l.channels], |n| {
                n + u16::from(usize::from(n) >= first)
            });
            Ok(new)
        }
        2 => {
            let channels = &file[l.channel_at(0)..][..90 * l.channels];
            refuse_unless(!names(channels, first as u16), Reason::InUse)?;
            let mut new = spliced(file, at, 39, &[]);
            add_at(&mut new, 82, -1);
            contact_indexes(&mut new[l.channel_at(0) - 39..][..90 * l.channels], |n| {
                n - u16::from(usize::from(n) > first)
            });
            Ok(new)
        }
        _ => Ok(spliced(file, at, 39, &edit.record)),
    }
}

/// Edits 4, 5 and 6.
fn channel_edit(file: &[u8], l: &Layout, edit: &Edit) -> Result<Vec<u8>, Refusal> {
    let (first, at) = (edit.first, l.channel_at(edit.first));
    match edit.kind {
        4 => {
            not_full(l.channels)?;
            let mut new = spliced(file, at, 0, &edit.record);
            add_at(&mut new, 84, 1);
            entries(&mut new[l.bank_start() + 90..], |n| {
                *n += u16::from(usize::from(*n) >= first)
            });
            Ok(new)
        }
        5 => {
            let mut new = spliced(file, at, 90, &[]);
            add_at(&mut new, 84, -1);
            let mut held = false;
            entries(&mut new[l.bank_start() - 90..], |n| {
                held |= usize::from(*n) == first;
                *n -= u16::from(usize::from(*n) > first);
            });
            refuse_unless(!held, Reason::InUse)?;
            Ok(new)
        }
        _ => Ok(spliced(file, at, 90, &edit.record)),
    }
}

/// Edits 7, 8 and 9.
fn bank_edit(file: &[u8], l: &Layout, edit: &Edit) -> Result<Vec<u8>, Refusal> {
    let first = edit.first;
    let (at, table) = (l.bank_at(file, first), l.offset_at(first));
    match edit.kind {
        7 => {
            not_full(l.banks)?;
            let offset = ((at - l.bank_start()) as u32).to_le_bytes();
            let bank = [edit.record.as_slice(), &[0, 0]].concat();
            let (before, after) = (&file[table..at], &file[at..]);
            let mut new = [&file[..table], &offset, before, &bank, after].concat();
            add_at(&mut new, 86, 1);
            offsets(&mut new[table + 4..][..4 * (l.banks - first)], 34);
            Ok(new)
        }
        8 => {
            let end = l.bank_at(file, first + 1);
            let mut new = [&file[..table], &file[table + 4..at], &file[end..]].concat();
            add_at(&mut new, 86, -1);
            let later = &mut new[table..][..4 * (l.banks - first - 1)];
            offsets(later, -((end - at) as i32));
            Ok(new)
        }
        _ => Ok(spliced(file, at, 32, &edit.record)),
    }
}

/// Edits 10 and 11.
fn entry_edit(file: &[u8], l: &Layout, edit: &Edit) -> Result<Vec<u8>, Refusal> {
    let bank = l.bank_at(file, edit.first);
    let count = usize::from(u16::from_le_bytes([file[bank + 32], file[bank + 33]]));
    let inserts = edit.kind == 10;
    refuse_unless(
        edit.second < count + usize::from(inserts),
        Reason::NoSuchPlace,
    )?;
    refuse_unless(!inserts || count < 65_535, Reason::CountFull)?;
    let (gone, by) = if inserts { (0, 1) } else { (2, -1) };
    let mut new = spliced(file, bank + 34 + 2 * edit.second, gone, &edit.record);
    add_at(&mut new, bank + 32, by);
    let later = l.offset_at(edit.first + 1)..l.offset_at(l.banks);
    offsets(&mut new[later], 2 * i32::from(by));
    Ok(new)
}

fn add_at(bytes: &mut [u8], at: usize, by: i16) {
    let count = u16::from_le_bytes([bytes[at], bytes[at + 1]]).wrapping_add_signed(by);
    bytes[at..at + 2].copy_from_slice(&count.to_le_bytes());
}

fn index_at(channel: &[u8; 90]) -> Option<usize> {
    match channel[0] {
        1 => Some(87),
        2 => Some(88),
        _ => None,
    }
}

/// Whether a channel names the contact.
fn names(channels: &[u8], contact: u16) -> bool {
    let channels = channels.as_chunks::<90>().0.iter();
    let contact = contact.to_le_bytes();
    contact != [255; 2]
        && channels
            .filter_map(|c| index_at(c).map(|at| [c[at], c[at + 1]]))
            .any(|index| index == contact)
}

/// Changes every contact index but 65,535.
fn contact_indexes(channels: &mut [u8], change: impl Fn(u16) -> u16) {
    for channel in channels.as_chunks_mut::<90>().0 {
        if let Some(at) = index_at(channel) {
            let n = u16::from_le_bytes([channel[at], channel[at + 1]]);
            if n != 65_535 {
                channel[at..at + 2].copy_from_slice(&change(n).to_le_bytes());
            }
        }
    }
}

/// Changes every bank entry.
fn entries(mut banks: &mut [u8], mut change: impl FnMut(&mut u16)) {
    while !banks.is_empty() {
        let count = usize::from(u16::from_le_bytes([banks[32], banks[33]]));
        let (bank, rest) = banks.split_at_mut(34 + 2 * count);
        for entry in bank[34..].as_chunks_mut::<2>().0 {
            let mut n = u16::from_le_bytes(*entry);
            change(&mut n);
            *entry = n.to_le_bytes();
        }
        banks = rest;
    }
}

fn offsets(table: &mut [u8], by: i32) {
    for offset in table.as_chunks_mut::<4>().0 {
        *offset = u32::from_le_bytes(*offset)
            .wrapping_add_signed(by)
            .to_le_bytes();
    }
}
