//! The calls edit and undo, and the entries of a history.

use codeplug::c::{EditAnswer, HistoryAnswer};
use obcf_second::edit::{self, Answer, Edit};
use obcf_second::history;
use obcf_second::Refusal;

use crate::edition::edition_of;
use crate::refused::FromRefusal;
use crate::slices::{buffer, bytes};

/// Beside a refusal, the lengths given.
fn called(result: Result<Answer, Refusal>, length: usize, used: usize) -> EditAnswer {
    match result {
        Err(Refusal { number, place }) => EditAnswer { number, place, length, used, entries: 0 },
        Ok(a) => EditAnswer { length: a.length, used: a.history_length, entries: a.entries, ..EditAnswer::default() },
    }
}

#[no_mangle]
pub unsafe extern "C" fn second_edit(
    room: *mut u8,
    room_size: usize,
    length: usize,
    history: *mut u8,
    history_size: usize,
    used: usize,
    kind: usize,
    first: usize,
    second: usize,
    record: *const u8,
    record_length: usize,
    edition: u32,
) -> EditAnswer {
    let (room, history) = unsafe { (buffer(room, room_size), buffer(history, history_size)) };
    let record = unsafe { bytes(record, record_length) }.to_vec();
    let edit = Edit { kind: kind as u64, first, second, record };
    called(edit::edit(room, length, history, used, &edit, edition_of(edition)), length, used)
}

#[no_mangle]
pub unsafe extern "C" fn second_undo(
    room: *mut u8,
    room_size: usize,
    length: usize,
    history: *mut u8,
    history_size: usize,
    used: usize,
    edition: u32,
) -> EditAnswer {
    let (room, history) = unsafe { (buffer(room, room_size), buffer(history, history_size)) };
    called(edit::undo(room, length, history, used, edition_of(edition)), length, used)
}

#[no_mangle]
pub unsafe extern "C" fn second_history_entries(history: *const u8, used: usize) -> HistoryAnswer {
    match history::count(unsafe { bytes(history, used) }) {
        Err(refusal) => HistoryAnswer::refused(refusal),
        Ok(entries) => HistoryAnswer { entries, ..HistoryAnswer::default() },
    }
}
