//! The corpus of calls: lists of edits and undos on the same two buffers, and
//! the lines expected of them. README.md gives the format.

use obcf_second::book::{Book, Call};
use obcf_second::lists::{list, Lent};
use obcf_second::sample::Rng;
use obcf_second::Edition;

use crate::corpus::{checksum, Case, LONGEST_CASE};

/// A list of calls and its lines.
pub fn case(rng: &mut Rng) -> (Vec<u8>, String) {
    let (lent, calls) = next_list(rng);
    let case = body(&lent, &calls);
    (case, answers(lent, &calls).join("\n"))
}

/// The next list that a case can hold. All its calls go by one edition.
pub fn next_list(rng: &mut Rng) -> (Lent, Vec<Call>) {
    let edition = rng.pick(&Edition::BOTH);
    let (lent, calls) = list(rng, edition);
    if body(&lent, &calls).len() > LONGEST_CASE {
        return next_list(rng);
    }
    (lent, calls)
}

fn body(lent: &Lent, calls: &[Call]) -> Vec<u8> {
    let calls = calls.iter().fold(Case::default(), |case, call| match call {
        Call::Undo => case.u8(0),
        Call::Edit(edit) => case
            .u8(1)
            .raw(&edit.kind.to_le_bytes())
            .raw(&(edit.first as u64).to_le_bytes())
            .raw(&(edit.second as u64).to_le_bytes())
            .bytes(&edit.record),
    });
    Case::default()
        .raw(&(lent.room.len() as u32).to_le_bytes())
        .raw(&(lent.history.len() as u32).to_le_bytes())
        .raw(&(calls.0.len() as u32).to_le_bytes())
        .raw(&(lent.edition as u32).to_le_bytes())
        .raw(&lent.length.to_le_bytes())
        .raw(&lent.history_length.to_le_bytes())
        .raw(&lent.room)
        .raw(&lent.history)
        .raw(&calls.0)
        .0
}

/// Makes the calls and gives their lines. Where a book can be opened over the
/// buffers, it must give the same answers and hold the same file.
pub fn answers(mut lent: Lent, calls: &[Call]) -> Vec<String> {
    let mut book = match lent.file() {
        Some(file) if lent.history_length == 0 => Some(Book::open(
            file.to_vec(),
            lent.room.len(),
            lent.history.len(),
            lent.edition,
        )),
        _ => None,
    };
    let mut lines = Vec::new();
    for call in calls {
        let answer = lent.call(call);
        if let Some(book) = &mut book {
            assert_eq!(
                answer,
                book.call(call),
                "the book answers otherwise: {call:?}"
            );
            assert!(
                lent.file() == Some(&book.file()),
                "the book holds another file: {call:?}"
            );
        }
        let words = match answer {
            Ok(answer) => answer.to_string(),
            Err(refusal) => refusal.to_string(),
        };
        let (room, history) = (checksum(&lent.room), checksum(&lent.history));
        lines.push(format!("{words} room {room} history {history}"));
    }
    lines
}
