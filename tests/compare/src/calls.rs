//! Lists of calls. After each call the answer and both whole buffers are
//! compared with the second program's, and with its book where one can be
//! opened.

use std::fmt::Debug;

use obcf_second::book::{Book, Call};
use obcf_second::edit::Answer;
use obcf_second::lists::{self, Lent};
use obcf_second::sample::Rng;
use obcf_second::{Edition, Refusal};

use crate::edition::By;
use crate::expected;
use crate::histories;
use crate::interface::{self as library, EditAnswer, EditRequest};
use crate::report::{bytes_differ, Compared, Difference, Pair};
use crate::work::Work;

/// A call and the edition that it goes by.
pub type Made = (Call, By);

/// Calls that the older edition refuses for a hash address: in the codeplug, in
/// an edit's result, and in what an undo would bring back.
pub const PAIRS: [Pair; 3] = [("edit", 8, 0), ("undo", 8, 0), ("undo", 39, 0)];

/// A list by one edition throughout, or now and then by both in turn.
pub fn list(work: &mut Work, rng: &mut Rng) -> Compared {
    let changes = rng.one_in(8);
    let mut by = By::any(rng);
    let made_for = if changes { Edition::Newer } else { by.edition };
    let (lent, calls) = lists::list(rng, made_for);
    let calls: Vec<Made> = calls
        .into_iter()
        .map(|call| {
            if changes && rng.one_in(3) {
                by = By::any(rng);
            }
            (call, by)
        })
        .collect();
    follow(work, lent, &calls)
}

/// The second program's buffers, and its book.
struct Second {
    lent: Lent,
    /// The book of a list goes by one edition: it ends with the first call by another.
    book: Option<(Book, Edition)>,
}

impl Second {
    /// The buffers before a list whose first call goes by this edition.
    fn open(lent: &Lent, edition: Edition) -> Second {
        let lent = Lent { edition, ..lent.clone() };
        let open = |file: &[u8]| Book::open(file.to_vec(), lent.room.len(), lent.history.len(), edition);
        let file = lent.file().filter(|_| lent.history_length == 0);
        let book = file.map(|file| (open(file), edition));
        Second { lent, book }
    }

    fn call(&mut self, (call, by): &Made) -> Result<Answer, Refusal> {
        self.lent.edition = by.edition;
        self.lent.call(call)
    }

    /// The book's answer and file.
    fn call_in_book(&mut self, (call, by): &Made) -> Option<(Result<Answer, Refusal>, Vec<u8>)> {
        self.book.take_if(|(_, edition)| *edition != by.edition);
        let (book, _) = self.book.as_mut()?;
        Some((book.call(call), book.file()))
    }

    /// The number of the newer edition's answer to a call.
    fn by_newer(&self, call: &Call) -> u8 {
        let mut lent = self.lent.clone();
        lent.edition = Edition::Newer;
        lent.call(call).map_or_else(|refusal| refusal.number, |_| 0)
    }
}

/// Makes the calls in both, the next one always with the lengths answered.
pub fn follow(work: &mut Work, opening: Lent, calls: &[Made]) -> Compared {
    let mut second = Second::open(&opening, calls[0].1.edition);
    work.room.lend(&opening.room);
    work.history.lend(&opening.history);
    let (mut length, mut used) = (opening.length as usize, opening.history_length as usize);
    for (n, call) in calls.iter().enumerate() {
        let differ = |found: &dyn Debug, right: &dyn Debug| difference(&opening, &calls[..=n], found, right);
        let given = (length, used);
        let found = made(work, given, call);
        let right = expected::call(second.call(call), given);
        count(work, &second, call, right.number);
        if found != right {
            return Err(differ(&found, &right));
        }
        for (fence, after) in [(&mut work.room, &second.lent.room), (&mut work.history, &second.lent.history)] {
            if fence.slice() != after.as_slice() || !fence.whole() {
                let (found, right) = bytes_differ(fence.slice(), after);
                return Err(differ(&found, &right));
            }
        }
        (length, used) = (found.length, found.used);
        if let Some((answer, file)) = second.call_in_book(call) {
            let right = expected::call(answer, given);
            if found != right {
                return Err(differ(&found, &("the book", right)));
            }
            if let Some((found, right)) = files_differ(&work.room.slice()[..length], &file) {
                return Err(differ(&found, &("the book", right)));
            }
        }
    }
    match second.lent.history.get(..used) {
        Some(history) => histories::count(work, history),
        None => Ok(()),
    }
}

/// Counts an answer, and where a hash address may be why the older edition
/// refuses, also what the newer says.
fn count(work: &mut Work, second: &Second, (call, by): &Made, number: u8) {
    work.tally.add(*by, number);
    if by.edition == Edition::Older && matches!(number, 8 | 39) {
        work.tally.add_pair((kind(call), number, second.by_newer(call)));
    }
}

pub fn kind(call: &Call) -> &'static str {
    match call {
        Call::Undo => "undo",
        Call::Edit(_) => "edit",
    }
}

fn files_differ(held: &[u8], file: &[u8]) -> Option<(String, String)> {
    (held != file).then(|| bytes_differ(held, &file[..file.len().min(held.len())]))
}

/// The library's answer to a call on the buffers that are lent.
pub fn made(work: &mut Work, (length, used): (usize, usize), (call, by): &Made) -> EditAnswer {
    let (room, history) = (work.room.slice(), work.history.slice());
    match call {
        Call::Undo => library::undo(room, length, history, used, *by),
        Call::Edit(edit) => {
            let request = EditRequest {
                kind: edit.kind as usize,
                first: edit.first,
                second: edit.second,
            };
            library::edit(room, length, history, used, request, work.record.lend(&edit.record), *by)
        }
    }
}

/// The last call alone, on the buffers as they were before it: the library
/// keeps nothing between calls.
fn difference(opening: &Lent, calls: &[Made], library: &dyn Debug, second: &dyn Debug) -> Box<Difference> {
    let (last, before) = calls.split_last().expect("a call was made");
    let mut lent = opening.clone();
    for (call, by) in before {
        lent.edition = by.edition;
        let _ = lent.call(call);
    }
    let call = (
        last,
        "length",
        lent.length,
        "history length",
        lent.history_length,
        "calls before",
        before.len(),
    );
    Difference::of(&call, &[("room", &lent.room), ("history", &lent.history)], library, second)
}
