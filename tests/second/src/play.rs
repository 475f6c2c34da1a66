//! Playing a script: its calls are made on lent buffers and in the plain book,
//! and both must give the same answers and hold the same file.

use std::io::{self, Write};

use crate::address::Edition;
use crate::book::{Book, Call};
use crate::edit::Answer;
use crate::lists::Lent;
use crate::script::Line;
use crate::{validate, Refusal, LONGEST};

/// A codeplug of any valid length fits the room.
pub const ROOM_SIZE: usize = LONGEST;
pub const HISTORY_SIZE: usize = 16_777_216;

/// A codeplug opened in lent buffers and in a book.
pub struct Player {
    pub lent: Lent,
    pub book: Book,
}

impl Player {
    /// Opens a codeplug with an empty history, unless reading it refuses. Every
    /// call goes by the same edition.
    pub fn open(opening: &[u8], edition: Edition) -> Result<Player, Refusal> {
        validate(opening, edition)?;
        let mut room = opening.to_vec();
        room.resize(ROOM_SIZE, 0);
        Ok(Player {
            lent: Lent {
                room,
                length: opening.len() as u64,
                history: vec![0; HISTORY_SIZE],
                history_length: 0,
                edition,
            },
            book: Book::open(opening.to_vec(), ROOM_SIZE, HISTORY_SIZE, edition),
        })
    }

    /// The codeplug as it is now.
    pub fn file(&self) -> &[u8] {
        &self.lent.room[..self.lent.length as usize]
    }

    /// Makes the calls in order and prints the answer of each on a line of
    /// `out`. A line whose record was refused makes no call. Stops with an
    /// error where the buffers and the book differ.
    pub fn play(&mut self, script: &[Line], out: &mut impl Write) -> io::Result<()> {
        for (n, line) in script.iter().enumerate() {
            let answer = match line {
                Ok(call) => self
                    .call(call)
                    .map_err(|differs| io::Error::other(format!("line {}: {differs}", n + 1)))?,
                Err(refusal) => Err(*refusal),
            };
            match answer {
                Ok(answer) => writeln!(out, "{answer}")?,
                Err(refusal) => writeln!(out, "{refusal}")?,
            }
        }
        Ok(())
    }

    /// The answer to a call, or how the book differs.
    fn call(&mut self, call: &Call) -> Result<Result<Answer, Refusal>, &'static str> {
        let answer = self.lent.call(call);
        if self.book.call(call) != answer {
            return Err("the book answers otherwise");
        }
        if self.book.file() != self.file() {
            return Err("the book holds another file");
        }
        Ok(answer)
    }
}
