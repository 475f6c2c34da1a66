//! One file, validated and read by both.

use std::fmt::Debug;

use obcf_second::codeplug::HEADER_SIZE;
use obcf_second::record::{Contact, CONTACT_SIZE, TEXT_SIZE};
use obcf_second::sample::Rng;
use obcf_second::{Codeplug, Reason, Refusal};

use crate::edition::By;
use crate::expected;
use crate::fence::Fence;
use crate::interface as library;
use crate::report::{bytes_differ, Compared, Difference, Tally};

/// The longest text buffer that is lent.
const LONGEST_TEXTS: usize = 80;

/// A file that is lent to the library, and what the second program reads.
pub struct Reading<'a> {
    file: &'a [u8],
    by: By,
    codeplug: Result<Codeplug, Refusal>,
    texts: &'a mut Fence,
    tally: &'a mut Tally,
}

/// The readers that validate the file each time, and those that do not.
#[derive(Clone, Copy, Debug)]
pub enum How {
    Validating = 0,
    Prevalidated = 1,
}

#[derive(Clone, Copy, Debug)]
pub enum Read {
    Validate,
    Header,
    Contact(usize, How),
    Channel(usize, How),
    Bank(usize, How),
    Entry(usize, usize, How),
}

impl<'a> Reading<'a> {
    pub fn of(file: &'a [u8], by: By, texts: &'a mut Fence, tally: &'a mut Tally) -> Reading<'a> {
        let codeplug = Codeplug::read(file, by.edition);
        Reading::holding(file, by, codeplug, texts, tally)
    }

    /// A file that has to read as this, by the edition.
    pub fn holding(file: &'a [u8], by: By, codeplug: Result<Codeplug, Refusal>, texts: &'a mut Fence, tally: &'a mut Tally) -> Reading<'a> {
        Reading {
            file,
            by,
            codeplug,
            texts,
            tally,
        }
    }

    pub fn codeplug(&self) -> Option<&Codeplug> {
        self.codeplug.as_ref().ok()
    }

    pub fn validated(&mut self) -> Compared {
        let found = library::validate(self.file, self.by);
        let counts = self.codeplug.as_ref().map(|codeplug| codeplug.header.counts);
        let right = expected::validated(counts.map_err(|&refusal| refusal));
        self.tally.add(self.by, right.number);
        alike((Read::Validate, self.by), &[("file", self.file)], found, right)
    }

    pub fn read(&mut self, rng: &mut Rng, what: Read) -> Compared {
        match what {
            Read::Validate => self.validated(),
            Read::Entry(bank, i, how) => self.entry(bank, i, how),
            Read::Contact(..) | Read::Bank(..) => self.with_texts(rng, what, TEXT_SIZE),
            Read::Header | Read::Channel(..) => self.with_texts(rng, what, 2 * TEXT_SIZE),
        }
    }

    fn entry(&mut self, bank: usize, i: usize, how: How) -> Compared {
        let found = match how {
            How::Validating => library::bank_entry(self.file, bank, i, self.by),
            How::Prevalidated => library::bank_entry_prevalidated(self.file, bank, i),
        };
        let banks = self.codeplug.as_ref().map(|codeplug| &codeplug.banks).map_err(|&refusal| refusal);
        let entries = banks.and_then(|banks| pick(banks, bank)).map(|bank| &bank.entries);
        let right = expected::entry(entries.and_then(|entries| pick(entries, i)).copied(), i);
        self.tally.add(self.by, right.number);
        alike((Read::Entry(bank, i, how), self.by), &[("file", self.file)], found, right)
    }

    /// A reader with a text buffer, which is most often just long enough.
    fn with_texts(&mut self, rng: &mut Rng, what: Read, size: usize) -> Compared {
        let (before, length) = buffer(rng, size);
        let before = &before[..length];
        self.texts.lend(before);
        let mut after = [0; LONGEST_TEXTS];
        let after = &mut after[..length];
        after.copy_from_slice(before);
        let too_short = (length < size).then_some(Reason::OutputBuffer.into());
        self.answer(what, too_short, before, after)?;
        self.same_texts(what, before, after)
    }

    /// A reader's answer. The texts that it has to write are put into `after`.
    fn answer(&mut self, what: Read, too_short: Option<Refusal>, before: &[u8], after: &mut [u8]) -> Compared {
        let (file, by, texts) = (self.file, self.by, self.texts.slice());
        let codeplug = too_short.map_or(self.codeplug.as_ref().map_err(|&refusal| refusal), Err);
        macro_rules! compare {
            ($found:expr, $right:expr) => {{
                let (found, right) = ($found, $right);
                self.tally.add(by, right.number);
                alike((what, by), &[("file", file), ("texts", before)], found, right)
            }};
        }
        match what {
            Read::Header => {
                let answer = codeplug.map(|codeplug| &codeplug.header);
                put_texts(after, answer, |header| [&header.author, &header.description]);
                compare!(library::header(file, texts, by), expected::header(answer))
            }
            Read::Contact(n, how) => {
                let answer = codeplug.and_then(|codeplug| pick(&codeplug.contacts, n));
                put_texts(after, answer, |contact| [&contact.name]);
                let reader = [library::contact, library::contact_prevalidated][how as usize];
                compare!(reader(file, n, texts, by), expected::contact(answer))
            }
            Read::Channel(n, how) => {
                let answer = codeplug.and_then(|codeplug| pick(&codeplug.channels, n));
                put_texts(after, answer, |channel| [&channel.name, &channel.description]);
                let reader = [library::channel, library::channel_prevalidated][how as usize];
                compare!(reader(file, n, texts, by), expected::channel(answer))
            }
            Read::Bank(n, how) => {
                let answer = codeplug.and_then(|codeplug| pick(&codeplug.banks, n));
                put_texts(after, answer, |bank| [&bank.name]);
                let reader = [library::bank, library::bank_prevalidated][how as usize];
                compare!(reader(file, n, texts, by), expected::bank(answer))
            }
            Read::Validate | Read::Entry(..) => unreachable!("these have no texts"),
        }
    }

    /// The whole text buffer, after a reader.
    fn same_texts(&mut self, call: Read, before: &[u8], after: &[u8]) -> Compared {
        if self.texts.slice() != after || !self.texts.whole() {
            let (found, right) = bytes_differ(self.texts.slice(), after);
            return Err(Difference::of(
                &(call, self.by),
                &[("file", self.file), ("texts", before)],
                &found,
                &right,
            ));
        }
        Ok(())
    }
}

/// A text buffer with something in it, and its length: any, one less or one
/// more than the size asked for, or most often just that.
fn buffer(rng: &mut Rng, size: usize) -> ([u8; LONGEST_TEXTS], usize) {
    let number = rng.number();
    let length = match number % 8 {
        0 => (number >> 8) as usize % (LONGEST_TEXTS + 1),
        1 => size - 1,
        2 => size + 1,
        _ => size,
    };
    let mut bytes = [0; LONGEST_TEXTS];
    for (i, byte) in bytes.iter_mut().enumerate() {
        *byte = (number >> 16) as u8 ^ (i as u8).wrapping_mul(37);
    }
    (bytes, length)
}

/// The readers that do not validate, of an invalid file: none reads or
/// writes outside what it was lent, and a contact is answered by its record
/// alone. The second program has no such readers of channels and banks.
impl Reading<'_> {
    pub fn read_invalid(&mut self, n: usize) -> Compared {
        let file = self.file;
        let before = [0xEE; 2 * TEXT_SIZE];
        library::channel_prevalidated(file, n, self.texts.lend(&before), self.by);
        self.only_texts(n, 2 * TEXT_SIZE)?;
        library::bank_prevalidated(file, n, self.texts.lend(&before), self.by);
        self.only_texts(n, TEXT_SIZE)?;
        library::bank_entry_prevalidated(file, n, n);
        let found = library::contact_prevalidated(file, n, self.texts.lend(&before), self.by);
        self.only_texts(n, TEXT_SIZE)?;
        if file.len() < HEADER_SIZE {
            return Ok(());
        }
        let answer = contact_alone(file, n, self.by);
        let answer = answer.as_ref().map_err(|&refusal| refusal);
        let right = expected::contact(answer);
        self.tally.add(self.by, right.number);
        let mut after = before;
        put_texts(&mut after, answer, |contact| [&contact.name]);
        let call = Read::Contact(n, How::Prevalidated);
        alike((call, self.by), &[("file", file), ("texts", &before)], found, right)?;
        self.same_texts(call, &before, &after)
    }

    /// Nothing but the texts may have changed.
    fn only_texts(&mut self, n: usize, size: usize) -> Compared {
        let kept = self.texts.slice()[size..].iter().all(|&byte| byte == 0xEE);
        if kept && self.texts.whole() {
            return Ok(());
        }
        Err(Difference::of(
            &("a reader of an invalid file", n),
            &[("file", self.file)],
            &"other bytes written",
            &"",
        ))
    }
}

/// Contact n of a file with a header, by its record alone.
fn contact_alone(file: &[u8], n: usize, by: By) -> Result<Contact, Refusal> {
    let count = usize::from(u16::from_le_bytes([file[82], file[83]]));
    if n >= count {
        return Err(Reason::NoSuchPlace.into());
    }
    let place = HEADER_SIZE + CONTACT_SIZE * n;
    Contact::read(&file[place.min(file.len())..], by.edition).map_err(|refusal| Refusal {
        place: place + refusal.place,
        ..refusal
    })
}

fn pick<T>(list: &[T], n: usize) -> Result<&T, Refusal> {
    list.get(n).ok_or(Reason::NoSuchPlace.into())
}

/// The texts of an answer with their padding, one after the other.
fn put_texts<T, const N: usize>(buffer: &mut [u8], answer: Result<&T, Refusal>, texts: impl Fn(&T) -> [&Vec<u8>; N]) {
    let Ok(answer) = answer else { return };
    for (n, text) in texts(answer).into_iter().enumerate() {
        let field = &mut buffer[TEXT_SIZE * n..TEXT_SIZE * (n + 1)];
        field.fill(0);
        field[..text.len()].copy_from_slice(text);
    }
}

fn alike<A: Debug + PartialEq>(call: (Read, By), lent: &[(&'static str, &[u8])], found: A, right: A) -> Compared {
    if found != right {
        return Err(Difference::of(&call, lent, &found, &right));
    }
    Ok(())
}
