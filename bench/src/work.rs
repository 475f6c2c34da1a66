//! What is timed, for each of the three: one call takes each file of a batch in turn.

use crate::lean;
use crate::library::Library;
use crate::makers::{Maker, Set};
use crate::timing::Timed;
use obcf_second::address::{number_to_text, text_to_number};
use obcf_second::edit::Edit;
use obcf_second::{Codeplug, Edition};
use std::hint::black_box;

/// The edition that files are timed by, but for those with hash addresses.
pub const OLDER: Edition = Edition::Older;

pub struct Validating<'a> {
    pub maker: Maker,
    pub sets: &'a [Set],
    pub edition: Edition,
}

impl Timed for Validating<'_> {
    fn call(&mut self) {
        for set in self.sets {
            black_box(self.maker.validate(black_box(set.file()), self.edition)).expect("accepted");
        }
    }
}

/// The proved library validates; the others read the file into lists.
pub struct Listing<'a> {
    pub maker: Maker,
    pub sets: &'a [Set],
}

impl Timed for Listing<'_> {
    fn call(&mut self) {
        for set in self.sets {
            let file = black_box(set.file());
            match self.maker {
                Maker::Proved(_) => {
                    black_box(self.maker.validate(file, OLDER)).expect("accepted");
                }
                Maker::Second => drop(black_box(Codeplug::read(file, OLDER)).expect("accepted")),
                Maker::Lean => drop(black_box(lean::read::lists(file, OLDER)).expect("accepted")),
            }
        }
    }
}

/// Validates, then reads every contact, channel, bank and entry.
pub struct Reading<'a> {
    pub maker: Maker,
    pub sets: &'a [Set],
}

impl Timed for Reading<'_> {
    fn call(&mut self) {
        for set in self.sets {
            let file = black_box(set.file());
            match self.maker {
                Maker::Proved(library) => read_proved(library, file),
                Maker::Second => drop(black_box(Codeplug::read(file, OLDER)).expect("accepted")),
                Maker::Lean => lean::read::read_all(file, OLDER).expect("accepted"),
            }
        }
    }
}

fn read_proved(c: &Library, file: &[u8]) {
    let (at, length) = (file.as_ptr(), file.len());
    let mut texts = [0; 64];
    let into = texts.as_mut_ptr();
    // Pointers and lengths are those of `file` and `texts`.
    unsafe {
        let counts = (c.codeplug_validate)(at, length, OLDER as u32);
        assert_eq!(counts.number, 0);
        for n in 0..usize::from(counts.contacts) {
            let contact = (c.codeplug_contact_prevalidated)(at, length, n, into, 32, OLDER as u32);
            black_box(&contact);
        }
        for n in 0..usize::from(counts.channels) {
            black_box(&(c.codeplug_channel_prevalidated)(at, length, n, into, 64));
        }
        for n in 0..usize::from(counts.banks) {
            let bank = (c.codeplug_bank_prevalidated)(at, length, n, into, 32);
            for i in 0..usize::from(bank.entries) {
                black_box(&(c.codeplug_bank_entry_prevalidated)(at, length, n, i));
            }
        }
    }
}

/// Legacy files.
pub struct ValidatingLegacy<'a> {
    pub maker: Maker,
    pub files: &'a [Vec<u8>],
}

impl Timed for ValidatingLegacy<'_> {
    fn call(&mut self) {
        for file in self.files {
            black_box(self.maker.validate_legacy(black_box(file), OLDER)).expect("accepted");
        }
    }
}

/// Migrates legacy files, each on a fresh copy.
pub struct Migrating<'a> {
    maker: Maker,
    files: &'a [Vec<u8>],
    copies: Vec<Vec<u8>>,
}

impl<'a> Migrating<'a> {
    pub fn new(maker: Maker, files: &'a [Vec<u8>]) -> Self {
        Migrating {
            maker,
            files,
            copies: files.to_vec(),
        }
    }
}

impl Timed for Migrating<'_> {
    fn ready(&mut self) {
        for (copy, file) in self.copies.iter_mut().zip(self.files) {
            copy.copy_from_slice(file);
        }
    }

    fn call(&mut self) {
        for copy in &mut self.copies {
            black_box(self.maker.migrate(black_box(copy), OLDER)).expect("accepted");
        }
    }
}

/// An edit of each file, or an undo where there is none, on fresh copies of both buffers.
pub struct Calling<'a> {
    maker: Maker,
    sets: &'a [Set],
    edits: Option<&'a [Edit]>,
    copies: Vec<Set>,
}

impl<'a> Calling<'a> {
    pub fn new(maker: Maker, sets: &'a [Set], edits: Option<&'a [Edit]>) -> Self {
        Calling {
            maker,
            sets,
            edits,
            copies: sets.to_vec(),
        }
    }
}

impl Timed for Calling<'_> {
    fn ready(&mut self) {
        for (copy, set) in self.copies.iter_mut().zip(self.sets) {
            copy.past.take(&set.past);
            copy.room.take(&set.room);
        }
    }

    fn call(&mut self) {
        for (n, copy) in self.copies.iter_mut().enumerate() {
            let answer = match self.edits {
                Some(edits) => self.maker.edit(copy, black_box(&edits[n]), OLDER),
                None => self.maker.undo(copy, OLDER),
            };
            black_box(answer).expect("accepted");
        }
    }
}

/// Texts to numbers.
pub struct Encoding<'a> {
    pub maker: Maker,
    pub texts: &'a [Vec<u8>],
    pub edition: Edition,
}

impl Timed for Encoding<'_> {
    fn call(&mut self) {
        let edition = black_box(self.edition);
        for text in self.texts {
            let text = black_box(text.as_slice());
            match self.maker {
                Maker::Proved(c) => {
                    let encode = c.codeplug_encode_callsign;
                    black_box(&unsafe { encode(text.as_ptr(), text.len(), edition as u32) });
                }
                Maker::Second => drop(black_box(text_to_number(text, edition))),
                Maker::Lean => drop(black_box(lean::address::encode(text, edition))),
            }
        }
    }
}

/// Numbers to texts.
pub struct Decoding<'a> {
    pub maker: Maker,
    pub numbers: &'a [u64],
    pub edition: Edition,
}

impl Timed for Decoding<'_> {
    fn call(&mut self) {
        let edition = black_box(self.edition);
        let mut text = [0; 9];
        for &number in self.numbers {
            let number = black_box(number);
            match self.maker {
                Maker::Proved(c) => {
                    let decode = c.codeplug_decode_address;
                    black_box(&unsafe { decode(number, text.as_mut_ptr(), 9, edition as u32) });
                }
                Maker::Second => drop(black_box(number_to_text(number, &mut text, edition))),
                Maker::Lean => drop(black_box(lean::address::decode(number, &mut text, edition))),
            }
            black_box(&text);
        }
    }
}
