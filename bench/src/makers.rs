//! The three that are timed, with the same functions.

use crate::lean;
use crate::library::{Library, LINKED};
use codeplug::c;
use obcf_second::edit::{Answer, Edit};
use obcf_second::{Counts, Edition, Refusal};

#[derive(Clone, Copy)]
pub enum Maker {
    /// The proved library, through the C interface.
    Proved(&'static Library),
    /// The second program as it stands.
    Second,
    /// Plain Rust written for speed (lean/).
    Lean,
}

pub const MAKERS: [Maker; 3] = [Maker::Proved(&LINKED), Maker::Second, Maker::Lean];

/// A file or a history in a buffer with spare bytes.
#[derive(Clone, PartialEq, Eq)]
pub struct Buffer {
    pub bytes: Vec<u8>,
    pub length: usize,
}

impl Buffer {
    pub fn new(bytes: &[u8], size: usize) -> Buffer {
        let mut buffer = Buffer {
            bytes: bytes.to_vec(),
            length: bytes.len(),
        };
        buffer.bytes.resize(size, 0xA5);
        buffer
    }

    /// Takes over another buffer of the same size whole.
    pub fn take(&mut self, other: &Buffer) {
        self.bytes.copy_from_slice(&other.bytes);
        self.length = other.length;
    }
}

/// The room and the history that a call is lent.
#[derive(Clone, PartialEq, Eq)]
pub struct Set {
    pub room: Buffer,
    pub past: Buffer,
}

impl Set {
    pub fn file(&self) -> &[u8] {
        &self.room.bytes[..self.room.length]
    }

    /// Takes an answer's lengths over.
    pub fn grown(&mut self, answer: &Answer) {
        self.room.length = answer.length;
        self.past.length = answer.history_length;
    }
}

fn answer(a: c::EditAnswer) -> Result<Answer, Refusal> {
    match a.number {
        0 => Ok(Answer {
            length: a.length,
            history_length: a.used,
            entries: a.entries,
        }),
        number => Err(Refusal {
            number,
            place: a.place,
        }),
    }
}

fn validated(a: c::ValidateAnswer) -> Result<Counts, Refusal> {
    match a.number {
        0 => Ok(Counts {
            contacts: a.contacts,
            channels: a.channels,
            banks: a.banks,
        }),
        number => Err(Refusal {
            number,
            place: a.place,
        }),
    }
}

impl Maker {
    pub fn edit(self, set: &mut Set, edit: &Edit, edition: Edition) -> Result<Answer, Refusal> {
        let (length, used) = (set.room.length, set.past.length);
        let (room, past) = (&mut set.room.bytes, &mut set.past.bytes);
        match self {
            // Both buffers are lent whole, with their sizes.
            Maker::Proved(library) => answer(unsafe {
                (library.codeplug_edit)(
                    room.as_mut_ptr(),
                    room.len(),
                    length,
                    past.as_mut_ptr(),
                    past.len(),
                    used,
                    edit.kind as usize,
                    edit.first,
                    edit.second,
                    edit.record.as_ptr(),
                    edit.record.len(),
                    edition as u32,
                )
            }),
            Maker::Second => obcf_second::edit::edit(room, length, past, used, edit, edition),
            Maker::Lean => lean::edit::edit(room, length, past, used, edit, edition),
        }
    }

    pub fn undo(self, set: &mut Set, edition: Edition) -> Result<Answer, Refusal> {
        let (length, used) = (set.room.length, set.past.length);
        let (room, past) = (&mut set.room.bytes, &mut set.past.bytes);
        match self {
            Maker::Proved(library) => answer(unsafe {
                (library.codeplug_undo)(
                    room.as_mut_ptr(),
                    room.len(),
                    length,
                    past.as_mut_ptr(),
                    past.len(),
                    used,
                    edition as u32,
                )
            }),
            Maker::Second => obcf_second::edit::undo(room, length, past, used, edition),
            Maker::Lean => lean::edit::undo(room, length, past, used, edition),
        }
    }

    pub fn validate(self, file: &[u8], edition: Edition) -> Result<Counts, Refusal> {
        match self {
            Maker::Proved(library) => validated(unsafe {
                (library.codeplug_validate)(file.as_ptr(), file.len(), edition as u32)
            }),
            Maker::Second => obcf_second::codeplug::validate(file, edition),
            Maker::Lean => lean::validate::validate(file, edition),
        }
    }

    /// Whether it has `validate_legacy` and `migrate`, which a library from before version 2.0.0 has not.
    pub fn reads_legacy(self) -> bool {
        match self {
            Maker::Proved(library) => library.codeplug_migrate.is_some(),
            _ => true,
        }
    }

    /// Whether it has the newer edition, which a library from before version 3.0.0 has not.
    pub fn has_editions(self) -> bool {
        match self {
            Maker::Proved(library) => library.major_version() >= 3,
            _ => true,
        }
    }

    pub fn validate_legacy(self, file: &[u8], edition: Edition) -> Result<Counts, Refusal> {
        match self {
            Maker::Proved(library) => {
                let validate = library.codeplug_validate_legacy.expect("it reads legacy");
                validated(unsafe { validate(file.as_ptr(), file.len(), edition as u32) })
            }
            Maker::Second => obcf_second::legacy::validate_legacy(file, edition),
            Maker::Lean => lean::validate::validate_legacy(file, edition),
        }
    }

    pub fn migrate(self, file: &mut [u8], edition: Edition) -> Result<Counts, Refusal> {
        match self {
            Maker::Proved(library) => {
                let migrate = library.codeplug_migrate.expect("it reads legacy");
                validated(unsafe { migrate(file.as_mut_ptr(), file.len(), edition as u32) })
            }
            Maker::Second => obcf_second::legacy::migrate(file, edition),
            Maker::Lean => lean::migrate::migrate(file, edition),
        }
    }
}
