//! The plain book (paper: The plain book).
//!
//! The book never looks at a room or a history. It knows the opening file
//! and the standing edits, and works everything else out from those. It
//! shares the reader with the rest of this crate, but none of the code that
//! carries out edits and undos on bytes.

use crate::address::Edition;
use crate::codeplug::validate;
use crate::edit::{Answer, Edit};
use crate::refusal::{Reason, Refusal};

/// One call, as it is fed to the book.
#[derive(Clone, Debug, PartialEq, Eq)]
pub enum Call {
    Edit(Edit),
    Undo,
}

pub struct Book {
    opening: Vec<u8>,
    room_size: usize,
    history_size: usize,
    edition: Edition,
    standing: Vec<Standing>,
}

struct Standing {
    edit: Edit,
    kept: bool,
}

impl Book {
    /// A book over an opening file that is valid by the edition and fits its
    /// room. Every call goes by the same edition.
    pub fn open(opening: Vec<u8>, room_size: usize, history_size: usize, edition: Edition) -> Book {
        Book {
            opening,
            room_size,
            history_size,
            edition,
            standing: Vec::new(),
        }
    }

    /// The opening file with the standing edits applied in order.
    pub fn file(&self) -> Vec<u8> {
        self.files()
            .pop()
            .expect("there is always the opening file")
    }

    pub fn call(&mut self, call: &Call) -> Result<Answer, Refusal> {
        match call {
            Call::Edit(edit) => self.edit(edit),
            Call::Undo => self.undo(),
        }
    }

    fn edit(&mut self, edit: &Edit) -> Result<Answer, Refusal> {
        let before = self.file();
        let mut lists = Lists::from_valid_file(&before);
        lists.apply(edit)?;
        let after = lists.to_file();
        validate(&after, self.edition)?;
        if after.len() > self.room_size {
            return Err(Reason::RoomFull.into());
        }
        if entry_length(&before, &after) > self.history_size {
            return Err(Reason::HistoryFull.into());
        }
        self.standing.push(Standing {
            edit: edit.clone(),
            kept: true,
        });
        while self.kept_lengths().iter().sum::<usize>() > self.history_size {
            let oldest = self.standing.iter_mut().find(|standing| standing.kept);
            oldest.expect("something is kept").kept = false;
        }
        Ok(self.answer())
    }

    fn undo(&mut self) -> Result<Answer, Refusal> {
        if !self.standing.iter().any(|standing| standing.kept) {
            return Err(Reason::HistoryEmpty.into());
        }
        self.standing.pop();
        Ok(self.answer())
    }

    fn answer(&self) -> Answer {
        let kept = self.kept_lengths();
        Answer {
            length: self.file().len(),
            history_length: kept.iter().sum(),
            entries: kept.len(),
        }
    }

    /// The opening file, and the file after each standing edit.
    fn files(&self) -> Vec<Vec<u8>> {
        let mut files = vec![self.opening.clone()];
        let mut lists = Lists::from_valid_file(&self.opening);
        for standing in &self.standing {
            lists
                .apply(&standing.edit)
                .expect("a standing edit was accepted");
            files.push(lists.to_file());
        }
        files
    }

    fn kept_lengths(&self) -> Vec<usize> {
        self.files()
            .windows(2)
            .zip(&self.standing)
            .filter(|(_, standing)| standing.kept)
            .map(|(pair, _)| entry_length(&pair[0], &pair[1]))
            .collect()
    }
}

/// The length of the entry between two files: three numbers and the old
/// bytes.
fn entry_length(before: &[u8], after: &[u8]) -> usize {
    let shorter = before.len().min(after.len());
    let mut p = 0;
    while p < shorter && before[p] == after[p] {
        p += 1;
    }
    let mut s = 0;
    while s < shorter - p && before[before.len() - 1 - s] == after[after.len() - 1 - s] {
        s += 1;
    }
    let k = after.len() - p - s;
    let m = before.len() - p - s;
    number_length(p) + number_length(k) + number_length(m) + m
}

/// How many groups of seven bits a number takes.
fn number_length(number: usize) -> usize {
    match number {
        0..=0x7F => 1,
        0x80..=0x3FFF => 2,
        _ => 3,
    }
}

/// A file as lists of records, which edits add to and take from.
struct Lists {
    /// Magic and version.
    front: Vec<u8>,
    /// Author, description and timestamp: what edit 12, set header, replaces.
    about: Vec<u8>,
    contacts: Vec<Vec<u8>>,
    channels: Vec<Vec<u8>>,
    banks: Vec<BankList>,
}

struct BankList {
    name: Vec<u8>,
    entries: Vec<u16>,
}

impl Lists {
    fn from_valid_file(file: &[u8]) -> Lists {
        let mut rest = file.iter().copied();
        let mut take = |n: usize| -> Vec<u8> { rest.by_ref().take(n).collect() };
        let number = |bytes: Vec<u8>| u16::from_le_bytes([bytes[0], bytes[1]]);

        let front = take(10);
        let about = take(72);
        let [contacts, channels, banks] = [(); 3].map(|_| number(take(2)));
        let contacts = (0..contacts).map(|_| take(39)).collect();
        let channels = (0..channels).map(|_| take(90)).collect();
        // The offsets follow from the banks.
        take(4 * usize::from(banks));
        let banks = (0..banks)
            .map(|_| {
                let name = take(32);
                let count = number(take(2));
                let entries = (0..count).map(|_| number(take(2))).collect();
                BankList { name, entries }
            })
            .collect();
        Lists {
            front,
            about,
            contacts,
            channels,
            banks,
        }
    }

    fn to_file(&self) -> Vec<u8> {
        let mut file = [self.front.as_slice(), &self.about].concat();
        for count in [self.contacts.len(), self.channels.len(), self.banks.len()] {
            file.extend((count as u16).to_le_bytes());
        }
        file.extend(self.contacts.concat());
        file.extend(self.channels.concat());
        let mut offset = 0u32;
        let mut end = Vec::new();
        for bank in &self.banks {
            file.extend(offset.to_le_bytes());
            offset += 34 + 2 * bank.entries.len() as u32;
            end.extend_from_slice(&bank.name);
            end.extend((bank.entries.len() as u16).to_le_bytes());
            end.extend(bank.entries.iter().flat_map(|n| n.to_le_bytes()));
        }
        file.extend(end);
        file
    }

    /// Applies an edit by its rule, or refuses it by 32 to 35. A refused
    /// edit leaves the lists as they were.
    fn apply(&mut self, edit: &Edit) -> Result<(), Refusal> {
        let Edit {
            kind,
            first: a,
            second: b,
            ref record,
        } = *edit;

        let record_sizes = [39, 0, 39, 90, 0, 90, 32, 0, 32, 2, 0, 72];
        let known = (1..=12).contains(&kind);
        if !known || record.len() != record_sizes[kind as usize - 1] {
            return Err(Reason::NoSuchEdit.into());
        }

        let entries = self.banks.get(a).map(|bank| bank.entries.len());
        let (first_valid, second_valid) = match kind {
            1 => (a <= self.contacts.len(), b == 0),
            2 | 3 => (a < self.contacts.len(), b == 0),
            4 => (a <= self.channels.len(), b == 0),
            5 | 6 => (a < self.channels.len(), b == 0),
            7 => (a <= self.banks.len(), b == 0),
            8 | 9 => (a < self.banks.len(), b == 0),
            10 => (a < self.banks.len(), entries.is_some_and(|n| b <= n)),
            11 => (a < self.banks.len(), entries.is_some_and(|n| b < n)),
            _ => (a == 0, b == 0),
        };
        if !first_valid || !second_valid {
            return Err(Reason::NoSuchPlace.into());
        }

        let growing = match kind {
            1 => self.contacts.len(),
            4 => self.channels.len(),
            7 => self.banks.len(),
            10 => entries.unwrap_or(0),
            _ => 0,
        };
        if growing == 65_535 {
            return Err(Reason::CountFull.into());
        }

        let in_use = match kind {
            2 => self
                .channels
                .iter()
                .any(|channel| names_contact(channel, a)),
            5 => self
                .banks
                .iter()
                .flat_map(|bank| &bank.entries)
                .any(|&n| usize::from(n) == a),
            _ => false,
        };
        if in_use {
            return Err(Reason::InUse.into());
        }

        match kind {
            1 => {
                self.contacts.insert(a, record.clone());
                self.renumber_contacts(|n| if n >= a { n + 1 } else { n });
            }
            2 => {
                self.contacts.remove(a);
                self.renumber_contacts(|n| if n > a { n - 1 } else { n });
            }
            3 => self.contacts[a] = record.clone(),
            4 => {
                self.renumber_channels(|n| if n >= a { n + 1 } else { n });
                self.channels.insert(a, record.clone());
            }
            5 => {
                self.renumber_channels(|n| if n > a { n - 1 } else { n });
                self.channels.remove(a);
            }
            6 => self.channels[a] = record.clone(),
            7 => self.banks.insert(
                a,
                BankList {
                    name: record.clone(),
                    entries: Vec::new(),
                },
            ),
            8 => {
                self.banks.remove(a);
            }
            9 => self.banks[a].name = record.clone(),
            10 => self.banks[a]
                .entries
                .insert(b, u16::from_le_bytes([record[0], record[1]])),
            11 => {
                self.banks[a].entries.remove(b);
            }
            // 12: set header.
            _ => self.about = record.clone(),
        }
        Ok(())
    }

    fn renumber_contacts(&mut self, change: impl Fn(usize) -> usize) {
        for channel in &mut self.channels {
            if let Some(index) = contact_bytes(channel) {
                let n = u16::from_le_bytes([index[0], index[1]]);
                if n != 65_535 {
                    let changed = change(usize::from(n)) as u16;
                    index.copy_from_slice(&changed.to_le_bytes());
                }
            }
        }
    }

    fn renumber_channels(&mut self, change: impl Fn(usize) -> usize) {
        for entry in self.banks.iter_mut().flat_map(|bank| &mut bank.entries) {
            *entry = change(usize::from(*entry)) as u16;
        }
    }
}

/// The contact index of a DMR or M17 channel.
fn contact_bytes(channel: &mut [u8]) -> Option<&mut [u8]> {
    match channel[0] {
        1 => Some(&mut channel[87..89]),
        2 => Some(&mut channel[88..90]),
        _ => None,
    }
}

fn names_contact(channel: &[u8], contact: usize) -> bool {
    let index = match channel[0] {
        1 => [channel[87], channel[88]],
        2 => [channel[88], channel[89]],
        _ => return false,
    };
    index != [0xFF, 0xFF] && usize::from(u16::from_le_bytes(index)) == contact
}
