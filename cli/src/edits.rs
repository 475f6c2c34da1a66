//! The twelve edits, and a refused one in words.
use crate::explain::{label, other_mode};
use crate::layout;
use crate::reading::address_help;
use codeplug::{Address, Channel, Codeplug, Contact, ContactInfo, EditAnswer, Edition, Info, Refused};

/// There is no such place.
const NO_PLACE: Refused = Refused { number: 33, place: 0 };

pub enum Edit {
    InsertContact(usize, Contact),
    RemoveContact(usize),
    ReplaceContact(usize, Contact),
    InsertChannel(usize, Channel),
    RemoveChannel(usize),
    ReplaceChannel(usize, Channel),
    InsertBank(usize, String),
    RemoveBank(usize),
    RenameBank(usize, String),
    InsertEntry(usize, usize, u16),
    RemoveEntry(usize, usize),
    SetHeader { author: String, description: String, timestamp: u64 },
}

impl Edit {
    pub fn make(&self, codeplug: &mut Codeplug) -> Result<EditAnswer, Refused> {
        match self {
            Edit::InsertContact(place, contact) => codeplug.insert_contact(*place, contact),
            Edit::RemoveContact(n) => codeplug.remove_contact(*n),
            Edit::ReplaceContact(n, contact) => codeplug.replace_contact(*n, contact),
            Edit::InsertChannel(place, channel) => codeplug.insert_channel(*place, channel),
            Edit::RemoveChannel(n) => codeplug.remove_channel(*n),
            Edit::ReplaceChannel(n, channel) => codeplug.replace_channel(*n, channel),
            Edit::InsertBank(place, name) => codeplug.insert_bank(*place, name),
            Edit::RemoveBank(n) => codeplug.remove_bank(*n),
            Edit::RenameBank(n, name) => codeplug.rename_bank(*n, name),
            Edit::InsertEntry(bank, place, channel) => codeplug.insert_entry(*bank, *place, *channel),
            Edit::RemoveEntry(bank, place) => codeplug.remove_entry(*bank, *place),
            Edit::SetHeader { author, description, timestamp } => codeplug.set_header(author, description, *timestamp),
        }
    }

    /// Why the library refused it: the refusal, with its place in the codeplug as it would be, and words.
    ///
    /// Refusals 5 to 8 are of the record that is written, which the library's writers refuse at a place in it, before the edit is tried.
    pub fn refusal(&self, refused: Refused, codeplug: &Codeplug) -> (Refused, String) {
        let of_record = (5..=8).contains(&refused.number);
        if of_record && self.is_past_the_end(codeplug) {
            return (NO_PLACE, self.no_place(codeplug));
        }
        let words = match refused.number {
            5..=8 => self.bad_record(refused, codeplug),
            9 => self.bad_contact(refused, codeplug),
            33 => self.no_place(codeplug),
            35 => self.users(codeplug),
            _ => self.other(refused, codeplug),
        };
        let start = if of_record { self.record_start(codeplug) } else { 0 };
        (Refused { place: start + refused.place, ..refused }, words)
    }

    /// Whether there is no place for the record: 33, which comes before any refusal of it. A new one stands at most behind the last.
    fn is_past_the_end(&self, codeplug: &Codeplug) -> bool {
        let last = |n: &usize| n.checked_sub(1);
        match self {
            Edit::InsertContact(n, _) => last(n).is_some_and(|last| codeplug.contact(last).is_err()),
            Edit::ReplaceContact(n, _) => codeplug.contact(*n).is_err(),
            Edit::InsertChannel(n, _) => last(n).is_some_and(|last| codeplug.channel(last).is_err()),
            Edit::ReplaceChannel(n, _) => codeplug.channel(*n).is_err(),
            Edit::InsertBank(n, _) => last(n).is_some_and(|last| codeplug.bank(last).is_err()),
            Edit::RenameBank(n, _) => codeplug.bank(*n).is_err(),
            _ => false,
        }
    }

    /// Where the record that is written would begin.
    fn record_start(&self, codeplug: &Codeplug) -> usize {
        let file = codeplug.bytes();
        let counts = layout::counts(file);
        match self {
            Edit::InsertContact(n, _) | Edit::ReplaceContact(n, _) => layout::contact_start(*n),
            Edit::InsertChannel(n, _) | Edit::ReplaceChannel(n, _) => layout::channel_start(&counts, *n),
            Edit::InsertBank(n, _) => layout::bank_start(file, *n) + layout::OFFSET_SIZE,
            Edit::RenameBank(n, _) => layout::bank_start(file, *n),
            _ => layout::AUTHOR,
        }
    }

    /// The record that is written, in words.
    fn written(&self, codeplug: &Codeplug) -> String {
        match self {
            Edit::InsertContact(..) => "new contact".into(),
            Edit::InsertChannel(..) => "new channel".into(),
            Edit::InsertBank(..) => "new bank".into(),
            Edit::ReplaceContact(n, _) => contact_of(codeplug, *n),
            Edit::ReplaceChannel(n, _) => channel_of(codeplug, *n),
            Edit::RenameBank(n, _) => bank_of(codeplug, *n),
            _ => "header".into(),
        }
    }

    fn bad_record(&self, refused: Refused, codeplug: &Codeplug) -> String {
        let (field, text) = match self {
            Edit::InsertContact(_, contact) | Edit::ReplaceContact(_, contact) => {
                let mode = if matches!(contact.info, ContactInfo::M17(_)) { 2 } else { 1 };
                (layout::contact_field(mode, refused.place), &contact.name)
            }
            Edit::InsertChannel(_, channel) | Edit::ReplaceChannel(_, channel) => {
                let field = nibble(&channel.info, layout::channel_field(channel.info.mode(), refused.place));
                (field, if field == "name" { &channel.name } else { &channel.description })
            }
            Edit::SetHeader { author, .. } if refused.place == 0 => ("author", author),
            Edit::SetHeader { description, .. } => ("description", description),
            Edit::InsertBank(_, name) | Edit::RenameBank(_, name) => ("name", name),
            _ => return refused.text().into(),
        };
        let fault = match refused.number {
            5 => bad_text(text),
            8 => self.bad_address(codeplug.edition()),
            _ => rule(field).to_string(),
        };
        format!("{}, {field}: {fault}", self.written(codeplug))
    }

    fn bad_address(&self, edition: Edition) -> String {
        let rule = match edition {
            Edition::Older => "has to be that of a callsign, 1 to 262143999999999",
            Edition::Newer => "has to be that of a callsign or a hash address, 1 to 268697599999999",
        };
        match self {
            Edit::InsertContact(_, Contact { info: ContactInfo::M17(Address::Callsign(number)), .. })
            | Edit::ReplaceContact(_, Contact { info: ContactInfo::M17(Address::Callsign(number)), .. }) => {
                format!("{rule}, and is {number}{}", address_help(*number, edition))
            }
            _ => rule.into(),
        }
    }

    fn bad_contact(&self, refused: Refused, codeplug: &Codeplug) -> String {
        let count = codeplug.counts().contacts;
        let written = self.written(codeplug);
        let (Edit::InsertChannel(_, channel) | Edit::ReplaceChannel(_, channel)) = self else {
            let first = layout::contact_start(count.into());
            let caller = (refused.place - first.min(refused.place)) / codeplug::CHANNEL_SIZE;
            let own = codeplug.channel(caller).map_or("of another mode", |channel| if channel.info.mode() == 1 { "DMR" } else { "M17" });
            return format!("{written}, mode: {} calls it, and is {own}", channel_of(codeplug, caller));
        };
        match channel.info.contact().unwrap_or(0) {
            contact if contact >= count => format!("{written}, contact: there is no contact {contact}: the codeplug has {count}"),
            contact => format!("{written}, contact: {}", other_mode(&contact_of(codeplug, contact.into()), channel.info.mode())),
        }
    }

    pub fn no_place(&self, codeplug: &Codeplug) -> String {
        let counts = codeplug.counts();
        let no = |part: &str, n: &usize, count: u16| format!("there is no {part} {n}: the codeplug has {count}");
        let past = |part: &str, n: &usize, count: u16| format!("place {n} is past the end: a new {part} has a place from 0 to {count}");
        match self {
            Edit::InsertContact(place, _) => past("contact", place, counts.contacts),
            Edit::RemoveContact(n) | Edit::ReplaceContact(n, _) => no("contact", n, counts.contacts),
            Edit::InsertChannel(place, _) => past("channel", place, counts.channels),
            Edit::RemoveChannel(n) | Edit::ReplaceChannel(n, _) => no("channel", n, counts.channels),
            Edit::InsertBank(place, _) => past("bank", place, counts.banks),
            Edit::RemoveBank(n) | Edit::RenameBank(n, _) => no("bank", n, counts.banks),
            Edit::InsertEntry(bank, place, _) => match codeplug.bank(*bank) {
                Ok(found) => past("entry", place, found.entries),
                Err(_) => no("bank", bank, counts.banks),
            },
            Edit::RemoveEntry(bank, place) => match codeplug.bank(*bank) {
                Ok(found) => format!("there is no entry {place}: {} has {}", label("bank", *bank, &found.name), found.entries),
                Err(_) => no("bank", bank, counts.banks),
            },
            Edit::SetHeader { .. } => String::new(),
        }
    }

    /// Who uses what was to be removed.
    fn users(&self, codeplug: &Codeplug) -> String {
        let counts = codeplug.counts();
        let (what, verb, users): (String, &str, Vec<String>) = match self {
            Edit::RemoveContact(n) => {
                let calls = |c: &usize| codeplug.channel(*c).is_ok_and(|channel| channel.info.contact() == Some(*n as u16));
                let users = (0..counts.channels.into()).filter(calls).map(|c| channel_of(codeplug, c));
                (contact_of(codeplug, *n), "is called by", users.collect())
            }
            Edit::RemoveChannel(n) => {
                let names = |b: &usize| codeplug.entries(*b).is_ok_and(|entries| entries.contains(&(*n as u16)));
                let users = (0..counts.banks.into()).filter(names).map(|b| bank_of(codeplug, b));
                (channel_of(codeplug, *n), "is in", users.collect())
            }
            _ => return String::new(),
        };
        let more = if users.len() > 4 { format!(" and {} more", users.len() - 4) } else { String::new() };
        format!("{what} {verb} {}{more}", users[..users.len().min(4)].join(", "))
    }

    fn other(&self, refused: Refused, codeplug: &Codeplug) -> String {
        match (refused.number, self) {
            (1, _) => format!("the codeplug would be longer than {} bytes", codeplug::FILE_MAX),
            (11, Edit::InsertEntry(_, _, channel)) => {
                format!("there is no channel {channel}: the codeplug has {}", codeplug.counts().channels)
            }
            (34, Edit::InsertEntry(bank, ..)) => format!("{} has 65535 entries already", bank_of(codeplug, *bank)),
            (37, _) => "what undo needs of it does not fit the history (--history-size)".into(),
            _ => refused.text().into(),
        }
    }
}

fn contact_of(codeplug: &Codeplug, n: usize) -> String {
    label("contact", n, &codeplug.contact(n).map(|contact| contact.name).unwrap_or_default())
}

fn channel_of(codeplug: &Codeplug, n: usize) -> String {
    label("channel", n, &codeplug.channel(n).map(|channel| channel.name).unwrap_or_default())
}

fn bank_of(codeplug: &Codeplug, n: usize) -> String {
    label("bank", n, &codeplug.bank(n).map(|bank| bank.name).unwrap_or_default())
}

fn bad_text(text: &str) -> String {
    match text.chars().enumerate().find(|(_, c)| !(' '..='~').contains(c)) {
        Some((at, c)) => format!("{c:?} at {at} may stand in no text"),
        None => format!("{} characters, where 32 are the most", text.len()),
    }
}

/// Which of the two numbers of a byte was refused; any other field as it is.
fn nibble(info: &Info, field: &'static str) -> &'static str {
    match info {
        Info::Dmr { receive_colour: 16.., .. } if field == "colours" => "receive colour",
        Info::Dmr { .. } if field == "colours" => "transmit colour",
        Info::M17 { receive_access: 16.., .. } if field == "access numbers" => "receive access",
        Info::M17 { .. } if field == "access numbers" => "transmit access",
        _ => field,
    }
}

/// What a value has to be, where a writer refused it.
fn rule(field: &str) -> &'static str {
    match field {
        "scan list" => "has to be 1 to 250, or none",
        "group list" => "has to be 1 to 128, or none",
        "latitude" => "has to be -90 to 90",
        "latitude's ten-thousandths" => "has to be at most 90 degrees",
        "receive colour" | "transmit colour" | "receive access" | "transmit access" => "has to be 0 to 15",
        "slot" => "has to be 1 or 2",
        _ => "is outside its rule",
    }
}
