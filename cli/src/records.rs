//! A codeplug's records, read at once.
use crate::explain::label;
use crate::fields::Context;
use codeplug::{prevalidated, Channel, Contact, Edition, Header, Refused};

pub struct Bank {
    pub name: String,
    pub entries: Vec<u16>,
}

pub struct Records {
    /// By which they were read.
    pub edition: Edition,
    pub header: Header,
    pub contacts: Vec<Contact>,
    pub channels: Vec<Channel>,
    pub banks: Vec<Bank>,
}

impl Records {
    /// Validates the file once. Refusals: the file's.
    pub fn of(file: &[u8], edition: Edition) -> Result<Records, Refused> {
        let header = codeplug::header(file, edition)?;
        let counts = header.counts;
        let bank = |n| Ok(Bank { name: prevalidated::bank(file, n)?.name, entries: prevalidated::entries(file, n)? });
        Ok(Records {
            edition,
            header,
            contacts: (0..counts.contacts.into()).map(|n| prevalidated::contact(file, n, edition)).collect::<Result<_, _>>()?,
            channels: (0..counts.channels.into()).map(|n| prevalidated::channel(file, n)).collect::<Result<_, _>>()?,
            banks: (0..counts.banks.into()).map(bank).collect::<Result<_, _>>()?,
        })
    }

    pub fn context(&self) -> Context<'_> {
        Context { edition: self.edition, contacts: &self.contacts }
    }

    /// The names of all contacts, channels or banks.
    pub fn names(&self, part: &str) -> Vec<&str> {
        match part {
            "contact" => self.contacts.iter().map(|contact| &contact.name[..]).collect(),
            "channel" => self.channels.iter().map(|channel| &channel.name[..]).collect(),
            _ => self.banks.iter().map(|bank| &bank.name[..]).collect(),
        }
    }

    /// A channel by its name or, where it has none, its place.
    pub fn channel_name(&self, n: u16) -> String {
        match self.channels.get(usize::from(n)) {
            Some(channel) if !channel.name.is_empty() => channel.name.clone(),
            _ => format!("channel {n}"),
        }
    }

    pub fn channel_label(&self, n: u16) -> String {
        label("channel", n.into(), self.channels.get(usize::from(n)).map_or("", |channel| &channel.name))
    }
}
