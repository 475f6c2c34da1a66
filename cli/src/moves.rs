//! The verb move, which the format has no edit for. What names a record lets go of it, it is removed and inserted, and named again: so the
//! codeplug is never longer than it was.
use crate::args::Args;
use crate::edits::Edit;
use crate::fail::{Done, Fail};
use crate::out::Out;
use crate::session::Session;
use crate::verbs::{channel_at, contact_at, found, open, part_of, two_bytes, which};
use crate::which::place;
use codeplug::{prevalidated, Bank, Channel, Info};

pub fn move_to(mut args: Args, out: &mut Out) -> Done {
    let mut session = open(&mut args)?;
    let part = part_of(&mut args, &["contact", "channel", "bank", "entry"])?;
    let n = which(&session, if part == "entry" { "bank" } else { part }, &args.next_text("WHICH")?)?;
    let from = if part == "entry" { place(&args.next_text("FROM")?)? } else { n };
    let to = place(&args.next_text(if part == "entry" { "TO" } else { "PLACE" })?)?;
    args.end("move")?;
    match part {
        // What is there already stays, if it is there.
        "contact" if n == to => contact_at(&session, n).map(|_| ())?,
        "channel" if n == to => channel_at(&session, n).map(|_| ())?,
        "bank" if n == to => bank_at(&session, n).map(|_| ())?,
        "contact" => move_contact(&mut session, n, to)?,
        "channel" => move_channel(&mut session, n, to)?,
        "bank" => move_bank(&mut session, n, to)?,
        _ => move_entry(&mut session, n, from, to)?,
    }
    session.save(out)
}

fn move_contact(session: &mut Session, n: usize, to: usize) -> Done {
    let contact = contact_at(session, n)?;
    contact_at(session, to)?;
    let calls = |(_, channel): &(usize, &Channel)| channel.info.contact().map(usize::from) == Some(n);
    let channels = session.records.channels.iter().enumerate();
    let callers: Vec<(usize, Channel)> = channels.filter(calls).map(|(c, channel)| (c, channel.clone())).collect();
    callers.iter().try_for_each(|(c, channel)| session.make(&Edit::ReplaceChannel(*c, calling(channel, None))))?;
    session.make(&Edit::RemoveContact(n))?;
    session.make(&Edit::InsertContact(to, contact))?;
    let place = two_bytes(to)?;
    callers.iter().try_for_each(|(c, channel)| session.make(&Edit::ReplaceChannel(*c, calling(channel, Some(place)))))
}

/// A channel with another contact.
fn calling(channel: &Channel, other: Option<u16>) -> Channel {
    let mut channel = channel.clone();
    if let Info::Dmr { contact, .. } | Info::M17 { contact, .. } = &mut channel.info {
        *contact = other;
    }
    channel
}

/// Entries that name the channel are taken out, the last first, and put back where they were.
fn move_channel(session: &mut Session, n: usize, to: usize) -> Done {
    let channel = channel_at(session, n)?;
    channel_at(session, to)?;
    let entries = entries_of(session, n);
    entries.iter().rev().try_for_each(|(bank, place)| session.make(&Edit::RemoveEntry(*bank, *place)))?;
    session.make(&Edit::RemoveChannel(n))?;
    session.make(&Edit::InsertChannel(to, channel))?;
    let entry = two_bytes(to)?;
    entries.iter().try_for_each(|(bank, place)| session.make(&Edit::InsertEntry(*bank, *place, entry)))
}

/// The bank and the place of each entry that names a channel.
fn entries_of(session: &Session, n: usize) -> Vec<(usize, usize)> {
    let mut entries = Vec::new();
    for (b, bank) in session.records.banks.iter().enumerate() {
        let named = bank.entries.iter().enumerate().filter(|(_, channel)| usize::from(**channel) == n);
        entries.extend(named.map(|(place, _)| (b, place)));
    }
    entries
}

/// A bank's entries are put in at its beginning, the last first, which takes less of the history than at its end.
fn move_bank(session: &mut Session, n: usize, to: usize) -> Done {
    let name = bank_at(session, n)?.name;
    bank_at(session, to)?;
    let entries = session.records.banks[n].entries.clone();
    session.make(&Edit::RemoveBank(n))?;
    session.make(&Edit::InsertBank(to, name))?;
    entries.into_iter().rev().try_for_each(|channel| session.make(&Edit::InsertEntry(to, 0, channel)))
}

fn bank_at(session: &Session, n: usize) -> Result<Bank, Fail> {
    found(session, session.codeplug().bank(n), Edit::RemoveBank(n))
}

fn move_entry(session: &mut Session, bank: usize, from: usize, to: usize) -> Done {
    bank_at(session, bank)?;
    let channel = entry_at(session, bank, from)?;
    entry_at(session, bank, to)?;
    session.make(&Edit::RemoveEntry(bank, from))?;
    session.make(&Edit::InsertEntry(bank, to, channel))
}

fn entry_at(session: &Session, bank: usize, place: usize) -> Result<u16, Fail> {
    let entry = prevalidated::bank_entry(session.codeplug().bytes(), bank, place);
    found(session, entry.map(|entry| entry.channel), Edit::RemoveEntry(bank, place))
}
