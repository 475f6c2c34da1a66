//! What differs between two codeplugs, by records.
use crate::align::{align, common, Aligned};
use crate::args::Args;
use crate::cell::{json_string, Cell};
use crate::edition;
use crate::explain::label;
use crate::fail::{usage, Done};
use crate::fields::{shown_contact, Context, Field, CHANNEL, CONTACT, HEADER};
use crate::out::{Out, Paint};
use crate::records::Records;
use crate::show::open;
use codeplug::{write_channel, write_contact, Channel, Info};

pub fn diff(mut args: Args, out: &mut Out) -> Done {
    let edition = edition::of(&mut args)?;
    let (a, b) = (args.next("A")?, args.next("B")?);
    args.end("diff")?;
    if a == "-" && b == "-" {
        return usage("only one of A and B can be standard input");
    }
    let (a, b) = (open(&a, edition)?, open(&b, edition)?);
    print(&changes(&a, &b), "", out)
}

/// Prints the lines of changes, each after an indent.
pub fn print(changes: &[String], indent: &str, out: &mut Out) -> Done {
    for change in changes {
        let paint = match change.as_bytes()[0] {
            b'-' => Paint::Red,
            b'+' => Paint::Green,
            _ => Paint::Yellow,
        };
        out.painted(&format!("{indent}{change}"), paint)?;
    }
    Ok(())
}

/// A line for each difference.
pub fn changes(a: &Records, b: &Records) -> Vec<String> {
    let contacts = align_contacts(a, b);
    let channels = align_channels(a, b, &contacts);
    let mut lines = fields_changed(HEADER, (&a.header, a.context()), (&b.header, b.context()), "header");
    lines.extend(contact_lines(a, b, &contacts));
    lines.extend(channel_lines(a, b, &contacts, &channels));
    lines.extend(bank_lines(a, b, &channels));
    lines
}

/// The records of one part, of one codeplug: their names, and all that one holds.
struct Side<'a> {
    names: Vec<&'a str>,
    whole: Box<dyn Fn(usize) -> String + 'a>,
}

/// A line for each record of one part that was removed, moved, changed or added.
fn lines_of(part: &str, aligned: &Aligned, a: Side, b: Side, changed: impl Fn(usize, usize) -> Vec<String>) -> Vec<String> {
    let mut lines = Vec::new();
    for (i, to) in aligned.to.iter().enumerate() {
        let whose = label(part, i, a.names[i]);
        let Some(j) = to else {
            lines.push(format!("- {whose}: {}", (a.whole)(i)));
            continue;
        };
        if aligned.moved[i] {
            lines.push(format!("> {whose}: to {j}"));
        }
        lines.extend(changed(i, *j));
    }
    let added = aligned.from.iter().enumerate().filter(|(_, from)| from.is_none());
    lines.extend(added.map(|(j, _)| format!("+ {}: {}", label(part, j, b.names[j]), (b.whole)(j))));
    lines
}

fn contact_lines(a: &Records, b: &Records, aligned: &Aligned) -> Vec<String> {
    fn side(records: &Records) -> Side<'_> {
        let whole = |n: usize| whole_record(CONTACT, (&records.contacts[n], records.context()));
        Side { names: records.names("contact"), whole: Box::new(whole) }
    }
    let changed = |i: usize, j: usize| {
        let whose = label("contact", i, &a.contacts[i].name);
        fields_changed(CONTACT, (&a.contacts[i], a.context()), (&b.contacts[j], b.context()), &whose)
    };
    lines_of("contact", aligned, side(a), side(b), changed)
}

fn channel_lines(a: &Records, b: &Records, contacts: &Aligned, aligned: &Aligned) -> Vec<String> {
    fn side(records: &Records) -> Side<'_> {
        let whole = |n: usize| whole_record(CHANNEL, (&records.channels[n], records.context()));
        Side { names: records.names("channel"), whole: Box::new(whole) }
    }
    lines_of("channel", aligned, side(a), side(b), |i, j| channel_changed(a, b, (i, j), contacts))
}

fn align_contacts(a: &Records, b: &Records) -> Aligned {
    let keys = |records: &Records| {
        let contacts = records.contacts.iter();
        contacts.map(|contact| write_contact(contact, records.edition).ok()).collect::<Vec<_>>()
    };
    align(&keys(a), &keys(b), (&a.names("contact"), &b.names("contact")))
}

/// A channel with its contact left out, and the contact.
fn without_contact(channel: &Channel) -> (Channel, Option<u16>) {
    let mut alone = channel.clone();
    let contact = channel.info.contact();
    if let Info::Dmr { contact, .. } | Info::M17 { contact, .. } = &mut alone.info {
        *contact = None;
    }
    (alone, contact)
}

/// Channels are aligned with the contacts that they call: by B's places of them.
fn align_channels(a: &Records, b: &Records, contacts: &Aligned) -> Aligned {
    // A contact that B has not is none of B's places.
    let in_b = |contact: u16| contacts.to[usize::from(contact)].unwrap_or(usize::MAX);
    let key = |channel: &Channel, place: &dyn Fn(u16) -> usize| {
        let (alone, contact) = without_contact(channel);
        (write_channel(&alone).ok(), contact.map(place))
    };
    let keys_a: Vec<_> = a.channels.iter().map(|channel| key(channel, &in_b)).collect();
    let keys_b: Vec<_> = b.channels.iter().map(|channel| key(channel, &usize::from)).collect();
    align(&keys_a, &keys_b, (&a.names("channel"), &b.names("channel")))
}

/// A record's fields in one line, but for its name.
fn whole_record<R>(fields: &[Field<R>], (record, context): In<R>) -> String {
    let words = fields.iter().filter(|field| field.is_listed()).filter_map(|field| match (field.get)(record, context) {
        Cell::Absent => None,
        Cell::Text(text) if text.is_empty() => None,
        cell => Some(format!("{} {}", field.words(), cell.whole_text())),
    });
    words.collect::<Vec<_>>().join(", ")
}

/// A record, and its codeplug.
type In<'a, R> = (&'a R, Context<'a>);

/// A line for each field that differs.
fn fields_changed<R>(fields: &[Field<R>], a: In<R>, b: In<R>, whose: &str) -> Vec<String> {
    let changed = |field: &Field<R>| {
        let change = (field.get)(a.0, a.1).change(&(field.get)(b.0, b.1))?;
        Some(format!("~ {whose}: {}: {change}", field.words()))
    };
    fields.iter().filter(|field| field.is_compared()).filter_map(changed).collect()
}

/// A channel that calls the same contact has not changed, whatever the contact's number or name.
fn channel_changed(a: &Records, b: &Records, (i, j): (usize, usize), contacts: &Aligned) -> Vec<String> {
    let whose = label("channel", i, &a.channels[i].name);
    let mut lines = fields_changed(CHANNEL, (&a.channels[i], a.context()), (&b.channels[j], b.context()), &whose);
    lines.extend(contact_changed(a, b, (i, j), contacts).map(|change| format!("~ {whose}: contact: {change}")));
    lines
}

/// The contact that a channel calls, and another in its place: by name or, where both have the same, by place too. The first one's place is
/// A's, so it is said where B has it.
fn contact_changed(a: &Records, b: &Records, (i, j): (usize, usize), contacts: &Aligned) -> Option<String> {
    let (old, new) = (shown_contact(&a.channels[i], &a.contacts), shown_contact(&b.channels[j], &b.contacts));
    let now = a.channels[i].info.contact().map(|was| contacts.to[usize::from(was)]);
    let followed = now == b.channels[j].info.contact().map(|is| Some(usize::from(is)));
    if followed && matches!(old, Cell::Absent) == matches!(new, Cell::Absent) {
        return None;
    }
    if old.text() != new.text() {
        return Some(format!("{} -> {}", old.text(), new.text()));
    }
    let moved = now.flatten().map_or("gone".into(), |now| format!("now {now}"));
    Some(format!("{}, {moved} -> {}", old.whole_text(), new.whole_text()))
}

fn bank_lines(a: &Records, b: &Records, channels: &Aligned) -> Vec<String> {
    // A's entries by B's numbers; a channel that B has not gets a number that B has not.
    let by_b = |entry: &u16| channels.to[usize::from(*entry)].unwrap_or(65_536 + usize::from(*entry));
    let entries_a: Vec<Vec<usize>> = a.banks.iter().map(|bank| bank.entries.iter().map(by_b).collect()).collect();
    let entries_b: Vec<Vec<usize>> = b.banks.iter().map(|bank| bank.entries.iter().map(|e| usize::from(*e)).collect()).collect();
    let keys_a: Vec<_> = a.banks.iter().zip(&entries_a).map(|(bank, entries)| (&bank.name, entries)).collect();
    let keys_b: Vec<_> = b.banks.iter().zip(&entries_b).map(|(bank, entries)| (&bank.name, entries)).collect();
    let aligned = align(&keys_a, &keys_b, (&a.names("bank"), &b.names("bank")));
    fn side(records: &Records) -> Side<'_> {
        Side { names: records.names("bank"), whole: Box::new(|n| whole_bank(records, n)) }
    }
    lines_of("bank", &aligned, side(a), side(b), |i, j| bank_changed(a, b, (i, j), (&entries_a[i], &entries_b[j])))
}

fn whole_bank(records: &Records, n: usize) -> String {
    let names: Vec<String> = records.banks[n].entries.iter().map(|entry| records.channel_name(*entry)).collect();
    if names.is_empty() {
        "empty".into()
    } else {
        names.join(", ")
    }
}

fn bank_changed(a: &Records, b: &Records, (i, j): (usize, usize), entries: (&[usize], &[usize])) -> Vec<String> {
    let (old, new) = (&a.banks[i], &b.banks[j]);
    let whose = label("bank", i, &old.name);
    let mut lines = Vec::new();
    if old.name != new.name {
        lines.push(format!("~ {whose}: name: {} -> {}", json_string(&old.name), json_string(&new.name)));
    }
    let stay = common(entries.0, entries.1);
    let (mut kept_a, mut kept_b) = (vec![false; entries.0.len()], vec![false; entries.1.len()]);
    stay.iter().for_each(|(x, y)| (kept_a[*x], kept_b[*y]) = (true, true));
    let line = |sign, records: &Records, place: usize, channel: u16| {
        format!("~ {whose}: {sign} entry {place}, {}", records.channel_label(channel))
    };
    lines.extend((0..kept_a.len()).filter(|n| !kept_a[*n]).map(|n| line('-', a, n, old.entries[n])));
    lines.extend((0..kept_b.len()).filter(|n| !kept_b[*n]).map(|n| line('+', b, n, new.entries[n])));
    lines
}
