//! The verbs that change a codeplug: each is one or more of the twelve edits.
use crate::args::Args;
use crate::disk::{real_path, Folder, Prepared};
use crate::edition;
use crate::edits::Edit;
use crate::fail::{io_fail, usage, Done, Fail};
use crate::fields::{self, new_channel, new_contact, Context, CHANNEL, CONTACT, HEADER};
use crate::out::Out;
use crate::session::{Options, Session};
use crate::which::{place, place_of};
use codeplug::{Channel, Codeplug, Contact, ContactInfo, Counts, Header, Refused, HEADER_SIZE};
use std::path::Path;

/// The parts of a codeplug, as words of a command.
const PARTS: [&str; 5] = ["contact", "channel", "bank", "entry", "header"];

/// The next argument, one of some parts.
pub fn part_of(args: &mut Args, parts: &[&'static str]) -> Result<&'static str, Fail> {
    let word = args.next_text("PART")?;
    let known = PARTS.iter().find(|part| **part == word && parts.contains(part));
    known.copied().map_or_else(|| usage(format!("'{word}' is no part: {}", parts.join(", "))), Ok)
}

/// A record's place by an argument.
pub fn which(session: &Session, part: &str, text: &str) -> Result<usize, Fail> {
    place_of(part, text, &session.records.names(part)).or_else(usage)
}

/// A record that the library read or refused; `edit` is one of it, which has the words.
pub fn found<R>(session: &Session, read: Result<R, Refused>, edit: Edit) -> Result<R, Fail> {
    read.map_err(|refused| session.refused(refused, edit.no_place(session.codeplug())))
}

pub fn contact_at(session: &Session, n: usize) -> Result<Contact, Fail> {
    found(session, session.codeplug().contact(n), Edit::RemoveContact(n))
}

pub fn channel_at(session: &Session, n: usize) -> Result<Channel, Fail> {
    found(session, session.codeplug().channel(n), Edit::RemoveChannel(n))
}

/// A file's new empty codeplug.
pub fn new(mut args: Args, out: &mut Out) -> Done {
    let edition = edition::of(&mut args)?;
    let name = args.next("FILE")?;
    let counts = Counts { contacts: 0, channels: 0, banks: 0 };
    let mut header = Header { author: String::new(), description: String::new(), timestamp: 0, counts };
    let given = fields::set(HEADER, &mut header, &mut args, Context { edition, contacts: &[] })?;
    args.end("new")?;
    let mut codeplug = Codeplug::empty(0, HEADER_SIZE, edition);
    if !given.is_empty() {
        let edit = set_header(header);
        edit.make(&mut codeplug).map_err(|refused| {
            let (refused, words) = edit.refusal(refused, &codeplug);
            Fail::Refused { about: name.to_string_lossy().into_owned(), refused, words }
        })?;
    }
    if name == "-" {
        return out.bytes(codeplug.bytes());
    }
    let path = Path::new(&name);
    if path.symlink_metadata().is_ok() {
        real_path(&name)?;
        return Err(Fail::Io(format!("{}: is there already", path.display())));
    }
    let folder = Folder::of(path)?;
    Prepared::creating(path, codeplug.bytes())?.create()?;
    folder.sync().map_err(|e| io_fail(path, &e))
}

fn set_header(header: Header) -> Edit {
    Edit::SetHeader { author: header.author, description: header.description, timestamp: header.timestamp }
}

/// Opens the file that is the next argument.
pub fn open(args: &mut Args) -> Result<Session, Fail> {
    let options = Options::of(args)?;
    Session::open(&args.next("FILE")?, options)
}

pub fn set(mut args: Args, out: &mut Out) -> Done {
    let options = Options::of(&mut args)?;
    let file = args.next("FILE")?;
    let part = part_of(&mut args, &["header", "contact", "channel", "bank"])?;
    let text = if part == "header" { String::new() } else { args.next_text("WHICH")? };
    let mut session = Session::open(&file, options)?;
    let n = if part == "header" { 0 } else { which(&session, part, &text)? };
    let (edit, given) = match part {
        "header" => {
            let mut header = session.records.header.clone();
            let given = fields::set(HEADER, &mut header, &mut args, session.records.context())?;
            (set_header(header), given)
        }
        "contact" => {
            let mut contact = contact_at(&session, n)?;
            let given = set_contact(&session, &mut contact, &mut args, true)?;
            (Edit::ReplaceContact(n, contact), given)
        }
        "channel" => {
            let mut channel = channel_at(&session, n)?;
            let given = fields::set(CHANNEL, &mut channel, &mut args, session.records.context())?;
            (Edit::ReplaceChannel(n, channel), given)
        }
        _ => (Edit::RenameBank(n, bank_name(&mut args)?), vec!["name"]),
    };
    args.end(part)?;
    if given.is_empty() {
        return usage("no field is given");
    }
    session.make(&edit)?;
    session.save(out)
}

/// Sets a contact's fields. One that does not exist yet, or gets another mode, needs whom it calls.
fn set_contact(session: &Session, contact: &mut Contact, args: &mut Args, exists: bool) -> Result<Vec<&'static str>, Fail> {
    let mode = std::mem::discriminant(&contact.info);
    let given = fields::set(CONTACT, contact, args, session.records.context())?;
    let has = |option: &str| given.contains(&option);
    let addresses = ["callsign", "broadcast", "address"].into_iter().filter(|option| has(option)).count();
    if addresses > 1 {
        return usage("only one of --callsign, --broadcast and --address can be given");
    }
    let new = !exists || std::mem::discriminant(&contact.info) != mode;
    match contact.info {
        ContactInfo::Dmr { .. } if new && !has("id") => usage("a DMR contact needs its --id"),
        ContactInfo::M17(_) if new && addresses == 0 => usage("an M17 contact needs its --callsign, --address or --broadcast"),
        _ => Ok(given),
    }
}

/// A bank's name by its option.
fn bank_name(args: &mut Args) -> Result<String, Fail> {
    match (args.value("name"), args.flag("no-name")) {
        (Some(_), true) => usage("--name and --no-name are both given"),
        (None, false) => usage("a bank needs --name or --no-name"),
        (name, _) => Ok(name.unwrap_or_default()),
    }
}

/// That a new record is given what it needs.
fn needed(args: &Args, options: &[&str], what: &str) -> Done {
    match options.iter().find(|option| !args.has(option)) {
        Some(&"name") if args.has("no-name") => needed(args, &options[1..], what),
        Some(&"name") => usage(format!("a new {what} needs --name or --no-name")),
        Some(option) => usage(format!("a new {what} needs --{option}")),
        None => Ok(()),
    }
}

pub fn add(mut args: Args, out: &mut Out) -> Done {
    let options = Options::of(&mut args)?;
    let file = args.next("FILE")?;
    let part = part_of(&mut args, &["contact", "channel", "bank", "entry"])?;
    let at = args.number("at", usize::MAX)?;
    let like = args.value("like");
    let mut session = Session::open(&file, options)?;
    let records = &session.records;
    let edit = match part {
        "contact" => Edit::InsertContact(at.unwrap_or(records.contacts.len()), new_contact_of(&session, &mut args, like)?),
        "channel" => Edit::InsertChannel(at.unwrap_or(records.channels.len()), new_channel_of(&session, &mut args, like)?),
        _ if like.is_some() => return usage("only a contact or a channel is added --like another"),
        "bank" => Edit::InsertBank(at.unwrap_or(records.banks.len()), bank_name(&mut args)?),
        _ => new_entry(&session, &mut args, at)?,
    };
    args.end(part)?;
    session.make(&edit)?;
    session.save(out)
}

fn new_contact_of(session: &Session, args: &mut Args, like: Option<String>) -> Result<Contact, Fail> {
    let Some(like) = like else {
        needed(args, &["name", "mode"], "contact")?;
        let mut contact = new_contact();
        set_contact(session, &mut contact, args, false)?;
        return Ok(contact);
    };
    let mut contact = contact_at(session, which(session, "contact", &like)?)?;
    set_contact(session, &mut contact, args, true)?;
    Ok(contact)
}

fn new_channel_of(session: &Session, args: &mut Args, like: Option<String>) -> Result<Channel, Fail> {
    let context = session.records.context();
    let Some(like) = like else {
        needed(args, &["name", "mode", "receive-frequency"], "channel")?;
        let mut channel = new_channel();
        let given = fields::set(CHANNEL, &mut channel, args, context)?;
        if !given.contains(&"transmit-frequency") {
            channel.transmit_hz = channel.receive_hz;
        }
        return Ok(channel);
    };
    let mut channel = channel_at(session, which(session, "channel", &like)?)?;
    fields::set(CHANNEL, &mut channel, args, context)?;
    Ok(channel)
}

/// A place as the format holds it. Never a blank in place of one that is too large.
pub fn two_bytes(n: usize) -> Result<u16, Fail> {
    u16::try_from(n).or_else(|_| usage(format!("there is no place {n}")))
}

fn new_entry(session: &Session, args: &mut Args, at: Option<usize>) -> Result<Edit, Fail> {
    let bank = which(session, "bank", &args.next_text("BANK")?)?;
    let channel = which(session, "channel", &args.next_text("CHANNEL")?)?;
    let end = session.records.banks.get(bank).map_or(0, |bank| bank.entries.len());
    Ok(Edit::InsertEntry(bank, at.unwrap_or(end), two_bytes(channel)?))
}

pub fn remove(mut args: Args, out: &mut Out) -> Done {
    let mut session = open(&mut args)?;
    let part = part_of(&mut args, &["contact", "channel", "bank", "entry"])?;
    let n = which(&session, if part == "entry" { "bank" } else { part }, &args.next_text("WHICH")?)?;
    let edit = match part {
        "contact" => Edit::RemoveContact(n),
        "channel" => Edit::RemoveChannel(n),
        "bank" => Edit::RemoveBank(n),
        _ => Edit::RemoveEntry(n, place(&args.next_text("PLACE")?)?),
    };
    args.end(&format!("remove {part}"))?;
    session.make(&edit)?;
    session.save(out)
}

pub fn rename(mut args: Args, out: &mut Out) -> Done {
    let mut session = open(&mut args)?;
    let part = part_of(&mut args, &["contact", "channel", "bank"])?;
    let n = which(&session, part, &args.next_text("WHICH")?)?;
    let name = if args.flag("no-name") { String::new() } else { args.next_text("NAME")? };
    args.end("rename")?;
    let edit = match part {
        "contact" => Edit::ReplaceContact(n, Contact { name, ..contact_at(&session, n)? }),
        "channel" => Edit::ReplaceChannel(n, Channel { name, ..channel_at(&session, n)? }),
        _ => Edit::RenameBank(n, name),
    };
    session.make(&edit)?;
    session.save(out)
}

pub fn undo(mut args: Args, out: &mut Out) -> Done {
    let count = args.number("count", usize::MAX)?.unwrap_or(1);
    if count == 0 {
        return usage("--count: 0 commands are nothing to undo");
    }
    let options = Options::of(&mut args)?;
    let file = args.next("FILE")?;
    args.end("undo")?;
    if file == "-" {
        return usage("there is no history of standard input to undo");
    }
    Session::open(&file, options)?.undo(count, out)
}
