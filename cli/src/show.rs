//! The verb show: tables for people, JSON and CSV for programs.
use crate::args::Args;
use crate::disk::read_codeplug;
use crate::edition;
use crate::explain::label;
use crate::fail::{usage, Done, Fail};
use crate::out::{Out, Paint};
use crate::reading::{shown, Reading};
use crate::records::Records;
use crate::rows::{rows_of, Form};
use crate::which::place_of;
use codeplug::{prevalidated, Edition, Refused};
use std::ffi::OsStr;

/// A file's records, or its refusal in words.
pub fn open(name: &OsStr, edition: Edition) -> Result<Records, Fail> {
    let file = read_codeplug(name)?;
    Records::of(&file, edition).map_err(|refused| Reading::New.refused(name, &file, edition, refused))
}

/// What is shown: everything, one part, or one record.
enum Wanted {
    All,
    List(&'static str),
    One(&'static str, String),
}

const PARTS: [&str; 4] = ["header", "contacts", "channels", "banks"];
const ONES: [&str; 3] = ["contact", "channel", "bank"];

fn wanted(args: &mut Args) -> Result<Wanted, Fail> {
    if !args.has_next() {
        return Ok(Wanted::All);
    }
    let word = args.next_text("PART")?;
    if let Some(part) = PARTS.iter().find(|part| **part == word) {
        return Ok(Wanted::List(part));
    }
    match ONES.iter().find(|one| **one == word) {
        Some(one) => Ok(Wanted::One(one, args.next_text("WHICH")?)),
        None => usage(format!("'{word}' is no part: header, contacts, channels, banks, or contact, channel or bank with WHICH")),
    }
}

pub fn show(mut args: Args, out: &mut Out) -> Done {
    let form = match (args.flag("json"), args.flag("csv")) {
        (true, true) => return usage("--json and --csv are both given"),
        (true, _) => Form::Json,
        (_, true) => Form::Csv,
        _ => Form::Table,
    };
    let edition = edition::of(&mut args)?;
    let name = args.next("FILE")?;
    let wanted = wanted(&mut args)?;
    args.end("show")?;
    if form == Form::Csv && matches!(wanted, Wanted::All) {
        return usage("--csv shows one part: header, contacts, channels or banks");
    }
    let file = read_codeplug(&name)?;
    let records = Records::of(&file, edition).map_err(|refused| Reading::New.refused(&name, &file, edition, refused))?;
    match wanted {
        Wanted::All if form == Form::Json => all_json(&records, out),
        Wanted::All => all_tables(&records, out),
        Wanted::List(part) => rows_of(&records, part).print(form, out),
        Wanted::One(part, which) => {
            let n = place_of(part, &which, &records.names(part)).or_else(usage)?;
            is_there(&file, edition, part, n).map_err(|refused| {
                let words = format!("there is no {part} {n}: the codeplug has {}", records.names(part).len());
                Fail::Refused { about: shown(&name), refused, words }
            })?;
            one(&records, part, n, form, out)
        }
    }
}

fn all_tables(records: &Records, out: &mut Out) -> Done {
    for part in PARTS {
        if part != PARTS[0] {
            out.line("")?;
        }
        out.painted(part, Paint::Bold)?;
        rows_of(records, part).print(Form::Table, out)?;
    }
    Ok(())
}

fn all_json(records: &Records, out: &mut Out) -> Done {
    let parts = PARTS.map(|part| format!("  \"{part}\": {}", rows_of(records, part).json("  ")));
    out.line(&format!("{{\n{}\n}}", parts.join(",\n")))
}

/// Whether the library has a record at a place.
fn is_there(file: &[u8], edition: Edition, part: &str, n: usize) -> Result<(), Refused> {
    match part {
        "contact" => prevalidated::contact(file, n, edition).map(|_| ()),
        "channel" => prevalidated::channel(file, n).map(|_| ()),
        _ => prevalidated::bank(file, n).map(|_| ()),
    }
}

/// One contact, channel or bank.
fn one(records: &Records, part: &str, n: usize, form: Form, out: &mut Out) -> Done {
    if part == "bank" && form == Form::Table {
        return one_bank(records, n, out);
    }
    rows_of(records, &format!("{part}s")).only(n).print(form, out)
}

fn one_bank(records: &Records, n: usize, out: &mut Out) -> Done {
    let bank = &records.banks[n];
    out.painted(&label("bank", n, &bank.name), Paint::Bold)?;
    for (place, channel) in bank.entries.iter().enumerate() {
        out.line(&format!("entry {place}: {}", records.channel_label(*channel)))?;
    }
    Ok(())
}
