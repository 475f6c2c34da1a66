//! The verb check: document 01's line for each file, and words for a refused one.
use crate::args::Args;
use crate::disk::read_codeplug;
use crate::edition;
use crate::fail::{usage, Done, Fail};
use crate::out::{one_line, say, Out, Paint};
use crate::reading::Reading;
use codeplug::Edition;
use std::ffi::OsStr;

pub fn check(mut args: Args, out: &mut Out) -> Done {
    let reading = if args.flag("legacy") { Reading::Legacy } else { Reading::New };
    let edition = edition::of(&mut args)?;
    let mut names = vec![args.next("FILE")?];
    while args.has_next() {
        names.push(args.next("FILE")?);
    }
    args.end("check")?;
    if names.iter().filter(|name| *name == "-").count() > 1 {
        return usage("only one FILE can be standard input");
    }
    let mut worst = 0;
    for name in &names {
        let prefix = if names.len() > 1 { format!("{}: ", one_line(&name.to_string_lossy())) } else { String::new() };
        if let Some(fail) = check_one(name, (reading, edition), &prefix, out)? {
            out.flush()?;
            say(&fail.line("check").unwrap_or_default());
            worst = worst.max(fail.status());
        }
    }
    if worst == 0 {
        Ok(())
    } else {
        Err(Fail::Told(worst))
    }
}

/// Prints a file's line, and answers why it was refused or not read.
fn check_one(name: &OsStr, (reading, edition): (Reading, Edition), prefix: &str, out: &mut Out) -> Result<Option<Fail>, Fail> {
    let file = match read_codeplug(name) {
        Ok(file) => file,
        Err(fail) => return Ok(Some(fail)),
    };
    match reading.validate(&file, edition) {
        Ok(counts) => {
            out.painted(&format!("{prefix}ok {} {} {}", counts.contacts, counts.channels, counts.banks), Paint::Green)?;
            Ok(None)
        }
        Err(refused) => {
            out.painted(&format!("{prefix}refused {} at {}", refused.number, refused.place), Paint::Red)?;
            Ok(Some(reading.refused(name, &file, edition, refused)))
        }
    }
}
