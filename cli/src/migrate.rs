//! The verb migrate: a legacy codeplug to the new order, in place. The library does it; no undo takes it back.
use crate::args::Args;
use crate::diff::print;
use crate::explain::label;
use crate::fail::Done;
use crate::fields::{Context, Field, CHANNEL, CONTACT};
use crate::layout;
use crate::out::{say, Out};
use crate::reading::Reading;
use crate::records::Records;
use crate::session::{read, Options};
use codeplug::Edition;

pub fn migrate(mut args: Args, out: &mut Out) -> Done {
    let options = Options::of(&mut args)?;
    let name = args.next("FILE")?;
    args.end("migrate")?;
    let (stored, file, _) = read(&name, &options)?;
    let mut migrated = file.clone();
    let edition = options.edition;
    codeplug::migrate(&mut migrated, edition).map_err(|refused| Reading::Legacy.refused(&name, &file, edition, refused))?;
    let lines = || changes(&file, &migrated, edition).map_err(|refused| Reading::New.refused(&name, &migrated, edition, refused));
    // A file that both readings accept has nothing to change: it is not written, and its history stays.
    let changed = migrated != file;
    if options.dry_run {
        if let Some(stored) = stored.filter(|_| changed) {
            stored.say_history_would_go();
        }
        return print(&lines()?, "", out);
    }
    match stored {
        None => out.bytes(&migrated)?,
        Some(stored) if changed => stored.replace_migrated(&migrated)?,
        Some(_) => {}
    }
    if options.verbose {
        lines()?.iter().for_each(|line| say(line));
    }
    Ok(())
}

/// A line for each byte that is changed, with what it says before and after.
fn changes(file: &[u8], migrated: &[u8], edition: Edition) -> Result<Vec<String>, codeplug::Refused> {
    let records = Records::of(migrated, edition)?;
    let counts = layout::counts(migrated);
    let bytes = |at: usize| (file[at] != migrated[at]).then(|| format!("0x{:02X} -> 0x{:02X}", file[at], migrated[at]));
    let contacts = records.contacts.iter().enumerate().filter_map(|(n, contact)| {
        let (whose, bytes) = (label("contact", n, &contact.name), bytes(layout::contact_start(n) + layout::SETTINGS)?);
        Some(format!("~ {whose}: settings: {bytes} ({})", words(CONTACT, contact, records.context(), ["contact-type", "rx-tone"])))
    });
    let channels = records.channels.iter().enumerate().filter_map(|(n, channel)| {
        let (whose, bytes) = (label("channel", n, &channel.name), bytes(layout::channel_start(&counts, n) + layout::TRAITS)?);
        Some(format!("~ {whose}: traits: {bytes} ({})", words(CHANNEL, channel, records.context(), ["bandwidth", "receive-only"])))
    });
    Ok(contacts.chain(channels).collect())
}

/// The fields of a byte, by their options.
fn words<R>(fields: &[Field<R>], record: &R, context: Context, options: [&str; 2]) -> String {
    let own = fields.iter().filter(|field| options.contains(&field.option));
    own.map(|field| format!("{} {}", field.words(), (field.get)(record, context).whole_text())).collect::<Vec<_>>().join(", ")
}
