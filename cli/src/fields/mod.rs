//! The fields of each record, one table for all that shows, sets and compares them.
mod channel;
mod contact;
mod header;

use crate::args::Args;
use crate::cell::Cell;
use crate::fail::{usage, Fail};
use codeplug::{Contact, Edition, Refused};

pub use channel::{new_channel, shown_contact, CHANNEL};
pub use contact::{new_contact, CONTACT};
pub use header::HEADER;

/// What a field is shown and set by besides its record: the codeplug's edition, and its contacts, by whose names a channel's is shown.
#[derive(Clone, Copy)]
pub struct Context<'a> {
    pub edition: Edition,
    pub contacts: &'a [Contact],
}

/// One field of a record.
pub struct Field<R: 'static> {
    /// In JSON and CSV.
    pub key: &'static str,
    /// The option that sets it, and its name for people, with spaces. Empty where it is shown only.
    pub option: &'static str,
    /// Its heading.
    pub title: &'static str,
    pub shown: Shown,
    /// What it holds.
    pub get: fn(&R, Context) -> Cell,
    pub set: Setter<R>,
}

/// Why a value was not set.
pub enum Fault {
    /// It is none.
    Value(String),
    /// The library refused it, with words.
    Refused(Refused, String),
}

impl From<String> for Fault {
    fn from(text: String) -> Fault {
        Fault::Value(text)
    }
}

pub type Set = Result<(), Fault>;

/// Sets a field to a value that was read.
fn put<T>(field: &mut T, value: T) -> Set {
    *field = value;
    Ok(())
}

/// Where people see a field; programs see all.
#[derive(Clone, Copy, PartialEq)]
pub enum Shown {
    InTables,
    /// Where one record is shown: a table would be too wide.
    Alone,
    /// The same, and not compared, since another field tells it.
    Again,
    Never,
}

pub enum Setter<R> {
    /// By an option's value.
    Value(fn(&mut R, &str, Context) -> Set),
    /// A text, which --no-NAME leaves empty.
    Text(fn(&mut R, &str)),
    /// By an option without a value.
    Flag(fn(&mut R) -> Set),
    /// Shown only.
    Never,
}

impl<R> Field<R> {
    pub fn words(&self) -> String {
        self.option.replace('-', " ")
    }

    /// Whether it differs by itself from another record's. A contact that is called does not: its number may move.
    pub fn is_compared(&self) -> bool {
        !self.option.is_empty() && self.shown != Shown::Again && self.option != "contact"
    }

    /// Whether a record in one line has it: all that `set` sets, once, but the name.
    pub fn is_listed(&self) -> bool {
        !self.option.is_empty() && self.shown != Shown::Again && self.option != "name"
    }
}

/// The options of a record's fields: those with a value, and those without.
pub fn options<R>(fields: &[Field<R>]) -> (Vec<&'static str>, Vec<&'static str>) {
    let (mut values, mut flags) = (Vec::new(), Vec::new());
    for field in fields {
        match field.set {
            Setter::Value(_) => values.push(field.option),
            Setter::Flag(_) => flags.push(field.option),
            Setter::Text(_) => {
                values.push(field.option);
                flags.push(no_text(field.option));
            }
            Setter::Never => {}
        }
    }
    (values, flags)
}

/// The option that leaves a text empty.
fn no_text(option: &str) -> &'static str {
    match option {
        "name" => "no-name",
        "description" => "no-description",
        _ => "no-author",
    }
}

/// Sets the fields that options name, in the table's order; tells which.
pub fn set<R>(fields: &[Field<R>], record: &mut R, args: &mut Args, context: Context) -> Result<Vec<&'static str>, Fail> {
    let mut given = Vec::new();
    for field in fields {
        let done = match field.set {
            Setter::Value(set) => args.value(field.option).map(|value| set(record, &value, context)),
            Setter::Flag(set) => args.flag(field.option).then(|| set(record)),
            Setter::Text(set) => text(field, args)?.map(|text| {
                set(record, &text);
                Ok(())
            }),
            Setter::Never => None,
        };
        match done {
            Some(Err(Fault::Value(fault))) => return usage(format!("--{}: {fault}", field.option)),
            Some(Err(Fault::Refused(refused, words))) => {
                return Err(Fail::Refused { about: format!("--{}", field.option), refused, words });
            }
            Some(Ok(())) => given.push(field.option),
            None => {}
        }
    }
    Ok(given)
}

fn text<R>(field: &Field<R>, args: &mut Args) -> Result<Option<String>, Fail> {
    let (value, empty) = (args.value(field.option), args.flag(no_text(field.option)));
    match (value, empty) {
        (Some(_), true) => usage(format!("--{} and --{} are both given", field.option, no_text(field.option))),
        (None, true) => Ok(Some(String::new())),
        (value, false) => Ok(value),
    }
}
