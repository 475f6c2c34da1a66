//! The words after a verb: arguments, and options with or without a value.
use crate::fail::{usage, Done, Fail};
use std::ffi::{OsStr, OsString};

pub struct Args {
    arguments: std::vec::IntoIter<OsString>,
    options: Vec<(String, Option<String>)>,
}

/// Text of an argument; files may have any name, all else is text.
fn text_of(word: &OsStr) -> Result<&str, Fail> {
    word.to_str().map_or_else(|| usage(format!("'{}' is not UTF-8 text", word.to_string_lossy())), Ok)
}

impl Args {
    /// Parts arguments from options: `values` names the options that take a value, `flags` those that take none.
    pub fn parse(words: Vec<OsString>, values: &[&str], flags: &[&str]) -> Result<Args, Fail> {
        let (mut arguments, mut options) = (Vec::new(), Vec::<(String, Option<String>)>::new());
        let mut words = words.into_iter();
        while let Some(word) = words.next() {
            if word == "--" {
                arguments.extend(words.by_ref());
            } else if word.as_encoded_bytes().starts_with(b"-") && word != "-" {
                let (name, value) = option(text_of(&word)?, values, flags, &mut words)?;
                if options.iter().any(|(other, _)| *other == name) {
                    return usage(format!("--{name} is given twice"));
                }
                options.push((name, value));
            } else {
                arguments.push(word);
            }
        }
        Ok(Args { arguments: arguments.into_iter(), options })
    }

    /// The next argument, which the usage line calls `name`.
    pub fn next(&mut self, name: &str) -> Result<OsString, Fail> {
        match self.arguments.next() {
            Some(word) if word.is_empty() => usage(format!("{name} is an empty string")),
            Some(word) => Ok(word),
            None => usage(format!("{name} is missing")),
        }
    }

    /// The next argument as a text, which may be empty.
    pub fn next_text_or_empty(&mut self, name: &str) -> Result<String, Fail> {
        let word = self.arguments.next().map_or_else(|| usage(format!("{name} is missing")), Ok)?;
        text_of(&word).map(str::to_string)
    }

    pub fn next_text(&mut self, name: &str) -> Result<String, Fail> {
        text_of(&self.next(name)?).map(str::to_string)
    }

    pub fn has_next(&self) -> bool {
        self.arguments.len() > 0
    }

    /// Whether an option was given.
    pub fn has(&self, name: &str) -> bool {
        self.options.iter().any(|(other, _)| other == name)
    }

    /// Whether an option without a value was given; it counts as used.
    pub fn flag(&mut self, name: &str) -> bool {
        let before = self.options.len();
        self.options.retain(|(other, _)| other != name);
        self.options.len() < before
    }

    /// An option's value, where it was given; it counts as used.
    pub fn value(&mut self, name: &str) -> Option<String> {
        let at = self.options.iter().position(|(other, _)| other == name)?;
        self.options.remove(at).1
    }

    /// An option's value as a whole number.
    pub fn number(&mut self, name: &str, most: usize) -> Result<Option<usize>, Fail> {
        let Some(text) = self.value(name) else { return Ok(None) };
        whole(&text, most).map_or_else(|| usage(format!("--{name}: '{text}' is no number from 0 to {most}")), |n| Ok(Some(n)))
    }

    /// That nothing is left that `what` does not take.
    pub fn end(&mut self, what: &str) -> Done {
        if let Some((name, _)) = self.options.first() {
            return usage(format!("{what} takes no --{name}"));
        }
        match self.arguments.next() {
            Some(word) => usage(format!("'{}' is one argument too many", word.to_string_lossy())),
            None => Ok(()),
        }
    }
}

/// An option's name and, where it takes one, its value: `--name value` or `--name=value`.
fn option(
    word: &str,
    values: &[&str],
    flags: &[&str],
    words: &mut impl Iterator<Item = OsString>,
) -> Result<(String, Option<String>), Fail> {
    let (name, value) = match word.split_once('=') {
        Some((name, value)) => (name, Some(value.to_string())),
        None => (word, None),
    };
    let known = |names: &[&str]| name.strip_prefix("--").is_some_and(|name| names.contains(&name));
    let plain = name.trim_start_matches('-').to_string();
    if known(flags) {
        return if value.is_none() { Ok((plain, None)) } else { usage(format!("{name} takes no value")) };
    }
    if !known(values) {
        return usage(format!("there is no option {name}{}", near(&plain, values, flags)));
    }
    let value = match value {
        Some(value) => value,
        None => match words.next() {
            Some(next) if !next.as_encoded_bytes().starts_with(b"--") => text_of(&next)?.to_string(),
            _ => return usage(format!("{name} needs a value")),
        },
    };
    if value.is_empty() {
        return usage(format!("{name}: an empty string is no value{}", blank_word(&plain)));
    }
    Ok((plain, Some(value)))
}

/// The word that leaves an option's field blank.
fn blank_word(name: &str) -> String {
    match name {
        "name" | "description" | "author" => format!("; it is left empty by --no-{name}"),
        "receive-tone" | "transmit-tone" => "; a blank is asked for by 'off'".into(),
        "contact" | "scan-list" | "group-list" => "; a blank is asked for by 'none'".into(),
        _ => String::new(),
    }
}

/// The option that may have been meant.
fn near(name: &str, values: &[&str], flags: &[&str]) -> String {
    let all = values.iter().chain(flags);
    match all.map(|other| (distance(name, other), other)).min() {
        Some((d, other)) if d <= 2 && d < name.len() => format!("; is --{other} meant?"),
        _ => String::new(),
    }
}

/// How many letters have to be changed, put in or left out to make one word of another.
fn distance(a: &str, b: &str) -> usize {
    let mut row: Vec<usize> = (0..=b.chars().count()).collect();
    for (i, x) in a.chars().enumerate() {
        let mut corner = std::mem::replace(&mut row[0], i + 1);
        for (j, y) in b.chars().enumerate() {
            let changed = corner + usize::from(x != y);
            corner = row[j + 1];
            row[j + 1] = changed.min(corner + 1).min(row[j] + 1);
        }
    }
    row[row.len() - 1]
}

/// A whole number of digits alone, at most `most`.
pub fn whole(text: &str, most: usize) -> Option<usize> {
    let digits = !text.is_empty() && text.bytes().all(|b| b.is_ascii_digit());
    digits.then(|| text.parse().ok()).flatten().filter(|n| *n <= most)
}
