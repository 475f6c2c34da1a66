//! A field's value as it is shown: to people, in JSON and in CSV.
use crate::values;
use codeplug::{tone_frequency, Tone};

pub enum Cell {
    /// A field that the record does not have, by its mode.
    Absent,
    /// A blank, by its word.
    Blank(&'static str),
    /// A flag, and its words for no and yes.
    Flag(bool, [&'static str; 2]),
    Number(u64),
    /// A number with a point.
    Decimal(String),
    /// A frequency: MHz for people, hertz for programs.
    Hertz(u32),
    Tone(Tone),
    /// One of a field's words.
    Word(&'static str),
    Text(String),
    /// A contact: its name for people, its place for programs.
    Contact(u16, String),
    /// A bank's entries.
    Numbers(Vec<u16>),
}

fn tone_text(tone: Tone) -> String {
    let tenths = tone_frequency(tone.index()).unwrap_or(0);
    values::fixed_text(tenths.into(), 1, 1)
}

impl Cell {
    /// For people.
    pub fn text(&self) -> String {
        match self {
            Cell::Absent => "-".into(),
            Cell::Blank(word) | Cell::Word(word) => (*word).into(),
            Cell::Flag(set, words) => words[usize::from(*set)].into(),
            Cell::Number(number) => number.to_string(),
            Cell::Decimal(text) => text.clone(),
            Cell::Hertz(hertz) => values::mhz(*hertz),
            Cell::Tone(tone @ Tone::Enabled(_)) => tone_text(*tone),
            Cell::Tone(Tone::Disabled(_)) => "off".into(),
            Cell::Text(text) => text.clone(),
            // A name that would be taken for a blank.
            Cell::Contact(place, name) if matches!(&name[..], "" | "-") || name.eq_ignore_ascii_case("none") => format!("contact {place}"),
            Cell::Contact(_, name) => name.clone(),
            Cell::Numbers(numbers) => numbers.iter().map(u16::to_string).collect::<Vec<_>>().join(" "),
        }
    }

    /// For people, with what `text` leaves out: the tone that one that is off keeps, the place of a contact.
    pub fn whole_text(&self) -> String {
        match self {
            Cell::Tone(tone @ Tone::Disabled(1..)) => format!("off:{}", tone_text(*tone)),
            Cell::Contact(place, name) if !name.is_empty() => format!("{place} ({name})"),
            _ => self.text(),
        }
    }

    /// This and another value, where they differ: as short as tells them apart, texts in quotes.
    pub fn change(&self, other: &Cell) -> Option<String> {
        let absent = |cell: &Cell| matches!(cell, Cell::Absent);
        if self.whole_text() == other.whole_text() && absent(self) == absent(other) {
            return None;
        }
        let short = |cell: &Cell| if let Cell::Text(text) = cell { json_string(text) } else { cell.text() };
        let (was, is) = (short(self), short(other));
        Some(if was == is { format!("{} -> {}", self.whole_text(), other.whole_text()) } else { format!("{was} -> {is}") })
    }

    pub fn csv(&self) -> String {
        let text = match self {
            Cell::Absent => String::new(),
            Cell::Hertz(hertz) => hertz.to_string(),
            Cell::Contact(place, _) => place.to_string(),
            _ => self.text(),
        };
        let quoted = text.contains([',', '"', '\n', '\r']) || text.starts_with(' ') || text.ends_with(' ');
        if quoted {
            format!("\"{}\"", text.replace('"', "\"\""))
        } else {
            text
        }
    }

    /// None for a field that is left out.
    pub fn json(&self) -> Option<String> {
        Some(match self {
            Cell::Absent => return None,
            Cell::Blank(_) | Cell::Tone(Tone::Disabled(_)) => "null".into(),
            Cell::Flag(set, _) => set.to_string(),
            Cell::Text(text) => json_string(text),
            Cell::Word(word) => json_string(word),
            Cell::Hertz(_) | Cell::Contact(..) => self.csv(),
            Cell::Number(_) | Cell::Decimal(_) | Cell::Tone(_) => self.text(),
            Cell::Numbers(numbers) => format!("{numbers:?}"),
        })
    }
}

pub fn json_string(text: &str) -> String {
    let mut out = String::from('"');
    for c in text.chars() {
        match c {
            '"' | '\\' => out.extend(['\\', c]),
            c if c < ' ' => out += &format!("\\u{:04x}", u32::from(c)),
            c => out.push(c),
        }
    }
    out + "\""
}
