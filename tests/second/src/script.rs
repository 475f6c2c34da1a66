//! Scripts: one call on each line, read into calls whose records are written.
//! README.md gives the format.

use std::fmt;
use std::str::FromStr;

use crate::address::{self, Address, Edition};
use crate::book::Call;
use crate::edit::Edit;
use crate::record::{
    write_text, Channel, ChannelInfo, Contact, ContactInfo, Location, Text, CHANNEL_SIZE,
    CONTACT_SIZE, TEXT_SIZE,
};
use crate::refusal::Refusal;
use crate::tone::Tone;

/// A line's call, or the refusal of the writer that was to write its record.
pub type Line = Result<Call, Refusal>;

/// The bytes of a record, or its writer's refusal.
type Written = Result<Vec<u8>, Refusal>;

/// What is wrong with a line's form.
type Flaw = String;

/// A line that is not in the form of a call. The first line is 1.
#[derive(Clone, Debug, PartialEq, Eq)]
pub struct Malformed {
    pub line: usize,
    pub flaw: Flaw,
}

impl fmt::Display for Malformed {
    fn fmt(&self, f: &mut fmt::Formatter<'_>) -> fmt::Result {
        write!(f, "line {}: {}", self.line, self.flaw)
    }
}

impl std::error::Error for Malformed {}

/// The calls that are edits, in the order of the paper's numbers from 1 on.
const EDITS: [&str; 12] = [
    "insert-contact",
    "remove-contact",
    "replace-contact",
    "insert-channel",
    "remove-channel",
    "replace-channel",
    "insert-bank",
    "remove-bank",
    "rename-bank",
    "insert-entry",
    "remove-entry",
    "set-header",
];

/// Reads a whole script, its contacts by an edition. The last line may lack its
/// line feed.
pub fn read(script: &[u8], edition: Edition) -> Result<Vec<Line>, Malformed> {
    script
        .split_inclusive(|&byte| byte == b'\n')
        .map(|line| line.strip_suffix(b"\n").unwrap_or(line))
        .enumerate()
        .map(|(n, line)| read_line(line, edition).map_err(|flaw| Malformed { line: n + 1, flaw }))
        .collect()
}

fn read_line(line: &[u8], edition: Edition) -> Result<Line, Flaw> {
    let mut fields = Fields::of(line);
    let name = fields.first()?;
    if name == b"undo" {
        fields.end()?;
        return Ok(Ok(Call::Undo));
    }
    let kind = EDITS
        .iter()
        .position(|edit| edit.as_bytes() == name)
        .map(|n| n as u64 + 1)
        .ok_or_else(|| flaw("no such call", name))?;
    let first = if kind == 12 { 0 } else { fields.place()? };
    let second = if matches!(kind, 10 | 11) {
        fields.place()?
    } else {
        0
    };
    let record = match kind {
        1 | 3 => contact(&mut fields, edition)?,
        4 | 6 => channel(&mut fields)?,
        7 | 9 => text_field(&fields.text("name")?),
        10 => Ok(fields.place::<u16>()?.to_le_bytes().to_vec()),
        12 => header(&mut fields)?,
        _ => Ok(Vec::new()),
    };
    // A malformed line is an error even where the record is refused.
    fields.end()?;
    Ok(record.map(|record| {
        Call::Edit(Edit {
            kind,
            first,
            second,
            record,
        })
    }))
}

// Records.

fn text_field(text: &[u8]) -> Written {
    let mut field = vec![0; TEXT_SIZE];
    write_text(text, &mut field).map(|()| field)
}

/// Each text is written as a field of its own, so 5 points at 0 for both.
fn header(fields: &mut Fields) -> Result<Written, Flaw> {
    let author = text_field(&fields.text("author")?);
    let description = text_field(&fields.text("description")?);
    let timestamp: u64 = fields.number("timestamp")?;
    Ok(author.and_then(|author| {
        let timestamp = timestamp.to_le_bytes().to_vec();
        Ok([author, description?, timestamp].concat())
    }))
}

fn contact(fields: &mut Fields, edition: Edition) -> Result<Written, Flaw> {
    let name = fields.text("name")?;
    let info = match fields.value("mode")? {
        b"dmr" => Ok(ContactInfo::Dmr {
            id: fields.number("id")?,
            contact_type: fields.number("type")?,
            rx_tone: fields.flag("rxtone")?,
        }),
        b"m17" => m17_address(fields, edition)?.map(ContactInfo::M17),
        mode => return Err(flaw("no such contact mode", mode)),
    };
    // A refused callsign has no number, so it is refused before the record.
    Ok(info.and_then(|info| {
        let mut record = vec![0; CONTACT_SIZE];
        Contact { name, info }.write(&mut record, edition)?;
        Ok(record)
    }))
}

fn m17_address(fields: &mut Fields, edition: Edition) -> Result<Result<Address, Refusal>, Flaw> {
    match fields.find("broadcast") {
        Some(b"1") => Ok(Ok(Address::Broadcast)),
        Some(value) => Err(flaw("broadcast can only be 1", value)),
        None => {
            let number = address::text_to_number(fields.value("callsign")?, edition);
            Ok(number.map(Address::Callsign))
        }
    }
}

fn channel(fields: &mut Fields) -> Result<Written, Flaw> {
    let channel = Channel {
        bandwidth: fields.number("bandwidth")?,
        receive_only: fields.flag("rxonly")?,
        power: fields.number("power")?,
        rx_frequency: fields.number("rx")?,
        tx_frequency: fields.number("tx")?,
        scan_list: fields.number("scan")?,
        group_list: fields.number("group")?,
        name: fields.text("name")?,
        description: fields.text("desc")?,
        location: location(fields)?,
        info: channel_info(fields)?,
    };
    let mut record = vec![0; CHANNEL_SIZE];
    Ok(channel.write(&mut record).map(|()| record))
}

fn location(fields: &mut Fields) -> Result<Location, Flaw> {
    Ok(Location {
        latitude_floor: fields.number("lat")?,
        latitude_ten_thousandths: fields.number("latfrac")?,
        longitude_floor: fields.number("lon")?,
        longitude_ten_thousandths: fields.number("lonfrac")?,
        altitude_plus_500: fields.number("alt")?,
    })
}

fn channel_info(fields: &mut Fields) -> Result<ChannelInfo, Flaw> {
    Ok(match fields.value("mode")? {
        b"fm" => ChannelInfo::Fm {
            rx_tone: fields.tone("rxtone")?,
            tx_tone: fields.tone("txtone")?,
        },
        b"dmr" => ChannelInfo::Dmr {
            rx_colour: fields.number("rxcolour")?,
            tx_colour: fields.number("txcolour")?,
            timeslot: fields.number("slot")?,
            contact: fields.contact_index()?,
        },
        b"m17" => ChannelInfo::M17 {
            rx_access: fields.number("rxcan")?,
            tx_access: fields.number("txcan")?,
            operation: fields.number("operation")?,
            encryption: fields.number("encryption")?,
            send_position: fields.flag("position")?,
            contact: fields.contact_index()?,
        },
        mode => return Err(flaw("no such channel mode", mode)),
    })
}

// Fields.

/// The fields of a line that have not been read yet. Reading one takes it out,
/// so that one given twice, or not asked for, is found at the end.
struct Fields<'a>(Vec<&'a [u8]>);

impl<'a> Fields<'a> {
    fn of(line: &'a [u8]) -> Self {
        Fields(line.split(|&byte| byte == b'\t').collect())
    }

    fn first(&mut self) -> Result<&'a [u8], Flaw> {
        if self.0.is_empty() {
            return Err("a place is missing".to_string());
        }
        Ok(self.0.remove(0))
    }

    /// The first field, which is a number without a key.
    fn place<N: FromStr>(&mut self) -> Result<N, Flaw> {
        let field = self.first()?;
        decimal(field).ok_or_else(|| flaw("not a place", field))
    }

    /// The value of the first field with this key.
    fn find(&mut self, key: &str) -> Option<&'a [u8]> {
        let (at, value) = self.0.iter().enumerate().find_map(|(at, field)| {
            let value = field.strip_prefix(key.as_bytes())?.strip_prefix(b"=")?;
            Some((at, value))
        })?;
        self.0.remove(at);
        Some(value)
    }

    fn value(&mut self, key: &str) -> Result<&'a [u8], Flaw> {
        self.find(key).ok_or_else(|| format!("{key}= is missing"))
    }

    fn text(&mut self, key: &str) -> Result<Text, Flaw> {
        self.value(key).map(<[u8]>::to_vec)
    }

    /// A number that the field's type holds; its writer judges the rest.
    fn number<N: FromStr>(&mut self, key: &str) -> Result<N, Flaw> {
        let value = self.value(key)?;
        decimal(value).ok_or_else(|| flaw(&format!("{key}= cannot be"), value))
    }

    fn flag(&mut self, key: &str) -> Result<bool, Flaw> {
        let value = self.value(key)?;
        flag(value).ok_or_else(|| flaw(&format!("{key}= can only be 0 or 1, not"), value))
    }

    fn tone(&mut self, key: &str) -> Result<Tone, Flaw> {
        let value = self.value(key)?;
        tone(value).ok_or_else(|| flaw(&format!("{key}= can only be FLAG:INDEX, not"), value))
    }

    fn contact_index(&mut self) -> Result<Option<u16>, Flaw> {
        match self.value("contact")? {
            b"none" => Ok(None),
            value => decimal(value)
                .map(Some)
                .ok_or_else(|| flaw("contact= can only be an index or none, not", value)),
        }
    }

    fn end(self) -> Result<(), Flaw> {
        match self.0.first() {
            None => Ok(()),
            Some(field) => Err(flaw("a field too many", field)),
        }
    }
}

fn flaw(what: &str, bytes: &[u8]) -> Flaw {
    format!("{what}: {:?}", String::from_utf8_lossy(bytes))
}

/// A decimal number; `None` where its type does not hold it.
fn decimal<N: FromStr>(bytes: &[u8]) -> Option<N> {
    // `parse` would accept a plus sign.
    if bytes.starts_with(b"+") {
        return None;
    }
    std::str::from_utf8(bytes).ok()?.parse().ok()
}

fn flag(value: &[u8]) -> Option<bool> {
    match value {
        b"0" => Some(false),
        b"1" => Some(true),
        _ => None,
    }
}

fn tone(value: &[u8]) -> Option<Tone> {
    let colon = value.iter().position(|&byte| byte == b':')?;
    Some(Tone {
        enabled: flag(&value[..colon])?,
        index: decimal(&value[colon + 1..])?,
    })
}
