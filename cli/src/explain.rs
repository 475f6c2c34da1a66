//! A refused file in words: which record and field it is, told from the refusal's number and place.
use crate::layout::{self, Found, Part};
use codeplug::{Refused, FILE_MAX};

/// A record by its place and, where it has one, its name.
pub fn label(part: &str, n: usize, name: &str) -> String {
    if name.is_empty() {
        format!("{part} {n}")
    } else {
        format!("{part} {n} ({name})")
    }
}

/// The text of a field, where it is one that may be shown.
fn text_at(file: &[u8], at: usize) -> String {
    let field = file.get(at..at + 32).unwrap_or(&[]);
    let text: String = field.iter().take_while(|b| **b != 0).map(|b| char::from(*b)).collect();
    let shown = text.bytes().all(|b| (0x20..0x7f).contains(&b)) && field[text.len()..].iter().all(|b| *b == 0);
    if shown {
        text
    } else {
        String::new()
    }
}

fn contact_label(file: &[u8], n: usize) -> String {
    label("contact", n, &text_at(file, layout::contact_start(n)))
}

pub fn channel_label(file: &[u8], n: usize) -> String {
    label("channel", n, &text_at(file, layout::channel_start(&layout::counts(file), n) + 13))
}

/// Why the library refused a file.
pub fn refused_file(file: &[u8], refused: Refused) -> String {
    if refused.number == 1 {
        return format!("longer than {FILE_MAX} bytes");
    }
    let found = layout::find(file, refused.place);
    let whose = match found.part {
        Part::Header => "header".to_string(),
        Part::Contact(n) => contact_label(file, n),
        Part::Channel(n) => channel_label(file, n),
        Part::Offset(n) => label("bank", n, ""),
        Part::Bank(n) | Part::Entry(n, _) => label("bank", n, &text_at(file, found.start)),
        Part::Behind => return behind(file, refused),
    };
    let field = match found.part {
        Part::Entry(_, entry) => format!("entry {entry}"),
        _ => found.field.to_string(),
    };
    format!("{whose}, {field}: {}", fault(file, refused, &found))
}

fn behind(file: &[u8], refused: Refused) -> String {
    match file.len() - refused.place.min(file.len()) {
        1 => "a byte follows the last bank".into(),
        more => format!("{more} bytes follow the last bank"),
    }
}

fn fault(file: &[u8], refused: Refused, found: &Found) -> String {
    let rest = file.get(refused.place..).unwrap_or(&[]);
    let byte = rest.first().copied().unwrap_or(0);
    match refused.number {
        2 => format!("the file ends here, after {} bytes", file.len()),
        3 => "not that of a codeplug".into(),
        4 => format!("{}, and not 1", layout::two(file, refused.place)),
        5 => bad_text(&rest[..rest.len().min(32)]),
        6 if byte == 0 => "a contact is DMR or M17, never FM".into(),
        6 => format!("there is no mode {byte}"),
        7 => bad_value(found.field, byte, layout::two(file, refused.place)),
        8 => {
            let number = rest.iter().take(6).fold(0_u64, |sum, b| sum * 256 + u64::from(*b));
            format!("{number} is neither a callsign nor broadcast")
        }
        9 => bad_contact(file, refused.place, found.start),
        10 => bad_offset(file, refused.place),
        11 => format!("there is no channel {}: the codeplug has {}", layout::two(file, refused.place), layout::counts(file).channels),
        _ => refused.text().into(),
    }
}

fn bad_text(field: &[u8]) -> String {
    let bad = |b: &u8| !(0x20..0x7f).contains(b);
    let end = field.iter().position(bad).unwrap_or(0);
    if field.get(end) == Some(&0) {
        return "there are bytes behind the end of the text".into();
    }
    format!("byte 0x{:02X} at {end} may stand in no text", field.get(end).unwrap_or(&0))
}

/// A value, a reserved bit or a pad outside its rule.
fn bad_value(field: &str, byte: u8, two: usize) -> String {
    match field {
        "traits" => format!("0x{byte:02X} is a reserved bandwidth, or a reserved bit is set"),
        "settings" => format!("0x{byte:02X} is a reserved contact type, or a reserved bit is set"),
        "scan list" => format!("{byte} is past 250"),
        "group list" => format!("{byte} is past 128"),
        "latitude" => format!("{} is outside -90 to 90", byte as i8),
        "latitude's ten-thousandths" if two <= 9_999 => format!("{two}, where latitude 90 has none"),
        "latitude's ten-thousandths" | "longitude's ten-thousandths" => format!("{two} is past 9999"),
        "receive tone" | "transmit tone" => format!("index {} is past the table", byte & 0x7f),
        "slot" => format!("{byte} is neither 1 nor 2"),
        "operation and encryption" => format!("{} and {}: operation is 1 to 3, encryption 0 to 2", byte >> 4, byte & 15),
        "position" => format!("{byte} is neither 0 nor 1"),
        "pad" => format!("{byte}, and not 0"),
        _ => "outside its rule".into(),
    }
}

fn bad_contact(file: &[u8], place: usize, start: usize) -> String {
    let (index, count) = (layout::two(file, place), layout::counts(file).contacts);
    if index >= count {
        return format!("there is no contact {index}: the codeplug has {count}");
    }
    other_mode(&contact_label(file, index), file[start])
}

/// A contact of another mode than the channel's.
pub fn other_mode(contact: &str, channel_mode: u8) -> String {
    let (theirs, own) = if channel_mode == 1 { ("M17", "DMR") } else { ("DMR", "M17") };
    format!("{contact} is {theirs}, and the channel {own}")
}

fn bad_offset(file: &[u8], place: usize) -> String {
    let counts = layout::counts(file);
    let bank = (place - layout::offsets_start(&counts)) / layout::OFFSET_SIZE;
    let offset = layout::two(file, place) + 65_536 * layout::two(file, place + 2);
    format!("{offset}, and the bank stands at {}", layout::bank_start(file, bank) - layout::banks_start(&counts))
}
