//! The verbs of tones and M17 addresses.
use crate::args::{whole, Args};
use crate::edition;
use crate::fail::{usage, Done, Fail};
use crate::out::{say, Out};
use crate::reading::{address_help, callsign_help};
use crate::values;
use codeplug::{decode_address, encode_callsign, tone_frequency, tone_index, Edition, Refused};

pub fn tone(mut args: Args, out: &mut Out) -> Done {
    let index = args.value("index");
    let hertz = if args.has_next() { Some(args.next_text("HERTZ")?) } else { None };
    args.end("tone")?;
    let found = match (index, hertz) {
        (Some(_), Some(_)) => return usage("a tone is given by its hertz or its index, not by both"),
        (Some(index), None) => hertz_of(&index)?,
        (None, Some(hertz)) => index_of(&hertz)?,
        (None, None) => return table(out),
    };
    out.line(&found)
}

fn hertz_text(tenths: u16) -> String {
    values::fixed_text(tenths.into(), 1, 1)
}

fn table(out: &mut Out) -> Done {
    for index in 0..=u8::MAX {
        let Some(tenths) = tone_frequency(index) else { break };
        out.line(&format!("{index} {}", hertz_text(tenths)))?;
    }
    Ok(())
}

fn hertz_of(index: &str) -> Result<String, Fail> {
    let Some(number) = whole(index, usize::MAX) else { return usage(format!("--index: '{index}' is no number")) };
    let tenths = u8::try_from(number).ok().and_then(tone_frequency);
    tenths.map(hertz_text).ok_or_else(|| none(&format!("there is no tone of index {index}")))
}

fn index_of(hertz: &str) -> Result<String, Fail> {
    let number = values::without_unit(hertz, "Hz");
    if !number.contains(|c: char| c.is_ascii_digit()) || number.contains(|c: char| !c.is_ascii_digit() && c != '.') {
        return usage(format!("'{hertz}' is no number"));
    }
    let tenths = values::fixed(number, 1).and_then(|tenths| u16::try_from(tenths).ok());
    let index = tenths.and_then(tone_index);
    index.map(|index| index.to_string()).ok_or_else(|| none(&format!("{hertz} is no tone of the table")))
}

/// That the table has no such tone: there is no refusal of that, only the answer.
fn none(text: &str) -> Fail {
    say(&format!("codeplug: {text}"));
    Fail::Told(1)
}

pub fn callsign(mut args: Args, out: &mut Out) -> Done {
    let (hex, edition) = (args.flag("hex"), edition::of(&mut args)?);
    let text = args.next_text_or_empty("TEXT")?;
    args.end("callsign")?;
    let text = &text[..];
    let number = encode_callsign(text, edition).map_err(|refused| {
        let words = callsign_words(text, refused, edition);
        Fail::Refused { about: format!("'{text}'"), refused, words }
    })?;
    let bytes: Vec<String> = number.to_be_bytes()[2..].iter().map(|byte| format!("{byte:02X}")).collect();
    out.line(&if hex { bytes.join(" ") } else { number.to_string() })
}

pub fn callsign_words(text: &str, refused: Refused, edition: Edition) -> String {
    let foreign = text.get(refused.place..).and_then(|rest| rest.chars().next());
    match (refused.number, foreign) {
        (21, Some('#')) if edition == Edition::Newer => "'#' stands at the beginning of a hash address, and nowhere else".into(),
        (21, Some(c)) => format!("{c:?} is no character of a callsign (A to Z, 0 to 9, space, - / .){}", callsign_help(text, refused)),
        (20, _) if text.starts_with('#') => format!("a callsign has 1 to 9 characters, its hash sign counted, and this {} bytes", text.len()),
        (20, _) => format!("a callsign has 1 to 9 characters, and this {} bytes", text.len()),
        _ => refused.text().into(),
    }
}

pub fn address(mut args: Args, out: &mut Out) -> Done {
    let edition = edition::of(&mut args)?;
    let text = args.next_text("NUMBER")?;
    args.end("address")?;
    let number = values::address(&text).or_else(usage)?;
    let found = decode_address(number, edition).map_err(|refused| {
        let words = format!("{}{}", refused.text(), address_help(number, edition));
        Fail::Refused { about: text, refused, words }
    })?;
    out.line(&found.unwrap_or("broadcast".into()))
}
