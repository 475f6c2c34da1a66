//! Values as people write them, to and from numbers: exact, so that nothing is rounded.
use crate::args::whole;

/// A decimal number as whole units of its last digit: "88.5" with one digit is 885. None where it is no number, or has more digits after
/// the point.
pub fn fixed(text: &str, digits: usize) -> Option<i64> {
    let (minus, text) = text.strip_prefix('-').map_or((false, text), |rest| (true, rest));
    let (whole, part) = text.split_once('.').unwrap_or((text, "0"));
    let plain = |s: &str| !s.is_empty() && s.len() <= 12 && s.bytes().all(|b| b.is_ascii_digit());
    let part_digits = part.trim_end_matches('0');
    if !plain(whole) || !plain(part) || part_digits.len() > digits {
        return None;
    }
    let value: i64 = format!("{whole}{part_digits:0<digits$}").parse().ok()?;
    Some(if minus { -value } else { value })
}

/// The number back as text, with at least `least` digits after the point.
pub fn fixed_text(value: i64, digits: usize, least: usize) -> String {
    let unit = 10_u64.pow(digits as u32);
    let (whole, part) = (value.unsigned_abs() / unit, value.unsigned_abs() % unit);
    let mut part = format!("{part:0digits$}");
    while part.len() > least && part.ends_with('0') {
        part.pop();
    }
    let point = if part.is_empty() { "" } else { "." };
    format!("{}{whole}{point}{part}", if value < 0 { "-" } else { "" })
}

/// A frequency: MHz unless a unit is given, to the hertz.
pub fn frequency(text: &str) -> Result<u32, String> {
    let units = [("mhz", 6), ("khz", 3), ("hz", 0)];
    let (unit, digits) = units.into_iter().find(|(unit, _)| without_unit(text, unit) != text).unwrap_or(("", 6));
    let hertz = fixed(without_unit(text, unit), digits).and_then(|hertz| u32::try_from(hertz).ok());
    hertz.ok_or(format!("'{text}' is no frequency: MHz with at most six digits after the point, up to 4294.967295"))
}

pub fn mhz(hertz: u32) -> String {
    fixed_text(hertz.into(), 6, 3)
}

/// Power as the format stores it, fifths of a dBm above 10 dBm.
pub fn power(text: &str) -> Result<u8, String> {
    let fifths =
        fixed(without_unit(text, "dBm"), 1).filter(|tenths| tenths % 2 == 0).and_then(|tenths| u8::try_from((tenths - 100) / 2).ok());
    fifths.ok_or(format!("'{text}' is no power: 10 to 61 dBm in steps of 0.2"))
}

pub fn dbm(power: u8) -> String {
    fixed_text(100 + 2 * i64::from(power), 1, 1)
}

/// Degrees as the format stores them: the floor, and ten-thousandths above it. `range` is said where they are none.
pub fn degrees(text: &str, range: &str) -> Result<(i8, u16), String> {
    let e4 = fixed(text, 4).and_then(|e4| Some((i8::try_from(e4.div_euclid(10_000)).ok()?, e4.rem_euclid(10_000) as u16)));
    e4.ok_or(format!("'{text}' is not degrees from {range}, with at most four digits after the point"))
}

pub fn degrees_text(floor: i8, e4: u16) -> String {
    fixed_text(i64::from(floor) * 10_000 + i64::from(e4), 4, 1)
}

pub fn altitude(text: &str) -> Result<u16, String> {
    let metres = fixed(without_unit(text, "m"), 0).and_then(|metres| u16::try_from(metres + 500).ok());
    metres.ok_or(format!("'{text}' is no altitude: whole metres from -500 to 65035"))
}

/// One of some words, by its place among them.
pub fn word(text: &str, words: &[&str]) -> Result<u8, String> {
    let found = words.iter().position(|word| word.eq_ignore_ascii_case(text));
    found.map(|at| at as u8).ok_or_else(|| format!("'{text}' is none of: {}", words.join(", ")))
}

/// A number that its field can hold; whether it is within its rule, the library says.
pub fn small(text: &str) -> Result<u8, String> {
    whole(text, 255).map(|n| n as u8).ok_or(format!("'{text}' is no number from 0 to 255"))
}

/// Whether a text is a word, as off or none, in any letters.
pub fn is_word(text: &str, word: &str) -> bool {
    text.eq_ignore_ascii_case(word)
}

/// A text without the unit that may stand behind it.
pub fn without_unit<'a>(text: &'a str, unit: &str) -> &'a str {
    match text.len().checked_sub(unit.len()) {
        Some(at) if text.is_char_boundary(at) && text[at..].eq_ignore_ascii_case(unit) => text[..at].trim_end(),
        _ => text,
    }
}

/// A number from 1, or none, which is stored as 0.
pub fn list(text: &str) -> Result<u8, String> {
    match small(text) {
        _ if is_word(text, "none") => Ok(0),
        Ok(0) => Err("0 is no list; to be in none is asked for by 'none'".into()),
        Ok(n) => Ok(n),
        Err(_) => Err(format!("'{text}' is neither a number from 1 to 255 nor 'none'")),
    }
}

/// A number, decimal or hexadecimal after 0x.
pub fn address(text: &str) -> Result<u64, String> {
    let hex = text.strip_prefix("0x").or(text.strip_prefix("0X"));
    let digits = |s: &str, radix| s.chars().all(|c| c.is_digit(radix)).then(|| u64::from_str_radix(s, radix).ok()).flatten();
    let number = hex.map_or_else(|| digits(text, 10), |hex| digits(hex, 16));
    number.ok_or(format!("'{text}' is no number from 0 to {}", u64::MAX))
}

/// Seconds since 1970, or the present time.
pub fn timestamp(text: &str) -> Result<u64, String> {
    if is_word(text, "now") {
        let now = std::time::SystemTime::now().duration_since(std::time::UNIX_EPOCH);
        return now.map(|since| since.as_secs()).map_err(|_| "the clock is before 1970".into());
    }
    address(text).ok().filter(|_| text.bytes().all(|b| b.is_ascii_digit())).ok_or(format!("'{text}' is neither 'now' nor seconds"))
}

/// A timestamp as a date and time, where its year has four digits.
pub fn date(timestamp: u64) -> Option<String> {
    let (day, second) = ((timestamp / 86_400) as i64, timestamp % 86_400);
    (timestamp < 253_402_300_800).then_some(())?;
    // Days since 1970 to a date: H. S. Warren, by years that begin in March.
    let shifted = day + 719_468;
    let era = shifted / 146_097;
    let of_era = shifted % 146_097;
    let year = (of_era - of_era / 1_460 + of_era / 36_524 - of_era / 146_096) / 365;
    let of_year = of_era - (365 * year + year / 4 - year / 100);
    let month = (5 * of_year + 2) / 153;
    let (day, month) = (of_year - (153 * month + 2) / 5 + 1, if month < 10 { month + 3 } else { month - 9 });
    let year = year + era * 400 + i64::from(month <= 2);
    let (hours, minutes, seconds) = (second / 3_600, second / 60 % 60, second % 60);
    Some(format!("{year:04}-{month:02}-{day:02} {hours:02}:{minutes:02}:{seconds:02} UTC"))
}
