//! A record by its place or its name.
use crate::args::whole;
use crate::explain::label;
use crate::fail::{usage, Fail};

/// The place of what `text` names among `names`: digits are a place, which the library validates; =NAME is a name; so is all else.
pub fn place_of(part: &str, text: &str, names: &[&str]) -> Result<usize, String> {
    if text.bytes().all(|b| b.is_ascii_digit()) {
        return whole(text, usize::MAX).ok_or(format!("there is no {part} {text}"));
    }
    let name = text.strip_prefix('=').unwrap_or(text);
    let found: Vec<usize> = (0..names.len()).filter(|n| names[*n] == name).collect();
    match found[..] {
        [one] => Ok(one),
        [] => Err(format!("no {part} is named '{name}'{}", in_other_letters(part, name, names))),
        _ => {
            let places: Vec<String> = found.iter().take(8).map(usize::to_string).collect();
            Err(format!("{} {part}s are named '{name}', at {}: give the place", found.len(), places.join(", ")))
        }
    }
}

fn in_other_letters(part: &str, name: &str, names: &[&str]) -> String {
    let near = names.iter().position(|other| other.eq_ignore_ascii_case(name));
    near.map_or_else(String::new, |n| format!("; there is {}", label(part, n, names[n])))
}

/// A place in digits.
pub fn place(text: &str) -> Result<usize, Fail> {
    whole(text, usize::MAX).map_or_else(|| usage(format!("'{text}' is no place: places are numbers from 0")), Ok)
}
