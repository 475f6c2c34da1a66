//! The edition of M17 addresses that a command goes by: what --edition says, else CODEPLUG_EDITION in the environment, else the older one.
use crate::args::Args;
use crate::fail::{usage, Fail};
use crate::values;
use codeplug::Edition;

pub const OPTION: &str = "edition";
const VARIABLE: &str = "CODEPLUG_EDITION";

pub fn of(args: &mut Args) -> Result<Edition, Fail> {
    if let Some(text) = args.value(OPTION) {
        return named("--edition", &text);
    }
    match std::env::var_os(VARIABLE) {
        Some(text) if !text.is_empty() => named(VARIABLE, &text.to_string_lossy()),
        _ => Ok(Edition::Older),
    }
}

fn named(whence: &str, text: &str) -> Result<Edition, Fail> {
    match values::word(text, &["older", "newer"]) {
        Ok(0) => Ok(Edition::Older),
        Ok(_) => Ok(Edition::Newer),
        Err(fault) => usage(format!("{whence}: {fault}")),
    }
}
