//! Does what bindings/c/migrate.c does: validates IN by both readings, since nothing in a file says how it was written, and where it is a
//! legacy file writes OUT, migrated: migrate IN OUT. Where there is nothing to migrate, or both readings refuse IN, it says so and writes
//! nothing. Exits with 0; with 1 where IN is refused; with 2 where it is asked wrongly or a file cannot be read or written.
//!
//! Where the history of a legacy file was stored beside it, throw it away: it is not the migrated file's.
use codeplug::{migrate, validate, validate_legacy, Counts, Edition, Refused};
use std::{env, error::Error, fs, process::exit};

/// Prints the answer.
fn accepted(what: &str, answer: Result<Counts, Refused>) -> bool {
    match answer {
        Ok(c) => println!("{what}: ok {} {} {}", c.contacts, c.channels, c.banks),
        Err(refused) => println!("{what}: {refused}"),
    }
    answer.is_ok()
}

/// Whether IN is accepted, by either reading.
fn run(from: &str, to: &str) -> Result<bool, Box<dyn Error>> {
    let mut file = fs::read(from)?;
    let by_new = accepted("new reading", validate(&file, Edition::Older));
    let by_legacy = accepted("legacy reading", validate_legacy(&file, Edition::Older));
    if by_new {
        println!("{}: nothing to migrate", if by_legacy { "the same by both readings" } else { "not a legacy file" });
        return Ok(true);
    }
    if !by_legacy {
        println!("refused by both readings");
        return Ok(false);
    }
    accepted("a legacy file, migrated", migrate(&mut file, Edition::Older));
    fs::write(to, &file)?;
    Ok(accepted("new reading", validate(&fs::read(to)?, Edition::Older)))
}

fn main() {
    let done = match &env::args().collect::<Vec<_>>()[..] {
        [_, from, to] => run(from, to),
        _ => Err("usage: migrate IN OUT".into()),
    };
    match done {
        Ok(accepted) => exit(if accepted { 0 } else { 1 }),
        Err(error) => {
            eprintln!("{error}");
            exit(2);
        }
    }
}
