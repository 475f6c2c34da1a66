//! Does what bindings/c/editions.c does: validates IN by both editions of M17 addresses, has the older one refuse a hash address, inserts a
//! contact that has it by the newer one, removes it, tries to undo that by both, and writes OUT, with the contact: editions IN OUT. Exits with
//! 0; with 1 where the newer edition refuses IN; with 2 where it is asked wrongly or a file cannot be read or written.
//!
//! A program goes by one edition throughout with a codeplug and its history; this one shows what happens otherwise.
use codeplug::{encode_callsign, validate, Address, Codeplug, Contact, ContactInfo, EditAnswer, Edition, Refused, FILE_MAX};
use std::{env, error::Error, fs, process::exit};

const CREW: &str = "#CREW";

/// Prints the answer.
fn print<T>(what: &str, answer: Result<T, Refused>, words: impl FnOnce(T) -> String) {
    match answer {
        Ok(answer) => println!("{what}: {}", words(answer)),
        Err(refused) => println!("{what}: {refused}"),
    }
}

fn print_counts(name: &str, file: &[u8], edition: Edition) {
    print(&format!("{name} edition"), validate(file, edition), |c| format!("ok {} {} {}", c.contacts, c.channels, c.banks));
}

fn print_address(name: &str, edition: Edition) {
    print(&format!("{CREW} by the {name} edition"), encode_callsign(CREW, edition), |address| address.to_string());
}

fn print_edited(what: &str, answer: Result<EditAnswer, Refused>) {
    print(what, answer, |answer| format!("{} bytes, {} to undo", answer.length, answer.entries));
}

fn print_contact(codeplug: &Codeplug, n: usize) -> Result<(), Refused> {
    let contact = codeplug.contact(n)?;
    if let ContactInfo::M17(address) = contact.info {
        println!("contact {n}: \"{}\" M17 {}", contact.name, address.callsign(codeplug.edition())?.unwrap_or_default());
    }
    Ok(())
}

/// The newer edition's codeplug and history, opened by the older one.
fn undo_by_older(codeplug: &Codeplug) -> Result<EditAnswer, Refused> {
    Codeplug::restore(codeplug.bytes(), codeplug.history(), 0, 0, Edition::Older)?.undo()
}

fn tried(codeplug: &mut Codeplug) -> Result<(), Refused> {
    let place = codeplug.counts().contacts.into();
    print_address("older", Edition::Older);
    print_address("newer", Edition::Newer);
    let info = ContactInfo::M17(Address::of_callsign(CREW, codeplug.edition())?);
    print_edited("contact inserted", Ok(codeplug.insert_contact(place, &Contact { name: "Crew".into(), info })?));
    print_contact(codeplug, place)?;
    print_counts("older", codeplug.bytes(), Edition::Older);
    print_counts("newer", codeplug.bytes(), Edition::Newer);
    print_edited("contact removed", Ok(codeplug.remove_contact(place)?));
    print_counts("older", codeplug.bytes(), Edition::Older);
    print_edited("undo by the older edition", undo_by_older(codeplug));
    print_edited("undo by the newer edition", Ok(codeplug.undo()?));
    Ok(())
}

/// Whether the newer edition accepts IN.
fn run(from: &str, to: &str) -> Result<bool, Box<dyn Error>> {
    let file = fs::read(from)?;
    print_counts("older", &file, Edition::Older);
    print_counts("newer", &file, Edition::Newer);
    let Ok(mut codeplug) = Codeplug::open(&file, 65_536, 2 * (FILE_MAX + 9), Edition::Newer) else { return Ok(false) };
    tried(&mut codeplug)?;
    fs::write(to, codeplug.bytes())?;
    Ok(true)
}

fn main() {
    let done = match &env::args().collect::<Vec<_>>()[..] {
        [_, from, to] => run(from, to),
        _ => Err("usage: editions IN OUT".into()),
    };
    match done {
        Ok(accepted) => exit(if accepted { 0 } else { 1 }),
        Err(error) => {
            eprintln!("{error}");
            exit(2);
        }
    }
}
