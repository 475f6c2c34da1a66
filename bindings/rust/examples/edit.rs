//! Does what bindings/c/example.c does: opens a codeplug, prints its counts, its last M17 contact and first channel, changes the channel's
//! tone and the contact, undoes the last, writes the file and validates it again: edit IN OUT.
use codeplug::{Address, Codeplug, ContactInfo, EditAnswer, Edition, Info, Refused, Tone, FILE_MAX};
use std::{env, error::Error, fs, process::exit};

fn print_counts(codeplug: &Codeplug) {
    let c = codeplug.counts();
    println!("{} bytes: {} contacts, {} channels, {} banks", codeplug.bytes().len(), c.contacts, c.channels, c.banks);
}

fn print_contact(codeplug: &Codeplug, n: usize) -> Result<(), Refused> {
    let contact = codeplug.contact(n)?;
    match contact.info {
        ContactInfo::Dmr { id, .. } => println!("contact {n}: \"{}\" DMR id {id}", contact.name),
        ContactInfo::M17(address) => {
            println!("contact {n}: \"{}\" M17 {}", contact.name, address.callsign(codeplug.edition())?.unwrap_or("broadcast".into()))
        }
    }
    Ok(())
}

fn print_channel(codeplug: &Codeplug, n: usize) -> Result<(), Refused> {
    let c = codeplug.channel(n)?;
    print!("channel {n}: \"{}\", \"{}\", mode {}, ", c.name, c.description, c.info.mode());
    print!("receive {} Hz, transmit {} Hz, ", c.receive_hz, c.transmit_hz);
    if let Info::Fm { transmit_tone, .. } = c.info {
        let tenths = codeplug::tone_frequency(transmit_tone.index()).unwrap_or(0);
        let on = if transmit_tone.is_enabled() { "on" } else { "off" };
        print!("transmit tone {}.{} {on}, ", tenths / 10, tenths % 10);
    }
    println!("latitude {} + 0.{:04}", c.latitude, c.latitude_e4);
    Ok(())
}

fn print_bank(codeplug: &Codeplug, n: usize) -> Result<(), Refused> {
    print!("bank {n}: \"{}\"", codeplug.bank(n)?.name);
    for channel in codeplug.entries(n)? {
        print!(" {channel}");
    }
    println!();
    Ok(())
}

fn print_edited(what: &str, answer: EditAnswer) {
    println!("{what}: {} bytes, history {}, {} to undo", answer.length, answer.used, answer.entries);
}

fn set_tone(codeplug: &mut Codeplug, n: usize, tenths: u16) -> Result<(), Box<dyn Error>> {
    let mut channel = codeplug.channel(n)?;
    if let Info::Fm { transmit_tone, .. } = &mut channel.info {
        *transmit_tone = Tone::of_frequency(tenths).ok_or("there is no such tone")?;
    }
    print_edited("tone changed", codeplug.replace_channel(n, &channel)?);
    Ok(())
}

fn set_callsign(codeplug: &mut Codeplug, n: usize, callsign: &str) -> Result<(), Refused> {
    let mut contact = codeplug.contact(n)?;
    contact.info = ContactInfo::M17(Address::of_callsign(callsign, codeplug.edition())?);
    print_edited("contact changed", codeplug.replace_contact(n, &contact)?);
    Ok(())
}

/// Where there is none, the number of contacts, which is no contact's place.
fn last_m17_contact(codeplug: &Codeplug) -> usize {
    let contacts = usize::from(codeplug.counts().contacts);
    let is_m17 = |n: &usize| codeplug.contact(*n).is_ok_and(|contact| matches!(contact.info, ContactInfo::M17(_)));
    (0..contacts).rev().find(is_m17).unwrap_or(contacts)
}

fn run(from: &str, to: &str) -> Result<(), Box<dyn Error>> {
    let mut codeplug = Codeplug::open(&fs::read(from)?, 65_536, FILE_MAX + 9, Edition::Older)?;
    print_counts(&codeplug);
    if let Err(refused) = codeplug.undo() {
        println!("undo: {refused}");
    }
    let contact = last_m17_contact(&codeplug);
    print_contact(&codeplug, contact)?;
    print_channel(&codeplug, 0)?;
    print_bank(&codeplug, 0)?;
    set_tone(&mut codeplug, 0, 1000)?;
    set_callsign(&mut codeplug, contact, "AB2CD")?;
    print_contact(&codeplug, contact)?;
    print_edited("undone", codeplug.undo()?);
    print_contact(&codeplug, contact)?;
    print_channel(&codeplug, 0)?;
    print_counts(&codeplug);
    fs::write(to, codeplug.bytes())?;
    let again = Codeplug::open(&fs::read(to)?, 0, 0, Edition::Older)?;
    print_counts(&again);
    print_channel(&again, 0)?;
    Ok(())
}

fn main() {
    let done = match &env::args().collect::<Vec<_>>()[..] {
        [_, from, to] => run(from, to),
        _ => Err("usage: edit IN OUT".into()),
    };
    if let Err(error) = done {
        eprintln!("{error}");
        exit(1);
    }
}
