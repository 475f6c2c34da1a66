//! A contact's fields.
use super::{put, Fault, Field, Set, Setter, Shown};
use crate::cell::Cell;
use crate::convert::callsign_words;
use crate::values;
use codeplug::{decode_address, encode_callsign, Address, Contact, ContactInfo, Edition};

const DMR: ContactInfo = ContactInfo::Dmr { id: 0, contact_type: 0, rx_tone: false };
/// No callsign's number: a writer refuses it, so that a contact gets its own.
const M17: ContactInfo = ContactInfo::M17(Address::Callsign(0));
const TYPES: &[&str] = &["group", "private", "all-call"];
const BROADCAST: u64 = 0xFFFF_FFFF_FFFF;

/// What a new contact begins with.
pub fn new_contact() -> Contact {
    Contact { name: String::new(), info: DMR }
}

/// Sets a field of DMR contacts.
fn dmr(contact: &mut Contact, set: impl FnOnce(&mut u32, &mut u8, &mut bool) -> Set) -> Set {
    match &mut contact.info {
        ContactInfo::Dmr { id, contact_type, rx_tone } => set(id, contact_type, rx_tone),
        ContactInfo::M17(_) => Err(Fault::Value("an M17 contact has none".into())),
    }
}

/// Sets an M17 contact's address.
fn m17(contact: &mut Contact, address: Address) -> Set {
    match &mut contact.info {
        ContactInfo::M17(own) => {
            *own = address;
            Ok(())
        }
        ContactInfo::Dmr { .. } => Err(Fault::Value("a DMR contact has none".into())),
    }
}

fn mode(contact: &mut Contact, text: &str) -> Set {
    match (values::word(text, &["dmr", "m17"])?, &contact.info) {
        (0, ContactInfo::M17(_)) => contact.info = DMR,
        (1, ContactInfo::Dmr { .. }) => contact.info = M17,
        _ => {}
    }
    Ok(())
}

fn callsign(contact: &mut Contact, text: &str, edition: Edition) -> Set {
    let number = encode_callsign(text, edition).map_err(|refused| Fault::Refused(refused, callsign_words(text, refused, edition)))?;
    m17(contact, Address::Callsign(number))
}

fn shown_callsign(contact: &Contact, edition: Edition) -> Cell {
    match contact.info {
        ContactInfo::Dmr { .. } => Cell::Absent,
        ContactInfo::M17(Address::Broadcast) => Cell::Blank("broadcast"),
        ContactInfo::M17(Address::Callsign(number)) => decode_address(number, edition).ok().flatten().map_or(Cell::Absent, Cell::Text),
    }
}

pub static CONTACT: &[Field<Contact>] = &[
    Field {
        key: "name",
        option: "name",
        title: "name",
        shown: Shown::InTables,
        get: |c, _| Cell::Text(c.name.clone()),
        set: Setter::Text(|c, text| c.name = text.into()),
    },
    Field {
        key: "mode",
        option: "mode",
        title: "mode",
        shown: Shown::InTables,
        get: |c, _| Cell::Word(if matches!(c.info, ContactInfo::M17(_)) { "M17" } else { "DMR" }),
        set: Setter::Value(|c, text, _| mode(c, text)),
    },
    Field {
        key: "id",
        option: "id",
        title: "id",
        shown: Shown::InTables,
        get: |c, _| if let ContactInfo::Dmr { id, .. } = c.info { Cell::Number(id.into()) } else { Cell::Absent },
        set: Setter::Value(|c, text, _| {
            let number = crate::args::whole(text, u32::MAX as usize).ok_or(format!("'{text}' is no number from 0 to {}", u32::MAX))?;
            dmr(c, |id, _, _| put(id, number as u32))
        }),
    },
    Field {
        key: "contact_type",
        option: "contact-type",
        title: "contact type",
        shown: Shown::InTables,
        get: |c, _| match c.info {
            ContactInfo::Dmr { contact_type, .. } => Cell::Word(TYPES[usize::from(contact_type.min(2))]),
            ContactInfo::M17(_) => Cell::Absent,
        },
        set: Setter::Value(|c, text, _| {
            let number = values::word(text, TYPES)?;
            dmr(c, |_, contact_type, _| put(contact_type, number))
        }),
    },
    Field {
        key: "rx_tone",
        option: "rx-tone",
        title: "rx tone",
        shown: Shown::InTables,
        get: |c, _| if let ContactInfo::Dmr { rx_tone, .. } = c.info { Cell::Flag(rx_tone, ["off", "on"]) } else { Cell::Absent },
        set: Setter::Value(|c, text, _| {
            let on = values::word(text, &["off", "on"])? == 1;
            dmr(c, |_, _, rx_tone| put(rx_tone, on))
        }),
    },
    Field {
        key: "callsign",
        option: "callsign",
        title: "callsign",
        shown: Shown::InTables,
        get: |c, context| shown_callsign(c, context.edition),
        set: Setter::Value(|c, text, context| callsign(c, text, context.edition)),
    },
    Field {
        key: "broadcast",
        option: "broadcast",
        title: "broadcast",
        shown: Shown::Again,
        get: |c, _| match c.info {
            ContactInfo::Dmr { .. } => Cell::Absent,
            ContactInfo::M17(address) => Cell::Flag(address == Address::Broadcast, ["no", "yes"]),
        },
        set: Setter::Flag(|c| m17(c, Address::Broadcast)),
    },
    Field {
        key: "address",
        option: "address",
        title: "address",
        shown: Shown::Again,
        get: |c, _| match c.info {
            ContactInfo::Dmr { .. } => Cell::Absent,
            ContactInfo::M17(Address::Broadcast) => Cell::Number(BROADCAST),
            ContactInfo::M17(Address::Callsign(number)) => Cell::Number(number),
        },
        set: Setter::Value(|c, text, context| {
            let number = values::address(text)?;
            m17(c, if decode_address(number, context.edition) == Ok(None) { Address::Broadcast } else { Address::Callsign(number) })
        }),
    },
];
