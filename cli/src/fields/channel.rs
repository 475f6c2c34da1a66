//! A channel's fields.
use super::Shown::{self, Alone, InTables, Never};
use super::{put, Context, Fault, Field, Set, Setter};
use crate::cell::Cell;
use crate::values::{self, degrees_text, is_word, small, without_unit, word};
use crate::which::place_of;
use codeplug::{tone_index, Channel, Contact, ContactInfo, Info, Tone};

const MODES: &[&str] = &["FM", "DMR", "M17"];
const BANDWIDTHS: &[&str] = &["12.5", "20", "25"];
const OPERATIONS: &[&str] = &["voice", "data", "both"];
const ENCRYPTIONS: &[&str] = &["plain", "aes-256", "scrambler"];
/// No text is this word: the field has no blank.
const NO_BLANK: &str = "";
const NO_YES: [&str; 2] = ["no", "yes"];
const OFF_ON: [&str; 2] = ["off", "on"];

/// What a channel of a mode begins with.
fn new_info(mode: u8) -> Info {
    let off = Tone::Disabled(0);
    match mode {
        0 => Info::Fm { receive_tone: off, transmit_tone: off },
        1 => Info::Dmr { receive_colour: 1, transmit_colour: 1, slot: 1, contact: None },
        _ => Info::M17 { receive_access: 0, transmit_access: 0, operation: 1, encryption: 0, position: false, contact: None },
    }
}

/// What a new channel begins with.
pub fn new_channel() -> Channel {
    Channel {
        name: String::new(),
        description: String::new(),
        receive_hz: 0,
        transmit_hz: 0,
        bandwidth: 0,
        receive_only: false,
        power: 0,
        scan_list: 0,
        group_list: 0,
        latitude: 0,
        latitude_e4: 0,
        longitude: 0,
        longitude_e4: 0,
        altitude_plus_500: 500,
        info: new_info(0),
    }
}

/// That a channel of its mode does not have a field.
fn none_of(info: &Info) -> Set {
    Err(Fault::Value(format!("{} {} channel has none", ["an", "a", "an"][usize::from(info.mode())], MODES[usize::from(info.mode())])))
}

/// Gets and sets a field that channels of one or two modes have. In the other modes it is blank already, where it has a word for that.
macro_rules! by_mode {
    ($field:ident: $($mode:ident)|+, $get:expr, $set:expr, $blank:expr) => {
        (
            |c: &Channel, _: Context| match &c.info {
                $(Info::$mode { $field, .. })|+ => $get(*$field),
                _ => Cell::Absent,
            },
            Setter::Value(|c: &mut Channel, text: &str, context: Context| {
                let mode = c.info.mode();
                match &mut c.info {
                    $(Info::$mode { $field, .. })|+ => put($field, $set(text, (mode, *$field, context.contacts))?),
                    _ if is_word(text, $blank) => Ok(()),
                    other => none_of(other),
                }
            }),
        )
    };
    ($field:ident: $($mode:ident)|+, $get:expr, $set:expr) => {
        by_mode!($field: $($mode)|+, $get, $set, NO_BLANK)
    };
}

type Get = fn(&Channel, Context) -> Cell;

/// A field by its key, option, heading and where it is shown.
const fn field(
    (key, option, title, shown): (&'static str, &'static str, &'static str, Shown),
    (get, set): (Get, Setter<Channel>),
) -> Field<Channel> {
    Field { key, option, title, shown, get, set }
}

/// What a setter knows: the channel's mode, the field's value, and the contacts.
type Known<'a, T> = (u8, T, &'a [Contact]);

fn degrees((floor, e4): (&mut i8, &mut u16), value: (i8, u16)) -> Set {
    (*floor, *e4) = value;
    Ok(())
}

fn number(value: u8) -> Cell {
    Cell::Number(value.into())
}

fn list(value: u8) -> Cell {
    if value == 0 {
        Cell::Blank("none")
    } else {
        Cell::Number(value.into())
    }
}

fn set_number(text: &str, _: Known<u8>) -> Result<u8, String> {
    small(text)
}

/// A tone in hertz, which has to be in the table; off, which keeps the index; or off with the tone to keep.
fn set_tone(text: &str, (_, tone, _): Known<Tone>) -> Result<Tone, String> {
    let index = |hertz: &str| {
        let tenths = values::fixed(without_unit(hertz, "Hz"), 1).and_then(|tenths| u16::try_from(tenths).ok());
        tenths.and_then(tone_index).ok_or(format!("'{hertz}' is no tone of the table: 'codeplug tone' lists it, and 'off' is none"))
    };
    match text.split_once(':') {
        Some((off, kept)) if is_word(off, "off") => index(kept).map(Tone::Disabled),
        None if is_word(text, "off") => Ok(Tone::Disabled(tone.index())),
        _ => index(text).map(Tone::Enabled),
    }
}

/// The contact that a channel calls.
pub fn shown_contact(channel: &Channel, contacts: &[Contact]) -> Cell {
    match channel.info.contact() {
        _ if channel.info.mode() == 0 => Cell::Absent,
        None => Cell::Blank("none"),
        Some(place) => Cell::Contact(place, contacts.get(usize::from(place)).map_or(String::new(), |c| c.name.clone())),
    }
}

/// A contact by its place or its name, among those of the channel's mode first; whether it may be called, the library says.
fn set_contact(text: &str, (mode, _, contacts): Known<Option<u16>>) -> Result<Option<u16>, String> {
    if is_word(text, "none") {
        return Ok(None);
    }
    let of_mode = |c: &&Contact| matches!(c.info, ContactInfo::Dmr { .. }) == (mode == 1);
    let own: Vec<&str> = contacts.iter().map(|c| if of_mode(&c) { &c.name[..] } else { "\n" }).collect();
    let all: Vec<&str> = contacts.iter().map(|c| &c.name[..]).collect();
    let place = place_of("contact", text, &own).or_else(|_| place_of("contact", text, &all))?;
    match u16::try_from(place) {
        Ok(u16::MAX) | Err(_) => Err(format!("there is no contact {place}; to call nobody is asked for by 'none'")),
        Ok(place) => Ok(Some(place)),
    }
}

pub static CHANNEL: &[Field<Channel>] = &[
    field(("name", "name", "name", InTables), (|c, _| Cell::Text(c.name.clone()), Setter::Text(|c, text| c.name = text.into()))),
    field(
        ("description", "description", "description", Alone),
        (|c, _| Cell::Text(c.description.clone()), Setter::Text(|c, text| c.description = text.into())),
    ),
    field(
        ("mode", "mode", "mode", InTables),
        (
            |c, _| Cell::Word(MODES[usize::from(c.info.mode())]),
            Setter::Value(|c, text, _| {
                let mode = word(text, MODES)?;
                let info = if mode == c.info.mode() { c.info } else { new_info(mode) };
                put(&mut c.info, info)
            }),
        ),
    ),
    field(
        ("receive_hz", "receive-frequency", "receive MHz", InTables),
        (|c, _| Cell::Hertz(c.receive_hz), Setter::Value(|c, text, _| put(&mut c.receive_hz, values::frequency(text)?))),
    ),
    field(
        ("transmit_hz", "transmit-frequency", "transmit MHz", InTables),
        (|c, _| Cell::Hertz(c.transmit_hz), Setter::Value(|c, text, _| put(&mut c.transmit_hz, values::frequency(text)?))),
    ),
    field(
        ("bandwidth_khz", "bandwidth", "bandwidth kHz", InTables),
        (
            |c, _| Cell::Decimal(BANDWIDTHS[usize::from(c.bandwidth.min(2))].into()),
            Setter::Value(|c, text, _| put(&mut c.bandwidth, word(without_unit(text, "kHz"), BANDWIDTHS)?)),
        ),
    ),
    field(
        ("receive_only", "receive-only", "receive only", InTables),
        (|c, _| Cell::Flag(c.receive_only, NO_YES), Setter::Value(|c, text, _| put(&mut c.receive_only, word(text, &NO_YES)? == 1))),
    ),
    field(
        ("power_dbm", "power", "power dBm", InTables),
        (|c, _| Cell::Decimal(values::dbm(c.power)), Setter::Value(|c, text, _| put(&mut c.power, values::power(text)?))),
    ),
    field(
        ("scan_list", "scan-list", "scan list", Alone),
        (|c, _| list(c.scan_list), Setter::Value(|c, text, _| put(&mut c.scan_list, values::list(text)?))),
    ),
    field(
        ("group_list", "group-list", "group list", Alone),
        (|c, _| list(c.group_list), Setter::Value(|c, text, _| put(&mut c.group_list, values::list(text)?))),
    ),
    field(
        ("latitude", "latitude", "latitude", InTables),
        (
            |c, _| Cell::Decimal(degrees_text(c.latitude, c.latitude_e4)),
            Setter::Value(|c, text, _| degrees((&mut c.latitude, &mut c.latitude_e4), values::degrees(text, "-90 to 90")?)),
        ),
    ),
    field(
        ("longitude", "longitude", "longitude", InTables),
        (
            |c, _| Cell::Decimal(degrees_text(c.longitude, c.longitude_e4)),
            Setter::Value(|c, text, _| degrees((&mut c.longitude, &mut c.longitude_e4), values::degrees(text, "-128 to 127.9999")?)),
        ),
    ),
    field(
        ("altitude_m", "altitude", "altitude m", Alone),
        (
            |c, _| Cell::Decimal((i32::from(c.altitude_plus_500) - 500).to_string()),
            Setter::Value(|c, text, _| put(&mut c.altitude_plus_500, values::altitude(text)?)),
        ),
    ),
    field(("receive_tone", "receive-tone", "receive tone", InTables), by_mode!(receive_tone: Fm, Cell::Tone, set_tone, "off")),
    field(
        ("receive_tone_index", "", "", Never),
        (|c, _| if let Info::Fm { receive_tone: tone, .. } = c.info { number(tone.index()) } else { Cell::Absent }, Setter::Never),
    ),
    field(("transmit_tone", "transmit-tone", "transmit tone", InTables), by_mode!(transmit_tone: Fm, Cell::Tone, set_tone, "off")),
    field(
        ("transmit_tone_index", "", "", Never),
        (|c, _| if let Info::Fm { transmit_tone: tone, .. } = c.info { number(tone.index()) } else { Cell::Absent }, Setter::Never),
    ),
    field(("receive_colour", "receive-colour", "receive colour", Alone), by_mode!(receive_colour: Dmr, number, set_number)),
    field(("transmit_colour", "transmit-colour", "transmit colour", Alone), by_mode!(transmit_colour: Dmr, number, set_number)),
    field(("slot", "slot", "slot", InTables), by_mode!(slot: Dmr, number, set_number)),
    field(("receive_access", "receive-access", "receive access", Alone), by_mode!(receive_access: M17, number, set_number)),
    field(("transmit_access", "transmit-access", "transmit access", Alone), by_mode!(transmit_access: M17, number, set_number)),
    field(
        ("operation", "operation", "operation", Alone),
        by_mode!(
            operation: M17,
            |operation: u8| Cell::Word(OPERATIONS[usize::from(operation.clamp(1, 3) - 1)]),
            |text, _: Known<u8>| word(text, OPERATIONS).map(|at| at + 1)
        ),
    ),
    field(
        ("encryption", "encryption", "encryption", Alone),
        by_mode!(
            encryption: M17,
            |encryption: u8| Cell::Word(ENCRYPTIONS[usize::from(encryption.min(2))]),
            |text, _: Known<u8>| word(text, ENCRYPTIONS)
        ),
    ),
    field(
        ("position", "position", "position", Alone),
        by_mode!(position: M17, |on| Cell::Flag(on, OFF_ON), |text, _: Known<bool>| word(text, &OFF_ON).map(|on| on == 1)),
    ),
    field(
        ("contact", "contact", "contact", InTables),
        (|c, context| shown_contact(c, context.contacts), by_mode!(contact: Dmr | M17, |_| Cell::Absent, set_contact, "none").1),
    ),
    field(
        ("contact_name", "", "", Never),
        (
            |c, context| match (c.info.contact(), &c.info) {
                (_, Info::Fm { .. }) => Cell::Absent,
                (None, _) => Cell::Blank(""),
                (Some(n), _) => context.contacts.get(usize::from(n)).map_or(Cell::Absent, |contact| Cell::Text(contact.name.clone())),
            },
            Setter::Never,
        ),
    ),
];
