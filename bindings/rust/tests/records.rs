//! Writing records and texts; addresses, tones, refusals and the version.
mod common;
use codeplug::{write_channel, write_contact, write_text, Address, Channel, Contact, ContactInfo, EditKind, Info, Refused, Tone};
use common::*;

const NO_SUCH: &str = "there is no such refusal";

fn header() -> String {
    std::fs::read_to_string(format!("{ROOT}/bindings/c/include/codeplug.h")).unwrap()
}

/// What was read is written as the bytes it was read from.
#[test]
fn every_sample_record_is_written_as_it_was() {
    for file in ["club", "dealer", "hire"].map(sample) {
        let counts = codeplug::validate(&file, OLDER).unwrap();
        let (contacts, channels) = file[88..].split_at(39 * usize::from(counts.contacts));
        for (n, there) in contacts.chunks(39).enumerate() {
            assert_eq!(write_contact(&codeplug::contact(&file, n, OLDER).unwrap(), OLDER).unwrap(), there);
        }
        for (n, there) in channels.chunks(90).take(counts.channels.into()).enumerate() {
            assert_eq!(write_channel(&codeplug::channel(&file, n, OLDER).unwrap()).unwrap(), there);
        }
    }
}

/// The number stands in bits 0 and 1, the flag in bit 2.
#[test]
fn traits_and_settings() {
    for (number, flag, byte) in [(0, false, 0), (1, false, 1), (2, false, 2), (0, true, 4), (1, true, 5), (2, true, 6)] {
        for channel in [fm(""), dmr_channel(None), m17_channel(None)] {
            let record = write_channel(&Channel { bandwidth: number, receive_only: flag, ..channel }).unwrap();
            assert_eq!(record[1], byte);
        }
        let info = ContactInfo::Dmr { id: 1, contact_type: number, rx_tone: flag };
        assert_eq!(write_contact(&Contact { name: "".into(), info }, OLDER).unwrap()[37], byte);
    }
}

#[test]
fn contacts_refused() {
    let name = |name: &str| write_contact(&dmr(name, 1), OLDER).map(|_| ());
    assert_eq!(name(&"x".repeat(32)), Ok(()));
    assert_eq!(name(""), Ok(()));
    for bad in ["x".repeat(33).as_str(), "a\nb", "a\0", "\0", "é"] {
        assert_eq!(name(bad), no(5, 0), "{bad:?}");
    }
    let contact = |info| write_contact(&Contact { name: "".into(), info }, OLDER);
    assert_eq!(contact(ContactInfo::Dmr { id: u32::MAX, contact_type: 3, rx_tone: true }), no(7, 37));
    for bad in [0, 262_144_000_000_000, 0xFFFF_FFFF_FFFF, u64::MAX] {
        assert_eq!(contact(ContactInfo::M17(Address::Callsign(bad))), no(8, 33));
    }
    assert_eq!(contact(ContactInfo::M17(Address::Broadcast)).unwrap()[33..], [255; 6]);
}

#[test]
fn channels_refused() {
    let refused = |place, channel: Channel| assert_eq!(write_channel(&channel).map(|_| ()), no(7, place));
    refused(1, Channel { bandwidth: 3, ..fm("") });
    refused(11, Channel { scan_list: 251, ..fm("") });
    refused(12, Channel { group_list: 129, ..fm("") });
    refused(77, Channel { latitude: 91, ..fm("") });
    refused(78, Channel { latitude: 90, latitude_e4: 1, ..fm("") });
    refused(81, Channel { longitude_e4: 10_000, ..fm("") });
    let tones = |receive_tone, transmit_tone| Channel { info: Info::Fm { receive_tone, transmit_tone }, ..fm("") };
    refused(85, tones(Tone::Disabled(50), Tone::Disabled(0)));
    refused(86, tones(Tone::Disabled(0), Tone::Enabled(50)));
    assert_eq!(write_channel(&fm("\t")), no(5, 13));
    assert_eq!(write_channel(&Channel { description: "x".repeat(33), ..fm("") }), no(5, 45));
}

/// Nobody, contact 0, a disabled tone and tone 0 are four things.
#[test]
fn blanks() {
    let nobody = write_channel(&dmr_channel(None)).unwrap();
    assert_eq!(nobody[85..], [0x1F, 2, 0xFF, 0xFF, 0]);
    assert_eq!(write_channel(&dmr_channel(Some(0))).unwrap()[85..], [0x1F, 2, 0, 0, 0]);
    assert_eq!(write_channel(&m17_channel(None)).unwrap()[85..], [0xF1, 0x32, 1, 0xFF, 0xFF]);
    assert_eq!(write_channel(&dmr_channel(Some(65_535))), write_channel(&dmr_channel(None)));
    assert_eq!(write_channel(&m17_channel(Some(65_535))), write_channel(&m17_channel(None)));
    let info = Info::Fm { receive_tone: Tone::Disabled(31), transmit_tone: Tone::Enabled(0) };
    assert_eq!(write_channel(&Channel { info, ..fm("") }).unwrap()[85..], [31, 0x80, 0, 0, 0]);
}

#[test]
fn callsigns() {
    assert_eq!(Address::of_callsign("AB1CD", OLDER), Ok(Address::Callsign(10_476_881)));
    assert_eq!(codeplug::encode_callsign(".........", OLDER), Ok(262_143_999_999_999));
    assert_eq!(codeplug::encode_callsign("", OLDER), no(20, 0));
    assert_eq!(codeplug::encode_callsign("ABCDEFGHIJ", OLDER), no(20, 0));
    assert_eq!(codeplug::encode_callsign("ABc", OLDER), no(21, 2));
    assert_eq!(codeplug::encode_callsign("A ", OLDER), no(22, 0));
    assert_eq!(Address::Callsign(10_476_881).callsign(OLDER), Ok(Some("AB1CD".into())));
    assert_eq!(codeplug::decode_address(40, OLDER), Ok(Some(" A".into())));
    assert_eq!(codeplug::decode_address(0xFFFF_FFFF_FFFF, OLDER), Ok(None));
    assert_eq!(Address::Broadcast.callsign(OLDER), Ok(None));
    assert_eq!(codeplug::decode_address(0, OLDER), no(23, 0));
    assert_eq!(codeplug::decode_address(262_144_000_000_000, OLDER), no(23, 0));
}

#[test]
fn tones() {
    assert_eq!((codeplug::tone_frequency(0), codeplug::tone_frequency(49)), (Some(670), Some(2541)));
    assert_eq!((codeplug::tone_frequency(50), codeplug::tone_frequency(255)), (None, None));
    assert_eq!((codeplug::tone_index(670), codeplug::tone_index(1000)), (Some(0), Some(12)));
    assert_eq!((codeplug::tone_index(0), codeplug::tone_index(671)), (None, None));
    assert_eq!((Tone::of_frequency(1000), Tone::of_frequency(1)), (Some(Tone::Enabled(12)), None));
    assert_eq!((Tone::Disabled(3).index(), Tone::Disabled(3).is_enabled()), (3, false));
}

#[test]
fn texts() {
    assert_eq!(write_text("Field day").unwrap(), *b"Field day\0\0\0\0\0\0\0\0\0\0\0\0\0\0\0\0\0\0\0\0\0\0\0");
    assert_eq!((write_text(""), write_text(&"~".repeat(32))), (Ok([0; 32]), Ok([b'~'; 32])));
    for bad in ["x".repeat(33).as_str(), "a\nb", "a\0", "\x7F", "é"] {
        assert_eq!(write_text(bad), no(5, 0), "{bad:?}");
    }
}

/// Every refusal of the header has its number and words here, and no other number is one.
#[test]
fn refusals_say_what_the_header_says() {
    let header = header();
    let table = header.lines().filter_map(|line| line.trim().strip_prefix("REFUSAL("));
    let mut texts = [NO_SUCH; 256];
    texts[0] = "not refused";
    for line in table.clone() {
        let [_, number, words] = line.splitn(3, ", ").collect::<Vec<_>>()[..] else { panic!("{line}") };
        texts[number.parse::<usize>().unwrap()] = words.split('"').nth(1).unwrap();
    }
    assert_eq!((table.count(), texts.iter().filter(|text| **text != NO_SUCH).count()), (28, 29));
    for number in 0..=255 {
        assert_eq!(Refused { number, place: 0 }.text(), texts[usize::from(number)], "{number}");
    }
    let shown = Refused { number: 33, place: 0 }.to_string();
    assert_eq!(shown, "refused 33 at 0: there is no such place");
}

/// An enum of the header: its names, without what they begin with, and numbers.
fn numbers(name: &str) -> Vec<(String, usize)> {
    let header = header();
    let (_, body) = header.split_once(&format!("enum codeplug_{name} {{\n")).unwrap();
    let (body, _) = body.split_once("\n};").unwrap();
    let rows = body.lines().filter_map(|line| line.trim().strip_prefix("CODEPLUG_")?.split_once(" = "));
    rows.map(|(name, rest)| (name.into(), rest.split([',', ' ']).next().unwrap().parse().unwrap())).collect()
}

fn named<const N: usize>(numbers: [(&str, usize); N]) -> Vec<(String, usize)> {
    numbers.map(|(name, number)| (name.into(), number)).to_vec()
}

#[test]
fn sizes_are_those_of_the_header() {
    let ours = named([
        ("FILE_MAX", codeplug::FILE_MAX),
        ("HEADER_SIZE", codeplug::HEADER_SIZE),
        ("CONTACT_SIZE", codeplug::CONTACT_SIZE),
        ("CHANNEL_SIZE", codeplug::CHANNEL_SIZE),
        ("TEXT_SIZE", codeplug::TEXT_SIZE),
        ("TEXTS_SIZE", codeplug::TEXTS_SIZE),
        ("CALLSIGN_SIZE", codeplug::CALLSIGN_SIZE),
        ("BANK_ENTRY_SIZE", codeplug::BANK_ENTRY_SIZE),
        ("SET_HEADER_SIZE", codeplug::SET_HEADER_SIZE),
    ]);
    assert_eq!(ours, numbers("size"));
}

#[test]
fn kinds_of_edits_are_those_of_the_header() {
    let ours = named([
        ("INSERT_CONTACT", EditKind::InsertContact as usize),
        ("REMOVE_CONTACT", EditKind::RemoveContact as usize),
        ("REPLACE_CONTACT", EditKind::ReplaceContact as usize),
        ("INSERT_CHANNEL", EditKind::InsertChannel as usize),
        ("REMOVE_CHANNEL", EditKind::RemoveChannel as usize),
        ("REPLACE_CHANNEL", EditKind::ReplaceChannel as usize),
        ("INSERT_BANK", EditKind::InsertBank as usize),
        ("REMOVE_BANK", EditKind::RemoveBank as usize),
        ("RENAME_BANK", EditKind::RenameBank as usize),
        ("INSERT_ENTRY", EditKind::InsertEntry as usize),
        ("REMOVE_ENTRY", EditKind::RemoveEntry as usize),
        ("SET_HEADER", EditKind::SetHeader as usize),
    ]);
    assert_eq!(ours, numbers("edit_kind"));
}

#[test]
fn editions_are_those_of_the_header() {
    let ours = named([("EDITION_OLDER", OLDER as usize), ("EDITION_NEWER", NEWER as usize)]);
    assert_eq!(ours, numbers("edition"));
}

/// The crate, the header and the library have one version.
#[test]
fn versions_agree() {
    let header = header();
    let number = |part: &str| {
        let (_, rest) = header.split_once(&format!("#define CODEPLUG_VERSION_{part} ")).unwrap();
        rest.lines().next().unwrap().parse::<u8>().unwrap()
    };
    let (major, minor, patch) = (number("MAJOR"), number("MINOR"), number("PATCH"));
    assert_eq!(codeplug::version(), (major, minor, patch));
    assert_eq!(env!("CARGO_PKG_VERSION"), format!("{major}.{minor}.{patch}"));
}
