//! Opening and reading, by Codeplug and by the functions on slices.
mod common;
use codeplug::{prevalidated, Address, Bank, Codeplug, ContactInfo, Counts, Entry, Header, Info, Tone};
use common::*;

const CLUB: Counts = Counts { contacts: 6, channels: 10, banks: 4 };

#[test]
fn opens_or_refuses_each_sample() {
    let answers = std::fs::read_to_string(format!("{ROOT}/samples/answers.txt")).unwrap();
    for (name, answer) in answers.lines().map(|line| line.split_once(".rtxc: ").unwrap()) {
        let file = sample(name);
        let opened = Codeplug::open(&file, 0, 0, OLDER);
        let found = match &opened {
            Ok(codeplug) => format!("ok {} {} {}", codeplug.counts().contacts, codeplug.counts().channels, codeplug.counts().banks),
            Err(r) => format!("refused {} at {}", r.number, r.place),
        };
        assert_eq!(found, answer, "{name}");
        assert_eq!(codeplug::validate(&file, OLDER), opened.map(|codeplug| codeplug.counts()), "{name}");
    }
}

#[test]
fn opens_nothing_and_too_much() {
    assert_eq!(codeplug::validate(&[], OLDER), no(2, 0));
    assert_eq!(Codeplug::open(&vec![0; codeplug::FILE_MAX + 1], 0, 0, OLDER).map(|_| ()), no(1, 0));
    let codeplug = Codeplug::open(&sample("club"), usize::MAX, 0, OLDER).unwrap();
    assert_eq!(codeplug.bytes(), sample("club"));
}

#[test]
fn counts_and_header() {
    let codeplug = club();
    assert_eq!(codeplug.counts(), CLUB);
    assert_eq!(codeplug.undoable(), 0);
    let (author, description) = ("Hilltop Radio Club".into(), "Members' set, autumn".into());
    assert_eq!(codeplug.header(), Header { author, description, timestamp: 1_762_000_000, counts: CLUB });
    assert_eq!(codeplug::header(codeplug.bytes(), OLDER), Ok(codeplug.header()));
    assert_eq!(codeplug::header(&sample("club-trailing"), OLDER), no(12, 1400));
}

#[test]
fn contacts() {
    let codeplug = club();
    let control = codeplug.contact(2).unwrap();
    assert_eq!(control.name, "Net control");
    assert_eq!(control.info, ContactInfo::Dmr { id: 2_221_337, contact_type: 1, rx_tone: true });
    assert_eq!(codeplug.contact(3).unwrap().info, ContactInfo::M17(Address::Broadcast));
    assert_eq!(codeplug.contact(5).unwrap().info, ContactInfo::M17(Address::Callsign(10_476_881)));
    assert_eq!(codeplug.contact(6), no(33, 0));
    assert_eq!(codeplug.contact(usize::MAX), no(33, 0));
    assert_eq!(codeplug::contact(&sample("club-newline-in-name"), 1, OLDER), no(5, 88));
    assert_eq!(prevalidated::contact(&sample("club-newline-in-name"), 0, OLDER), no(5, 88));
    assert_eq!(prevalidated::contact(&sample("club-newline-in-name"), 1, OLDER), codeplug.contact(1));
}

#[test]
fn channels() {
    let codeplug = club();
    let hill = codeplug.channel(0).unwrap();
    assert_eq!((hill.name.as_str(), hill.description.as_str()), ("Hill", "Repeater, tone on transmit"));
    assert_eq!((hill.receive_hz, hill.transmit_hz, hill.bandwidth, hill.receive_only), (145_600_000, 145_000_000, 0, false));
    assert_eq!((hill.power, hill.scan_list, hill.group_list), (135, 0, 0));
    assert_eq!((hill.latitude, hill.latitude_e4, hill.longitude, hill.longitude_e4), (44, 4939, 11, 3428));
    assert_eq!(hill.altitude_plus_500, 790);
    assert_eq!(hill.info, Info::Fm { receive_tone: Tone::Disabled(0), transmit_tone: Tone::Enabled(2) });
    assert_eq!(hill.info.contact(), None);
    assert_eq!(codeplug.channel(2).unwrap().bandwidth, 2);
    assert!(codeplug.channel(3).unwrap().receive_only);
    assert_eq!(codeplug.channel(4).unwrap().info, Info::Dmr { receive_colour: 1, transmit_colour: 1, slot: 1, contact: Some(0) });
    assert_eq!(codeplug.channel(6).unwrap().info.contact(), None);
    let info = Info::M17 { receive_access: 0, transmit_access: 0, operation: 1, encryption: 0, position: true, contact: Some(3) };
    assert_eq!(codeplug.channel(7).unwrap().info, info);
    let south = codeplug.channel(9).unwrap();
    assert_eq!((south.latitude, south.latitude_e4, south.info.contact()), (-34, 1325, None));
    assert_eq!(codeplug.channel(10), no(33, 0));
    assert_eq!(codeplug::channel(&sample("club-tone-50"), 1, OLDER), no(7, 408));
    assert_eq!(prevalidated::channel(&sample("club-tone-50"), 0), no(7, 408));
}

/// A channel's contact is looked up in the file's contacts, validated or not.
#[test]
fn prevalidated_channels_have_their_contact_looked_up() {
    let mut file = sample("club");
    let at = 322 + 90 * 4 + 87;
    assert_eq!(prevalidated::channel(&file, 4).unwrap().info.contact(), Some(0));
    // An M17 contact, and two that are not there.
    for bad in [3_u16, 6, 65_534] {
        file[at..at + 2].copy_from_slice(&bad.to_le_bytes());
        assert_eq!(prevalidated::channel(&file, 4), no(9, at));
        assert_eq!(prevalidated::channel(&file, 5), codeplug::channel(&sample("club"), 5, OLDER));
    }
}

/// A prevalidated bank is read where its offset says, and its entries' channels are not looked up.
#[test]
fn prevalidated_banks_are_read_where_their_offset_says() {
    let mut file = sample("club");
    file[1222..1226].copy_from_slice(&100_000_u32.to_le_bytes());
    assert_eq!((codeplug::bank(&file, 0, OLDER), prevalidated::bank(&file, 0)), (no(10, 1222), no(2, 1238 + 100_000)));
    let mut file = sample("club");
    file[1238 + 34] = 255;
    assert_eq!(codeplug::bank_entry(&file, 0, 0, OLDER), no(11, 1238 + 34));
    assert_eq!(prevalidated::bank_entry(&file, 0, 0), Ok(Entry { channel: 255, next: 1 }));
}

#[test]
fn banks_and_entries() {
    let codeplug = club();
    assert_eq!(codeplug.bank(0), Ok(Bank { name: "Everyday".into(), entries: 5 }));
    assert_eq!(codeplug.entries(0), Ok(vec![0, 1, 4, 5, 2]));
    assert_eq!(codeplug.entries(2), Ok(vec![]));
    assert_eq!(codeplug.bank(4), no(33, 0));
    assert_eq!(codeplug.entries(4), no(33, 0));
    let file = codeplug.bytes();
    assert_eq!(codeplug::entries(file, 3, OLDER), Ok(vec![0, 0, 7]));
    assert_eq!(codeplug::bank_entry(file, 3, 2, OLDER), Ok(Entry { channel: 7, next: 3 }));
    assert_eq!(codeplug::bank_entry(file, 3, 3, OLDER), no(33, 0));
    assert_eq!(prevalidated::bank_entry(file, 3, 3), no(33, 0));
    let cut = sample("club-cut");
    assert_eq!(codeplug::bank(&cut, 0, OLDER), no(2, 997));
    assert_eq!(codeplug::entries(&cut, 0, OLDER), no(2, 997));
    assert_eq!(codeplug::bank_entry(&cut, 0, 0, OLDER), no(2, 997));
}

#[test]
fn both_readers_agree() {
    for file in ["club", "dealer", "hire"].map(sample) {
        let counts = codeplug::validate(&file, OLDER).unwrap();
        (0..counts.contacts.into()).for_each(|n| assert_eq!(codeplug::contact(&file, n, OLDER), prevalidated::contact(&file, n, OLDER)));
        (0..counts.channels.into()).for_each(|n| assert_eq!(codeplug::channel(&file, n, OLDER), prevalidated::channel(&file, n)));
        (0..counts.banks.into()).for_each(|n| assert_eq!(codeplug::bank(&file, n, OLDER), prevalidated::bank(&file, n)));
        (0..counts.banks.into()).for_each(|n| assert_eq!(codeplug::entries(&file, n, OLDER), prevalidated::entries(&file, n)));
    }
}
