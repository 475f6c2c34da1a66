//! Legacy files: validated by the legacy reading, and migrated.
mod common;
use codeplug::{migrate, validate, validate_legacy, Address, Codeplug, ContactInfo, Counts, Refused, FILE_MAX};
use common::*;

const CLUB: Counts = Counts { contacts: 6, channels: 10, banks: 4 };

/// The first byte of a contact, and of a channel, of the club's file.
const fn contact(n: usize) -> usize {
    88 + 39 * n
}

const fn channel(n: usize) -> usize {
    322 + 90 * n
}

/// Every byte that traits and settings may be by the legacy reading, and by the new one.
const BYTES: [(u8, u8); 6] = [(0, 0), (0x20, 4), (0x40, 1), (0x60, 5), (0x80, 2), (0xA0, 6)];

/// The club's legacy file with other bytes at a place.
fn with(at: usize, bytes: &[u8]) -> Vec<u8> {
    let mut file = sample("club-legacy");
    file[at..at + bytes.len()].copy_from_slice(bytes);
    file
}

fn migrated(file: &[u8]) -> (Result<Counts, Refused>, Vec<u8>) {
    let mut left = file.to_vec();
    (migrate(&mut left, OLDER), left)
}

/// Both calls refuse the file, which stays as it is.
fn refused(file: &[u8], number: u8, place: usize) {
    assert_eq!(validate_legacy(file, OLDER), no(number, place));
    assert!(migrated(file) == (no(number, place), file.to_vec()), "{number} at {place}: answered otherwise, or the file was touched");
}

#[test]
fn the_legacy_sample_becomes_the_club() {
    let legacy = sample("club-legacy");
    assert_eq!((validate(&legacy, OLDER), validate_legacy(&legacy, OLDER)), (no(7, 203), Ok(CLUB)));
    assert!(migrated(&legacy) == (Ok(CLUB), sample("club")));
    let changed: Vec<_> = (0..legacy.len()).filter(|n| legacy[*n] != sample("club")[*n]).collect();
    assert_eq!(changed, [contact(2) + 37, channel(2) + 1, channel(3) + 1]);
}

#[test]
fn migrated_records_are_those_of_the_club() {
    assert_eq!(Codeplug::open(&sample("club-legacy"), 0, 0, OLDER).map(|_| ()), no(7, 203));
    let (ours, there) = (Codeplug::open(&migrated(&sample("club-legacy")).1, 0, 0, OLDER).unwrap(), club());
    assert_eq!(ours.header(), there.header());
    (0..6).for_each(|n| assert_eq!(ours.contact(n).unwrap(), there.contact(n).unwrap()));
    (0..10).for_each(|n| assert_eq!(ours.channel(n).unwrap(), there.channel(n).unwrap()));
    (0..4).for_each(|n| assert_eq!((ours.bank(n), ours.entries(n)), (there.bank(n), there.entries(n))));
    assert_eq!(ours.contact(2).unwrap().info, ContactInfo::Dmr { id: 2_221_337, contact_type: 1, rx_tone: true });
    let traits = [2, 3].map(|n| ours.channel(n).unwrap()).map(|c| (c.bandwidth, c.receive_only));
    assert_eq!(traits, [(2, false), (0, true)]);
}

/// Every byte as a contact's settings and as the traits of a channel of each mode.
#[test]
fn every_byte() {
    for at in [contact(0) + 37, channel(0) + 1, channel(4) + 1, channel(9) + 1] {
        for byte in 0..=255 {
            let file = with(at, &[byte]);
            let Some((_, new)) = BYTES.iter().find(|(legacy, _)| *legacy == byte) else {
                refused(&file, 7, at);
                continue;
            };
            let mut expected = sample("club");
            expected[at] = *new;
            assert_eq!((validate_legacy(&file, OLDER), validate(&expected, OLDER)), (Ok(CLUB), Ok(CLUB)));
            assert!(migrated(&file) == (Ok(CLUB), expected), "{byte:02X} at {at}");
        }
    }
}

/// By the new reading the number stands in bits 0 and 1, the flag in bit 2.
#[test]
fn fields_read_as_they_did() {
    for (legacy, _) in BYTES {
        let (number, flag) = (legacy >> 6, legacy & 0x20 != 0);
        let ours = Codeplug::open(&migrated(&with(channel(7) + 1, &[legacy])).1, 0, 0, OLDER).unwrap().channel(7).unwrap();
        assert_eq!((ours.bandwidth, ours.receive_only), (number, flag));
        let ours = Codeplug::open(&migrated(&with(contact(1) + 37, &[legacy])).1, 0, 0, OLDER).unwrap().contact(1).unwrap();
        assert_eq!(ours.info, ContactInfo::Dmr { id: 2227, contact_type: number, rx_tone: flag });
    }
}

/// Byte 37 of an M17 contact belongs to its address.
#[test]
fn an_m17_address_stays() {
    for byte in 0..=255 {
        let file = with(contact(5) + 33, &[0, 0, 0, 1, byte, 0]);
        let (answer, left) = migrated(&file);
        assert_eq!((answer, left[contact(5) + 37]), (Ok(CLUB), byte));
        let address = Address::Callsign(0x1_0000 + 0x100 * u64::from(byte));
        assert_eq!(codeplug::contact(&left, 5, OLDER).unwrap().info, ContactInfo::M17(address));
    }
}

#[test]
fn each_refusal() {
    let file = sample("club-legacy");
    refused(&vec![0; FILE_MAX + 1], 1, 0);
    refused(&[], 2, 0);
    refused(&with(0, b"r"), 3, 0);
    refused(&with(8, &[2]), 4, 8);
    refused(&with(channel(9) + 14, b"\n"), 5, channel(9) + 13);
    refused(&with(channel(9), &[3]), 6, channel(9));
    refused(&with(channel(9) + 77, &[91]), 7, channel(9) + 77);
    refused(&with(contact(4) + 33, &[0xFF; 2]), 8, contact(4) + 33);
    refused(&with(channel(4) + 87, &[3]), 9, channel(4) + 87);
    refused(&with(1222, &[1]), 10, 1222);
    refused(&with(1238 + 34, &[10]), 11, 1238 + 34);
    refused(&[&file[..], &[0]].concat(), 12, 1400);
}

/// The first bad field answers, and what stands before it is not migrated.
#[test]
fn the_first_bad_field_answers() {
    for (at, byte) in [(contact(2) + 37, 0xC0), (channel(2) + 1, 0x90), (channel(3) + 1, 4)] {
        let mut file = with(channel(9) + 77, &[91]);
        file[at] = byte;
        refused(&file, 7, at);
    }
}

/// Cut anywhere, a legacy file is refused as the file it becomes is.
#[test]
fn cut_at_every_length() {
    let (legacy, club) = (sample("club-legacy"), sample("club"));
    for length in 0..1400 {
        let Err(Refused { number: 2, place }) = validate(&club[..length], OLDER) else { panic!("{length}") };
        refused(&legacy[..length], 2, place);
    }
}

#[test]
fn migrated_twice_is_refused() {
    let mut file = sample("club-legacy");
    migrate(&mut file, OLDER).unwrap();
    refused(&file, 7, 203);
    assert_eq!(file, sample("club"));
}

#[test]
fn valid_by_both_readings_stays() {
    for file in ["dealer", "hire", "empty"].map(sample) {
        assert!(validate(&file, OLDER).is_ok());
        assert_eq!(validate_legacy(&file, OLDER), validate(&file, OLDER));
        assert!(migrated(&file) == (validate(&file, OLDER), file.clone()));
    }
}

/// One channel, and banks up to the longest file's length.
#[test]
fn the_longest_file() {
    let mut codeplug = Codeplug::empty(1000, 1000, OLDER);
    codeplug.insert_channel(0, &fm("Only")).unwrap();
    (0..8).for_each(|_| assert!(codeplug.insert_bank(0, "").is_ok()));
    let (banks, left) = (codeplug.bytes().len() - 8 * 34, FILE_MAX - codeplug.bytes().len() - 7 * 2 * 65_535);
    let mut file = codeplug.bytes()[..banks].to_vec();
    for (n, entries) in [65_535; 7].into_iter().chain([left / 2]).enumerate() {
        let offset = u32::try_from(file.len() - banks).unwrap();
        file[banks - 32 + 4 * n..][..4].copy_from_slice(&offset.to_le_bytes());
        file.resize(file.len() + 32, 0);
        file.extend(u16::try_from(entries).unwrap().to_le_bytes());
        file.resize(file.len() + 2 * entries, 0);
    }
    let mut expected = file.clone();
    (file[89], expected[89]) = (0xA0, 6);
    assert_eq!((file.len(), validate(&expected, OLDER).unwrap().banks), (FILE_MAX, 8));
    assert!(migrated(&file) == (validate(&expected, OLDER), expected));
    file.push(0);
    refused(&file, 1, 0);
}

/// The codeplug alone is migrated, not the spare bytes of its room.
#[test]
fn in_a_room() {
    let mut room = sample("club-legacy");
    room.resize(1500, 0xA0);
    refused(&room, 12, 1400);
    assert_eq!(migrate(&mut room[..1400], OLDER), Ok(CLUB));
    assert_eq!((&room[..1400], &room[1400..]), (&sample("club")[..], &[0xA0; 100][..]));
}

/// Edits begin at the migrated file, and undo leads back to it.
#[test]
fn edited_and_undone() {
    let mut codeplug = Codeplug::open(&migrated(&sample("club-legacy")).1, 1000, 10_000, OLDER).unwrap();
    codeplug.remove_contact(2).unwrap();
    codeplug.remove_channel(3).unwrap();
    (0..2).for_each(|_| assert!(codeplug.undo().is_ok()));
    assert_eq!((codeplug.undo(), codeplug.bytes()), (no(38, 0), &sample("club")[..]));
}

/// Why the history of a legacy file is thrown away: undo may be refused, or bring back a wrong file.
#[test]
fn the_history_of_a_legacy_file_does_not_fit() {
    let restored = |history: &[u8]| Codeplug::restore(&sample("club"), history, 0, 0, OLDER).unwrap();
    // Settings of contact 2, at 203, were 0x40.
    assert_eq!(restored(&[0xCB, 1, 1, 1, 0x40]).undo(), no(39, 0));
    // Its mode, at 198, was M17: then byte 203 belonged to the address, and should have stayed 0x60.
    let mut codeplug = restored(&[0xC6, 1, 1, 1, 2]);
    assert!(codeplug.undo().is_ok());
    let (_, right) = migrated(&with(198, &[2]));
    assert_eq!((codeplug.bytes()[203], right[203], validate(&right, OLDER)), (5, 0x60, Ok(CLUB)));
}
