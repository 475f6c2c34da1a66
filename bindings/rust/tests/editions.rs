//! Both editions of M17 addresses (document 02, [10]), of addresses, files, edits and undo.
mod common;
use codeplug::{c, decode_address, edit, encode_callsign, migrate, prevalidated, undo, validate, validate_legacy, write_contact};
use codeplug::{Address, Codeplug, Contact, ContactInfo, Counts, EditKind, Edition, FILE_MAX};
use common::*;

/// The hash sign alone, 40 to the 9th, and the last hash address, which is 40 to the 8th further, less one.
const HASH: u64 = 262_144_000_000_000;
const LAST: u64 = 268_697_599_999_999;
const BROADCAST: u64 = 0xFFFF_FFFF_FFFF;
const BOTH: [Edition; 2] = [OLDER, NEWER];
/// The first hash address of the sample, and its counts.
const PLACE: usize = 199;
const COUNTS: Counts = Counts { contacts: 7, channels: 6, banks: 2 };

fn m17(callsign: &str) -> Contact {
    Contact { name: "Crew".into(), info: ContactInfo::M17(Address::of_callsign(callsign, NEWER).unwrap()) }
}

fn text(number: u64, edition: Edition) -> String {
    decode_address(number, edition).unwrap().unwrap()
}

#[test]
fn borders_by_number() {
    for number in [HASH, HASH + 1, HASH + 40, LAST - 1, LAST] {
        assert_eq!((decode_address(number, OLDER), encode_callsign(&text(number, NEWER), NEWER)), (no(23, 0), Ok(number)));
    }
    assert_eq!([HASH, HASH + 1, HASH + 40, LAST].map(|n| text(n, NEWER)), ["#", "#A", "# A", "#........"]);
    for edition in BOTH {
        assert_eq!((text(1, edition), text(HASH - 1, edition)), ("A".into(), ".........".into()));
        assert_eq!(decode_address(BROADCAST, edition), Ok(None));
        for number in [0, LAST + 1, BROADCAST - 1, BROADCAST + 1, u64::MAX] {
            assert_eq!(decode_address(number, edition), no(23, 0));
        }
    }
}

#[test]
fn texts() {
    for (text, answer) in [("#", HASH), ("# A", HASH + 40), ("#A", HASH + 1), ("#........", LAST), ("#AB1CD", HASH + 10_476_881)] {
        assert_eq!((encode_callsign(text, OLDER), encode_callsign(text, NEWER)), (no(21, 0), Ok(answer)), "{text}");
    }
    // By the older edition the hash sign is what is foreign, wherever it stands; by the newer one that which does not stand first.
    for (text, older, newer) in [("# ", 0, (22, 0)), ("#A ", 0, (22, 0)), ("##", 0, (21, 1)), ("#A#", 0, (21, 2)), ("#a", 0, (21, 1))] {
        assert_eq!((encode_callsign(text, OLDER), encode_callsign(text, NEWER)), (no(21, older), no(newer.0, newer.1)), "{text}");
    }
    for (text, number, place) in [("A#", 21, 1), (" #", 21, 1), ("", 20, 0), ("#.........", 20, 0), ("A ", 22, 0), ("ABCDEFGHIJ", 20, 0)] {
        BOTH.iter().for_each(|edition| assert_eq!(encode_callsign(text, *edition), no(number, place), "{text}"));
    }
}

/// What is good by both editions is the same by both.
#[test]
fn alike_where_both_accept() {
    for number in (0..2_000).flat_map(|n| [n, n * 131_072_000_001, HASH - 1 - n]) {
        assert_eq!(decode_address(number, OLDER), decode_address(number, NEWER));
        if let Ok(Some(text)) = decode_address(number, OLDER) {
            assert_eq!((encode_callsign(&text, OLDER), encode_callsign(&text, NEWER)), (Ok(number), Ok(number)));
        }
    }
}

#[test]
fn address_enum() {
    assert_eq!(Address::of_callsign("#A", NEWER), Ok(Address::Callsign(HASH + 1)));
    assert_eq!(Address::of_callsign("#A", OLDER), no(21, 0));
    assert_eq!(Address::Callsign(HASH + 1).callsign(NEWER), Ok(Some("#A".into())));
    assert_eq!(Address::Callsign(HASH + 1).callsign(OLDER), no(23, 0));
    BOTH.iter().for_each(|edition| assert_eq!(Address::Broadcast.callsign(*edition), Ok(None)));
}

/// Every number but the newer edition's is the older one.
#[test]
fn any_number_is_an_edition() {
    let file = sample("hash");
    let validate = |number| unsafe { c::codeplug_validate(file.as_ptr(), file.len(), number) };
    let encode = |number| unsafe { c::codeplug_encode_callsign(b"#A".as_ptr(), 2, number) };
    assert_eq!((OLDER as u32, NEWER as u32), (0, 1));
    assert_eq!((validate(1).number, validate(0).number, encode(1).address, encode(0).number), (0, 8, HASH + 1, 21));
    for number in [2, 3, 255, 256, 257, 0x1_0001, 0x8000_0001, u32::MAX] {
        assert_eq!((validate(number), encode(number)), (validate(0), encode(0)), "{number}");
    }
}

#[test]
fn written_contacts() {
    let contact = |number| Contact { name: "".into(), info: ContactInfo::M17(Address::Callsign(number)) };
    for number in [HASH, HASH + 1, LAST] {
        assert_eq!(write_contact(&contact(number), OLDER), no(8, 33));
        assert_eq!(write_contact(&contact(number), NEWER).unwrap()[33..], number.to_be_bytes()[2..]);
    }
    for edition in BOTH {
        [0, LAST + 1, BROADCAST, u64::MAX].iter().for_each(|bad| assert_eq!(write_contact(&contact(*bad), edition), no(8, 33)));
        assert_eq!(write_contact(&contact(HASH - 1), edition), write_contact(&contact(HASH - 1), OLDER));
        let everyone = Contact { name: "".into(), info: ContactInfo::M17(Address::Broadcast) };
        assert_eq!(write_contact(&everyone, edition).unwrap()[33..], [255; 6]);
    }
}

/// Every reader refuses the sample by the older edition, and reads it by the newer.
#[test]
fn the_sample_by_both() {
    let file = sample("hash");
    assert_eq!((validate(&file, OLDER), validate(&file, NEWER)), (no(8, PLACE), Ok(COUNTS)));
    assert_eq!(codeplug::header(&file, OLDER), no(8, PLACE));
    assert_eq!(codeplug::contact(&file, 0, OLDER), no(8, PLACE));
    assert_eq!(codeplug::channel(&file, 0, OLDER), no(8, PLACE));
    assert_eq!(codeplug::bank(&file, 0, OLDER), no(8, PLACE));
    assert_eq!(codeplug::bank_entry(&file, 0, 0, OLDER), no(8, PLACE));
    assert_eq!(codeplug::entries(&file, 0, OLDER), no(8, PLACE));
    assert_eq!(codeplug::header(&file, NEWER).unwrap().counts, COUNTS);
    assert_eq!(codeplug::channel(&file, 1, NEWER).unwrap().info.contact(), Some(2));
    assert_eq!((codeplug::bank(&file, 1, NEWER).unwrap().entries, codeplug::entries(&file, 1, NEWER)), (2, Ok(vec![5, 4])));
    assert_eq!(codeplug::bank_entry(&file, 1, 0, NEWER).unwrap().channel, 5);
    // Without validating the whole file, the contact's own address counts.
    assert_eq!(prevalidated::contact(&file, 2, OLDER), no(8, PLACE));
    assert_eq!(prevalidated::contact(&file, 1, OLDER), prevalidated::contact(&file, 1, NEWER));
}

#[test]
fn the_samples_contacts() {
    let codeplug = Codeplug::open(&sample("hash"), 0, 0, NEWER).unwrap();
    assert_eq!((codeplug.edition(), club().edition()), (NEWER, OLDER));
    let callsign = |n| match codeplug.contact(n).unwrap().info {
        ContactInfo::M17(address) => address.callsign(codeplug.edition()).unwrap(),
        ContactInfo::Dmr { .. } => panic!("contact {n}"),
    };
    let callsigns = [None, Some("AB1CD"), Some("#CREW"), Some("# 2"), Some("#"), Some("#........")];
    assert_eq!(std::array::from_fn(callsign), callsigns.map(|text| text.map(String::from)));
    assert_eq!(Codeplug::open(&sample("hash"), 0, 0, OLDER).map(|_| ()), no(8, PLACE));
}

/// A file that the older edition accepts the newer accepts and reads alike; otherwise only refusal 8 differs.
#[test]
fn every_sample_by_both() {
    let answers = std::fs::read_to_string(format!("{ROOT}/samples/answers.txt")).unwrap();
    for (name, _) in answers.lines().map(|line| line.split_once(".rtxc: ").unwrap()).filter(|(name, _)| *name != "hash") {
        let file = sample(name);
        assert_eq!(validate(&file, OLDER), validate(&file, NEWER), "{name}");
        assert_eq!(validate_legacy(&file, OLDER), validate_legacy(&file, NEWER), "{name}");
        let Ok(counts) = validate(&file, OLDER) else { continue };
        assert_eq!(codeplug::header(&file, OLDER), codeplug::header(&file, NEWER));
        (0..counts.contacts.into()).for_each(|n| assert_eq!(codeplug::contact(&file, n, OLDER), codeplug::contact(&file, n, NEWER)));
        (0..counts.channels.into()).for_each(|n| assert_eq!(codeplug::channel(&file, n, OLDER), codeplug::channel(&file, n, NEWER)));
        (0..counts.banks.into()).for_each(|n| assert_eq!(codeplug::entries(&file, n, OLDER), codeplug::entries(&file, n, NEWER)));
    }
}

/// Inserted, read and undone by the newer edition; by the older it is refused, and both buffers stay.
#[test]
fn edited_in_lent_buffers() {
    let (mut room, mut history) = (sample("empty"), [7; 60]);
    room.resize(200, 7);
    let lent = (room.clone(), history);
    let record = write_contact(&m17("#AB1"), NEWER).unwrap();
    let insert = EditKind::InsertContact;
    assert_eq!(edit(&mut room, 88, &mut history, 0, insert, 0, 0, &record, OLDER), no(8, 88 + 33));
    assert_eq!((&room, &history), (&lent.0, &lent.1));
    let made = edit(&mut room, 88, &mut history, 0, insert, 0, 0, &record, NEWER).unwrap();
    assert_eq!((made.length, made.entries, codeplug::contact(&room[..127], 0, NEWER)), (127, 1, Ok(m17("#AB1"))));
    let kept = (room.clone(), history);
    assert_eq!(undo(&mut room, 127, &mut history, made.used, OLDER), no(8, 88 + 33));
    assert_eq!(edit(&mut room, 127, &mut history, made.used, EditKind::RemoveContact, 0, 0, &[], OLDER), no(8, 88 + 33));
    assert_eq!((&room, &history), (&kept.0, &kept.1));
    assert_eq!(undo(&mut room, 127, &mut history, made.used, NEWER).unwrap().length, 88);
    assert_eq!((&room[..88], validate(&room[..88], OLDER)), (&sample("empty")[..], validate(&sample("empty"), NEWER)));
}

#[test]
fn edited_as_a_codeplug() {
    let mut older = club();
    assert_eq!(older.insert_contact(0, &m17("#AB1")), no(8, 33));
    assert_eq!(older.replace_contact(5, &m17("#AB1")), no(8, 33));
    assert_eq!((older.bytes(), older.undoable()), (&sample("club")[..], 0));
    let mut newer = Codeplug::open(&sample("club"), 1000, 10_000, NEWER).unwrap();
    newer.insert_contact(0, &m17("#AB1")).unwrap();
    newer.replace_contact(6, &m17("#")).unwrap();
    assert_eq!((newer.contact(0), newer.contact(6), newer.counts().contacts), (Ok(m17("#AB1")), Ok(m17("#")), 7));
    assert_eq!(Codeplug::restore(newer.bytes(), newer.history(), 0, 0, OLDER).map(|_| ()), no(8, 88 + 33));
    let mut again = Codeplug::restore(newer.bytes(), newer.history(), 0, 0, NEWER).unwrap();
    assert_eq!(again.edition(), NEWER);
    (0..2).for_each(|_| assert!(again.undo().is_ok()));
    assert_eq!((again.undo(), again.bytes()), (no(38, 0), &sample("club")[..]));
}

/// A history of the newer edition, of a codeplug that the older accepts: what undo would bring back it does not.
#[test]
fn undone_by_the_other_edition() {
    let mut newer = Codeplug::empty(1000, 1000, NEWER);
    newer.insert_contact(0, &m17("#AB1")).unwrap();
    newer.remove_contact(0).unwrap();
    let mut older = Codeplug::restore(newer.bytes(), newer.history(), 0, 0, OLDER).unwrap();
    assert_eq!(older.undo(), no(39, 0));
    assert_eq!((older.bytes(), older.history(), older.undoable()), (newer.bytes(), newer.history(), 2));
    newer.undo().unwrap();
    assert_eq!(newer.contact(0), Ok(m17("#AB1")));
    // The other way about: the newer edition takes over what the older left.
    let mut older = club();
    older.rename_bank(0, "Daily").unwrap();
    let mut newer = Codeplug::restore(older.bytes(), older.history(), 0, 0, NEWER).unwrap();
    assert!(newer.undo().is_ok());
    assert_eq!(newer.bytes(), sample("club"));
}

/// Legacy files: a hash address stays, and the edition decides over it.
#[test]
fn legacy_files() {
    let mut legacy = sample("club-legacy");
    let at = 88 + 39 * 5 + 33;
    legacy[at..at + 6].copy_from_slice(&(HASH + 1).to_be_bytes()[2..]);
    let mut expected = sample("club");
    expected[at..at + 6].copy_from_slice(&(HASH + 1).to_be_bytes()[2..]);
    let mut file = legacy.clone();
    assert_eq!((validate_legacy(&file, OLDER), migrate(&mut file, OLDER)), (no(8, at), no(8, at)));
    assert_eq!(file, legacy);
    assert_eq!((validate_legacy(&file, NEWER).is_ok(), migrate(&mut file, NEWER)), (true, validate(&expected, NEWER)));
    assert_eq!((file, validate(&expected, OLDER)), (expected, no(8, at)));
}

/// The longest file with a hash address in its last contact.
#[test]
fn many_contacts() {
    let most = (FILE_MAX - 88) / 39;
    let mut file = sample("empty");
    file[82..84].copy_from_slice(&u16::try_from(most).unwrap().to_le_bytes());
    let record = write_contact(&Contact { name: "".into(), info: ContactInfo::M17(Address::Callsign(1)) }, OLDER).unwrap();
    (1..most).for_each(|_| file.extend(record));
    file.extend(write_contact(&m17("#"), NEWER).unwrap());
    assert_eq!(validate(&file, OLDER), no(8, file.len() - 6));
    assert_eq!(validate(&file, NEWER).map(|counts| usize::from(counts.contacts)), Ok(most));
}
