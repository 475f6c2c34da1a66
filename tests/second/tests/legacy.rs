//! Legacy files: the legacy reading, and migrating them (paper 02: request
//! [5]), by both editions of request [10].

use std::collections::HashSet;
use std::io::Write;
use std::process::{Command, Output, Stdio};

use obcf_second::book::{Book, Call};
use obcf_second::codeplug::{self, Codeplug};
use obcf_second::edit::{edit, undo, Edit};
use obcf_second::legacy::{self, read_legacy};
use obcf_second::lists::{bank_of, file_of, random_call, Lent};
use obcf_second::record::{ChannelInfo, ContactInfo};
use obcf_second::sample::{self, Rng, Shape};
use obcf_second::{doubtful, Counts, Edition, Refusal, LONGEST};

const SHAPE: Shape = Shape {
    contacts: 4,
    channels: 4,
    banks: 3,
    entries: 4,
};

/// The bytes that either reading takes, old and new, with what they mean.
const BYTES: [(u8, u8, u8, bool); 6] = [
    (0b0000_0000, 0b0000_0000, 0, false),
    (0b0010_0000, 0b0000_0100, 0, true),
    (0b0100_0000, 0b0000_0001, 1, false),
    (0b0110_0000, 0b0000_0101, 1, true),
    (0b1000_0000, 0b0000_0010, 2, false),
    (0b1010_0000, 0b0000_0110, 2, true),
];

fn refused<T>(number: u8, place: usize) -> Result<T, Refusal> {
    Err(Refusal { number, place })
}

fn counts(contacts: u16, channels: u16, banks: u16) -> Result<Counts, Refusal> {
    Ok(Counts {
        contacts,
        channels,
        banks,
    })
}

/// What migrating answers, and the file it leaves.
fn migrated_by(file: &[u8], edition: Edition) -> (Result<Counts, Refusal>, Vec<u8>) {
    let mut left = file.to_vec();
    let answer = legacy::migrate(&mut left, edition);
    (answer, left)
}

/// The same with the file refused, which must stay as it is.
fn check_refused_by(file: &[u8], number: u8, place: usize, edition: Edition) {
    let answer = legacy::validate_legacy(file, edition);
    assert_eq!(answer, refused(number, place));
    let (answer, left) = migrated_by(file, edition);
    assert_eq!(answer, refused(number, place));
    assert!(left == file, "a refused file has changed");
}

// Without hash addresses both editions answer alike.

fn by_both<T: PartialEq>(answer: impl Fn(Edition) -> T) -> T {
    let [older, newer] = Edition::BOTH.map(answer);
    assert!(older == newer);
    older
}

fn migrated(file: &[u8]) -> (Result<Counts, Refusal>, Vec<u8>) {
    by_both(|edition| migrated_by(file, edition))
}

fn check_refused(file: &[u8], number: u8, place: usize) {
    by_both(|edition| check_refused_by(file, number, place, edition))
}

fn validate(file: &[u8]) -> Result<Counts, Refusal> {
    by_both(|edition| codeplug::validate(file, edition))
}

fn read(file: &[u8]) -> Codeplug {
    by_both(|edition| Codeplug::read(file, edition)).unwrap()
}

// A small legacy file, laid out by hand.

/// Where it has the settings of its DMR contact, the same byte of its M17
/// contact, and the traits of its channels.
const SETTINGS: usize = 88 + 37;
const ADDRESS_BYTE: usize = 88 + 39 + 37;
const TRAITS: [usize; 3] = [88 + 78 + 1, 88 + 78 + 90 + 1, 88 + 78 + 180 + 1];

fn small_file() -> Vec<u8> {
    let mut dmr = vec![0; 39];
    dmr[..5].copy_from_slice(b"Group");
    dmr[32..38].copy_from_slice(&[1, 0xA0, 0x20, 0x40, 0x60, 0xA0]);
    let mut m17 = vec![0; 39];
    m17[32..39].copy_from_slice(&[2, 0x20, 0x40, 0x60, 0x80, 0xA0, 0x20]);
    let channel = |traits: u8, mode: u8, info: [u8; 5]| {
        let mut record = vec![0; 90];
        record[..3].copy_from_slice(&[mode, traits, 0xA0]);
        record[11..13].copy_from_slice(&[0x80, 0x40]);
        record[85..].copy_from_slice(&info);
        record
    };
    let channels = [
        channel(0x60, 0, [0x20, 0xA0, 0, 0, 0]),
        channel(0x80, 1, [0xA5, 1, 0, 0, 0]),
        channel(0x20, 2, [0x4F, 0x20, 1, 1, 0]),
    ];
    let bank = bank_of(&[b'~'; 32], &[2, 0, 1, 0]);
    file_of(&mut Rng::new(1), &[dmr, m17], &channels, &[bank])
}

/// The small file with these bytes put in.
fn with(changes: &[(usize, u8)]) -> Vec<u8> {
    let mut file = small_file();
    for &(at, byte) in changes {
        file[at] = byte;
    }
    file
}

#[test]
fn a_small_file_is_migrated() {
    let (answer, left) = migrated(&small_file());
    assert_eq!(answer, counts(2, 3, 1));
    let changes = [
        (SETTINGS, 0x06),
        (TRAITS[0], 0x05),
        (TRAITS[1], 0x02),
        (TRAITS[2], 0x04),
    ];
    assert!(left == with(&changes));
    assert_eq!(validate(&left), counts(2, 3, 1));

    let codeplug = read(&left);
    let traits = codeplug.channels.iter();
    let traits: Vec<_> = traits.map(|c| (c.bandwidth, c.receive_only)).collect();
    assert_eq!(traits, [(1, true), (2, false), (0, true)]);
    let info = ContactInfo::Dmr {
        id: 0x6040_20A0,
        contact_type: 2,
        rx_tone: true,
    };
    assert_eq!(codeplug.contacts[0].info, info);
}

/// Halves of a byte stay as they are.
#[test]
fn halves_stay() {
    let (_, left) = migrated(&small_file());
    let codeplug = read(&left);
    let dmr = ChannelInfo::Dmr {
        rx_colour: 0xA,
        tx_colour: 0x5,
        timeslot: 1,
        contact: Some(0),
    };
    let m17 = ChannelInfo::M17 {
        rx_access: 0x4,
        tx_access: 0xF,
        operation: 2,
        encryption: 0,
        send_position: true,
        contact: Some(1),
    };
    assert_eq!(codeplug.channels[1].info, dmr);
    assert_eq!(codeplug.channels[2].info, m17);
}

/// Every byte as settings and as traits, by both readings.
#[test]
fn every_byte_by_both_readings() {
    let zeros: Vec<(usize, u8)> = [SETTINGS].iter().chain(&TRAITS).map(|&p| (p, 0)).collect();
    for place in [SETTINGS, TRAITS[0], TRAITS[1], TRAITS[2]] {
        for byte in 0..=255 {
            let file = with(&[&zeros[..], &[(place, byte)]].concat());
            let by_old = BYTES.iter().find(|row| row.0 == byte);
            let by_new = BYTES.iter().find(|row| row.1 == byte);
            match by_old {
                None => check_refused(&file, 7, place),
                Some(row) => {
                    let expected = with(&[&zeros[..], &[(place, row.1)]].concat());
                    assert!(migrated(&file) == (counts(2, 3, 1), expected));
                    let codeplug = by_both(|edition| read_legacy(&file, edition)).unwrap();
                    assert_eq!(parts(&codeplug, place), (row.2, row.3));
                }
            }
            match by_new {
                None => assert_eq!(validate(&file), refused(7, place)),
                Some(row) => assert_eq!(parts(&read(&file), place), (row.2, row.3)),
            }
        }
    }
}

/// The number and the flag that the small file has at one of its four places.
fn parts(codeplug: &Codeplug, place: usize) -> (u8, bool) {
    if let Some(n) = TRAITS.iter().position(|&at| at == place) {
        let channel = &codeplug.channels[n];
        return (channel.bandwidth, channel.receive_only);
    }
    match codeplug.contacts[0].info {
        ContactInfo::Dmr {
            contact_type,
            rx_tone,
            ..
        } => (contact_type, rx_tone),
        ContactInfo::M17(_) => panic!("the first contact is DMR"),
    }
}

/// The first bad field in file order answers, and nothing before it is changed.
#[test]
fn the_first_refusal_answers() {
    check_refused(&with(&[(TRAITS[2], 0x21)]), 7, TRAITS[2]);
    check_refused(&with(&[(TRAITS[2], 0xC0), (TRAITS[1], 0x02)]), 7, TRAITS[1]);
    check_refused(&with(&[(TRAITS[0], 0xFF), (SETTINGS, 0xE0)]), 7, SETTINGS);
    check_refused(&with(&[(SETTINGS, 0xE0), (SETTINGS - 5, 0)]), 6, 88 + 32);
    check_refused(&with(&[(SETTINGS + 1, 1), (TRAITS[0], 1)]), 7, SETTINGS + 1);
    check_refused(
        &with(&[(TRAITS[0], 1), (ADDRESS_BYTE - 4, 0xFF)]),
        8,
        88 + 72,
    );
    check_refused(&with(&[(TRAITS[1] + 87, 1)]), 9, TRAITS[1] + 86);
    let file = small_file();
    check_refused(&[&file[..], &[0]].concat(), 12, file.len());
    let last = file.len() - 2;
    check_refused(&with(&[(last, 3)]), 11, last);
    check_refused(&with(&[(TRAITS[2] + 89, 1)]), 10, TRAITS[2] + 89);
}

#[test]
fn lengths_of_old_files() {
    check_refused(&[], 2, 0);
    let mut empty = vec![0; 88];
    codeplug::write_empty(&mut empty).unwrap();
    assert!(migrated(&empty) == (counts(0, 0, 0), empty.clone()));
    check_refused(&empty[..87], 2, 86);
    check_refused(&[&empty[..], &[0]].concat(), 12, 88);
    check_refused(&vec![0; LONGEST], 3, 0);
    check_refused(&vec![0; LONGEST + 1], 1, 0);

    // One channel and eight banks that fill the longest file.
    let mut channel = vec![0; 90];
    channel[1] = 0x80;
    let mut banks: Vec<Vec<u8>> = vec![bank_of(&[0; 32], &[0; 65_535]); 7];
    let left = LONGEST - 88 - 90 - 7 * (4 + banks[0].len()) - 4 - 34;
    banks.push(bank_of(&[0; 32], &vec![0; left / 2]));
    let mut file = file_of(&mut Rng::new(1), &[], &[channel], &banks);
    assert_eq!((file.len(), left % 2), (LONGEST, 0));
    let (answer, mut left) = migrated(&file);
    assert_eq!((answer, left[89]), (counts(0, 1, 8), 0x02));
    left[89] = 0x80;
    assert!(left == file);
    file.push(0);
    check_refused(&file, 1, 0);
}

#[test]
fn a_cut_at_every_length() {
    let mut rng = Rng::new(21);
    let mut files = vec![(small_file(), Edition::Older)];
    files.extend((0..20).map(|_| {
        let edition = rng.pick(&Edition::BOTH);
        (sample::legacy_file(&mut rng, SHAPE, edition), edition)
    }));
    for (file, edition) in files {
        let spans = sample::legacy_file_spans(&file);
        for length in 0..file.len() {
            let cut = spans.iter().find(|span| span.at + span.size > length);
            check_refused_by(&file[..length], 2, cut.unwrap().at, edition);
        }
        assert!(migrated_by(&file, edition).0.is_ok());
    }
}

// Generated files.

/// A file of today put into the legacy order comes back byte for byte.
#[test]
fn files_put_into_the_old_order_come_back() {
    let mut rng = Rng::new(22);
    let mut changed = 0;
    for _ in 0..1_000 {
        let edition = rng.pick(&Edition::BOTH);
        let file = sample::file(&mut rng, SHAPE, edition);
        let mut old = file.clone();
        sample::to_legacy(&mut old);
        changed += usize::from(old != file);
        assert_eq!(read_legacy(&old, edition), Codeplug::read(&file, edition));
        let answer = codeplug::validate(&file, edition);
        assert!(migrated_by(&old, edition) == (answer, file));
    }
    assert!(changed > 500, "{changed}");
}

/// Every field reads by the new reading what it read by the old; no other byte
/// changes, and the legacy file can be told from the new one.
#[test]
fn files_are_equal_field_by_field() {
    let mut rng = Rng::new(23);
    let mut zero = 0;
    for _ in 0..1_000 {
        let edition = rng.pick(&Edition::BOTH);
        let old = sample::legacy_file(&mut rng, SHAPE, edition);
        let codeplug = read_legacy(&old, edition).expect("a valid legacy file");
        let (answer, mut left) = migrated_by(&old, edition);
        assert_eq!(answer, Ok(codeplug.header.counts));
        assert_eq!(Codeplug::read(&left, edition), Ok(codeplug));
        assert_eq!(left.len(), old.len());

        let places = sample::settings_places(&old);
        let first = places.iter().copied().find(|&at| old[at] != 0);
        match first {
            // The same file again is refused at its first byte that is not 0.
            Some(at) => check_refused_by(&left, 7, at, edition),
            None => assert!(migrated_by(&left, edition) == (answer, old.clone())),
        }
        zero += usize::from(first.is_none() && !places.is_empty());
        for at in places {
            let row = BYTES.iter().find(|row| row.1 == left[at]).unwrap();
            left[at] = row.0;
        }
        assert!(left == old);
    }
    assert!(zero > 50, "{zero}");
}

/// No two legacy files give the same file, whatever stands in the bytes that
/// change and in byte 37 of an M17 contact.
#[test]
fn different_files_stay_different() {
    let mut results = HashSet::new();
    let mut files = 0;
    for settings in BYTES {
        for traits in BYTES {
            for byte in 0..=255 {
                let file = with(&[
                    (SETTINGS, settings.0),
                    (TRAITS[1], traits.0),
                    (ADDRESS_BYTE, byte),
                ]);
                let (answer, left) = migrated(&file);
                assert_eq!(answer, counts(2, 3, 1));
                assert_eq!(left[ADDRESS_BYTE], byte);
                results.insert(left);
                files += 1;
            }
        }
    }
    assert_eq!(results.len(), files);

    let mut rng = Rng::new(24);
    let (mut old, mut new) = (HashSet::new(), HashSet::new());
    for _ in 0..2_000 {
        let file = doubtful::short_legacy_file(&mut rng, Edition::Newer);
        if let (Ok(_), left) = migrated_by(&file, Edition::Newer) {
            old.insert(file);
            new.insert(left);
        }
    }
    assert_eq!(old.len(), new.len());
}

// Files that may be refused.

/// Where a file has traits and contact settings, as far as it goes.
fn places(file: &[u8]) -> Vec<usize> {
    let number = |at: usize| usize::from(u16::from_le_bytes([file[at], file[at + 1]]));
    if file.len() < 88 {
        return Vec::new();
    }
    let (contacts, channels) = (number(82), number(84));
    let is_dmr = |&at: &usize| file.get(at + 32) == Some(&1);
    let contacts_at = (0..contacts).map(|n| 88 + 39 * n);
    let settings = contacts_at.filter(is_dmr).map(|at| at + 37);
    let traits = (0..channels).map(|n| 88 + 39 * contacts + 90 * n + 1);
    settings
        .chain(traits)
        .filter(|&at| at < file.len())
        .collect()
}

/// The legacy answer by another way: that of the file with all traits and
/// contact settings zero, unless an earlier one of them is bad.
fn legacy_answer(file: &[u8], edition: Edition) -> Result<Counts, Refusal> {
    let mut zeros = file.to_vec();
    let mut bad = None;
    for at in places(file) {
        zeros[at] = 0;
        let good = BYTES.iter().any(|row| row.0 == file[at]);
        bad = bad.or((!good).then_some(at));
    }
    match (codeplug::validate(&zeros, edition), bad) {
        (Err(refusal), Some(at)) if refusal.place < at => Err(refusal),
        (_, Some(at)) => refused(7, at),
        (answer, None) => answer,
    }
}

#[test]
fn doubtful_files_are_answered_alike() {
    let mut rng = Rng::new(25);
    let mut seen = [0; 13];
    let mut at_settings = 0;
    for n in 0..6_000 {
        let edition = Edition::BOTH[n % 2];
        let file = match n % 3 {
            0 => doubtful::legacy_file(&mut rng, edition),
            1 => doubtful::short_legacy_file(&mut rng, edition),
            _ => doubtful::file(&mut rng, edition),
        };
        let answer = legacy_answer(&file, edition);
        match answer {
            Err(Refusal { number, place }) => {
                seen[usize::from(number)] += 1;
                check_refused_by(&file, number, place, edition);
                at_settings += usize::from(places(&file).contains(&place));
            }
            Ok(_) => {
                seen[0] += 1;
                assert_eq!(legacy::validate_legacy(&file, edition), answer);
                let mut expected = file.clone();
                for at in places(&file) {
                    let row = BYTES.iter().find(|row| row.0 == file[at]);
                    expected[at] = row.unwrap().1;
                }
                assert_eq!(codeplug::validate(&expected, edition), answer);
                assert!(migrated_by(&file, edition) == (answer, expected));
            }
        }
    }
    for number in [0, 2, 3, 4, 5, 6, 7, 8, 9, 10, 11, 12] {
        assert!(seen[number] > 20, "answer {number} is too rare: {seen:?}");
    }
    assert!(at_settings > 500, "{at_settings}");
}

// After a migration.

/// Calls on a file that was migrated, from an empty history: the book opens
/// over the new file, and undos lead back to it.
#[test]
fn calls_follow_a_migration() {
    let mut rng = Rng::new(26);
    for _ in 0..200 {
        let edition = rng.pick(&Edition::BOTH);
        let mut room = sample::legacy_file(&mut rng, SHAPE, edition);
        let length = room.len();
        room.resize(length + 500, 0xEE);
        legacy::migrate(&mut room[..length], edition).unwrap();
        assert_eq!(room[length..], [0xEE; 500]);
        let opening = room[..length].to_vec();
        let mut book = Book::open(opening.clone(), room.len(), 20_000, edition);
        let mut lent = Lent {
            room,
            length: length as u64,
            history: vec![0xEE; 20_000],
            history_length: 0,
            edition,
        };
        for _ in 0..8 {
            let call = random_call(&mut rng, lent.file().unwrap(), edition);
            assert_eq!(lent.call(&call), book.call(&call), "{call:?}");
            assert!(lent.file() == Some(&book.file()));
        }
        while lent.call(&Call::Undo).is_ok() {}
        assert!(lent.file() == Some(&opening));
    }
}

/// A legacy file that has not been migrated is the codeplug's own refusal.
#[test]
fn old_files_are_not_edited() {
    let mut file = small_file();
    let length = file.len();
    let remove = Edit {
        kind: 8,
        first: 0,
        second: 0,
        record: Vec::new(),
    };
    let history = &mut [0; 1_000];
    let edition = Edition::Older;
    assert_eq!(
        edit(&mut file, length, history, 0, &remove, edition),
        refused(7, SETTINGS)
    );
    assert_eq!(
        undo(&mut file, length, history, 0, edition),
        refused(7, SETTINGS)
    );
    legacy::migrate(&mut file, edition).unwrap();
    assert!(edit(&mut file, length, history, 0, &remove, edition).is_ok());
}

// The program.

/// Runs the program on this input.
fn run(command: &str, input: &[u8]) -> Output {
    let mut program = Command::new(env!("CARGO_BIN_EXE_second"))
        .arg(command)
        .stdin(Stdio::piped())
        .stdout(Stdio::piped())
        .stderr(Stdio::piped())
        .spawn()
        .unwrap();
    program.stdin.take().unwrap().write_all(input).unwrap();
    program.wait_with_output().unwrap()
}

#[test]
fn the_program_validates_old_files() {
    let line = |command: &str, input: &[u8]| {
        let ran = run(command, input);
        assert_eq!((ran.status.code(), ran.stderr.len()), (Some(0), 0));
        String::from_utf8(ran.stdout).unwrap()
    };
    let (old, new) = (small_file(), migrated(&small_file()).1);
    let refused = format!("refused 7 at {SETTINGS}\n");
    assert_eq!(line("validate-legacy", &old), "ok 2 3 1\n");
    assert_eq!(line("validate-legacy", &new), refused);
    assert_eq!(line("validate", &old), refused);
    assert_eq!(line("validate", &new), "ok 2 3 1\n");
    assert_eq!(line("validate-legacy", &[]), "refused 2 at 0\n");
    assert_eq!(line("validate-legacy", &[0; 65_536]), "refused 3 at 0\n");
    assert_eq!(line("validate-legacy", &[0; 65_537]), "refused 1 at 0\n");
}

#[test]
fn the_program_migrates() {
    let (old, new) = (small_file(), migrated(&small_file()).1);
    let ran = run("migrate", &old);
    assert_eq!((ran.status.code(), ran.stderr.len()), (Some(0), 0));
    assert!(ran.stdout == new);
    let refusals = [
        (new, format!("refused 7 at {SETTINGS}\n")),
        (old[..87].to_vec(), "refused 2 at 86\n".to_string()),
        (vec![0; 65_537], "refused 3 at 0\n".to_string()),
        (vec![0; LONGEST + 1], "refused 1 at 0\n".to_string()),
    ];
    for (file, line) in refusals {
        let ran = run("migrate", &file);
        assert_eq!((ran.status.code(), ran.stdout.len()), (Some(1), 0));
        assert_eq!(String::from_utf8(ran.stderr).unwrap(), line);
    }
}
