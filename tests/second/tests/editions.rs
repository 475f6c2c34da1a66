//! Both editions of M17 addresses (paper 02: request [10]).

use std::io::Write;
use std::process::{Command, Output, Stdio};

use obcf_second::address::{number_to_text, text_to_number, Address, BORDERS, BROADCAST};
use obcf_second::book::{Book, Call};
use obcf_second::codeplug::{self, write_empty, Codeplug};
use obcf_second::edit::{edit, undo, Answer, Edit};
use obcf_second::legacy::{migrate, read_legacy, validate_legacy};
use obcf_second::lists::{list, Lent};
use obcf_second::record::{Contact, ContactInfo};
use obcf_second::sample::{self, Rng};
use obcf_second::Edition::{Newer, Older};
use obcf_second::{doubtful, validate, Counts, Edition, Refusal};

/// The number of the hash sign alone, which is 40^9, and of the hash sign with
/// eight dots.
const FIRST: u64 = 262_144_000_000_000;
const LAST: u64 = 268_697_599_999_999;

/// The answer to a text.
type Number = Result<u64, Refusal>;

fn refused<T>(number: u8, place: usize) -> Result<T, Refusal> {
    Err(Refusal { number, place })
}

/// A text without the zeros after it; `None` for broadcast.
fn text_of(number: u64, edition: Edition) -> Result<Option<Vec<u8>>, Refusal> {
    let mut buffer = [0xEE; 12];
    let answer = number_to_text(number, &mut buffer, edition);
    assert_eq!(buffer[9..], [0xEE; 3]);
    if !matches!(answer, Ok(Address::Callsign(_))) {
        assert_eq!(buffer, [0xEE; 12]);
    }
    Ok(match answer? {
        Address::Broadcast => None,
        Address::Callsign(same) => {
            assert_eq!(same, number);
            let length = buffer[..9].iter().position(|&b| b == 0).unwrap_or(9);
            assert!(buffer[length..9].iter().all(|&b| b == 0));
            Some(buffer[..length].to_vec())
        }
    })
}

// Texts.

#[test]
fn texts_by_both_editions() {
    let foreign = refused(21, 0);
    let rows: [(&str, Number, Number); 20] = [
        ("#", foreign, Ok(FIRST)),
        ("# ", foreign, refused(22, 0)),
        ("#  ", foreign, refused(22, 0)),
        ("#A ", foreign, refused(22, 0)),
        ("# A", foreign, Ok(FIRST + 40)),
        ("#A", foreign, Ok(FIRST + 1)),
        ("#AB1CD", foreign, Ok(FIRST + 10_476_881)),
        ("#........", foreign, Ok(LAST)),
        ("#.........", refused(20, 0), refused(20, 0)),
        ("#        ", foreign, refused(22, 0)),
        ("#       A", foreign, Ok(FIRST + 40u64.pow(7))),
        ("##", foreign, refused(21, 1)),
        ("#A#", foreign, refused(21, 2)),
        ("#a ", foreign, refused(21, 1)),
        ("A#", refused(21, 1), refused(21, 1)),
        (" #", refused(21, 1), refused(21, 1)),
        ("A# ", refused(21, 1), refused(21, 1)),
        ("........#", refused(21, 8), refused(21, 8)),
        (".........", Ok(FIRST - 1), Ok(FIRST - 1)),
        ("", refused(20, 0), refused(20, 0)),
    ];
    for (text, older, newer) in rows {
        assert_eq!(text_to_number(text.as_bytes(), Older), older, "{text:?}");
        assert_eq!(text_to_number(text.as_bytes(), Newer), newer, "{text:?}");
    }
}

/// A character's digit, by the paper's list.
fn digit(character: u8) -> Option<u64> {
    let number = u64::from(character);
    match character {
        b' ' => Some(0),
        b'A'..=b'Z' => Some(1 + number - u64::from(b'A')),
        b'0'..=b'9' => Some(27 + number - u64::from(b'0')),
        b'-' => Some(37),
        b'/' => Some(38),
        b'.' => Some(39),
        _ => None,
    }
}

/// The answer to a text that may have a hash sign, worked out as a sum.
fn expected(text: &[u8], edition: Edition) -> Number {
    if text.is_empty() || text.len() > 9 {
        return refused(20, 0);
    }
    let hash = text[0] == b'#' && edition == Newer;
    let (mut sum, mut worth) = if hash { (FIRST, 1) } else { (0, 1) };
    for (position, &character) in text.iter().enumerate().skip(usize::from(hash)) {
        match digit(character) {
            Some(digit) => sum += digit * worth,
            None => return refused(21, position),
        }
        worth *= 40;
    }
    match text.last() {
        Some(b' ') => refused(22, 0),
        _ => Ok(sum),
    }
}

/// Checks a text by both editions; an accepted one comes back.
fn check_text(text: &[u8]) {
    for edition in Edition::BOTH {
        let answer = text_to_number(text, edition);
        assert_eq!(answer, expected(text, edition), "{text:?} {edition:?}");
        if let Ok(number) = answer {
            assert_eq!(text_of(number, edition), Ok(Some(text.to_vec())));
        }
    }
    // The editions differ exactly in texts that start with a hash sign.
    let (older, newer) = (text_to_number(text, Older), text_to_number(text, Newer));
    if text.first() == Some(&b'#') && text.len() <= 9 {
        assert_eq!(older, refused(21, 0));
        assert_ne!(older, newer);
    } else {
        assert_eq!(older, newer, "{text:?}");
    }
}

#[test]
fn every_short_text() {
    check_text(b"");
    check_text(b"#");
    for first in 0..=255 {
        check_text(&[first]);
        check_text(&[b'#', first]);
        for second in 0..=255 {
            check_text(&[first, second]);
            check_text(&[b'#', first, second]);
        }
    }
}

#[test]
fn random_texts() {
    let mut rng = Rng::new(31);
    // Hash signs alone, doubled, elsewhere than first, before a space and in
    // texts of 8, 9 and 10 characters.
    let mut seen = [0; 7];
    for _ in 0..20_000 {
        let text = doubtful::callsign(&mut rng);
        check_text(&text);
        let hash = text.first() == Some(&b'#');
        let met = [
            text == b"#",
            text.windows(2).any(|pair| pair == b"##"),
            text.iter().skip(1).any(|&c| c == b'#'),
            text.starts_with(b"# "),
            hash && text.len() == 8 && text_to_number(&text, Newer).is_ok(),
            hash && text.len() == 9 && text_to_number(&text, Newer).is_ok(),
            hash && text.len() == 10,
        ];
        for (seen, met) in seen.iter_mut().zip(met) {
            *seen += u32::from(met);
        }
    }
    assert!(seen.iter().all(|&texts| texts > 100), "{seen:?}");
}

// Numbers.

#[test]
fn borders_by_both_editions() {
    let bad = refused(23, 0);
    let good = |text: &str| Ok(Some(text.as_bytes().to_vec()));
    let rows = [
        (0, bad.clone(), bad.clone()),
        (1, good("A"), good("A")),
        (FIRST - 1, good("........."), good(".........")),
        (FIRST, bad.clone(), good("#")),
        (LAST, bad.clone(), good("#........")),
        (LAST + 1, bad.clone(), bad.clone()),
        (BROADCAST - 1, bad.clone(), bad.clone()),
        (BROADCAST, Ok(None), Ok(None)),
    ];
    assert_eq!(BORDERS, rows.clone().map(|row| row.0));
    assert_eq!(LAST, FIRST + 40u64.pow(8) - 1);
    for (number, older, newer) in rows {
        assert_eq!(text_of(number, Older), older, "{number}");
        assert_eq!(text_of(number, Newer), newer, "{number}");
        for (text, edition) in [(older, Older), (newer, Newer)] {
            if let Ok(Some(text)) = text {
                assert_eq!(text_to_number(&text, edition), Ok(number));
            }
        }
    }
    let inner = [
        (FIRST + 1, "#A"),
        (FIRST + 39, "#."),
        (FIRST + 40, "# A"),
        (LAST - 1, "#/......."),
    ];
    for (number, text) in inner {
        assert_eq!(text_of(number, Older), bad);
        assert_eq!(text_of(number, Newer), good(text));
    }
    for number in [BROADCAST + 1, BROADCAST + 2, FIRST + (1 << 48), u64::MAX] {
        assert_eq!(text_of(number, Older), bad);
        assert_eq!(text_of(number, Newer), bad);
    }
}

/// 24 comes before 23, by both editions and for broadcast too.
#[test]
fn short_buffers() {
    for edition in Edition::BOTH {
        for number in BORDERS {
            let mut buffer = [0xEE; 8];
            assert_eq!(number_to_text(number, &mut buffer, edition), refused(24, 0));
            assert_eq!(buffer, [0xEE; 8]);
        }
    }
}

/// A number good by both has one text; one good by the newer alone is a hash
/// address, whose text comes back to it.
#[test]
fn random_numbers() {
    let mut rng = Rng::new(32);
    let mut seen = [0; 3];
    for n in 0..20_000 {
        let number = match n % 3 {
            0 => sample::doubtful_number(&mut rng),
            1 => sample::callsign_number(&mut rng, Older),
            _ => sample::callsign_number(&mut rng, Newer),
        };
        let (older, newer) = (text_of(number, Older), text_of(number, Newer));
        if (FIRST..=LAST).contains(&number) {
            assert_eq!(older, refused(23, 0));
            let text = newer.clone().unwrap().unwrap();
            assert_eq!(text[0], b'#');
            let rest = text_of(number - FIRST, Older).unwrap_or(Some(Vec::new()));
            assert_eq!(Some(text[1..].to_vec()), rest);
            seen[0] += 1;
        } else {
            assert_eq!(older, newer);
            seen[1 + usize::from(newer.is_err())] += 1;
        }
        if let Ok(Some(text)) = newer {
            assert_eq!(text_to_number(&text, Newer), Ok(number));
        }
    }
    assert!(seen.iter().all(|&numbers| numbers > 1_000), "{seen:?}");
}

// Contacts.

fn contact(number: u64) -> Contact {
    let address = match number {
        BROADCAST => Address::Broadcast,
        number => Address::Callsign(number),
    };
    Contact {
        name: b"Hash".to_vec(),
        info: ContactInfo::M17(address),
    }
}

/// Its record, laid out by hand.
fn record(number: u64) -> Vec<u8> {
    let mut record = b"Hash".to_vec();
    record.resize(32, 0);
    record.push(2);
    record.extend(&number.to_be_bytes()[2..]);
    record
}

fn is_valid(number: u64, edition: Edition) -> bool {
    let hash = (FIRST..=LAST).contains(&number) && edition == Newer;
    (1..FIRST).contains(&number) || hash || number == BROADCAST
}

#[test]
fn contacts_by_both_editions() {
    let mut rng = Rng::new(33);
    let more: Vec<u64> = (0..2_000)
        .map(|_| sample::doubtful_number(&mut rng))
        .collect();
    for number in BORDERS.into_iter().chain(more) {
        for edition in Edition::BOTH {
            let mut out = [0xEE; 40];
            let written = contact(number).write(&mut out, edition);
            if !is_valid(number, edition) {
                assert_eq!((written, out), (refused(8, 33), [0xEE; 40]));
            } else {
                assert_eq!(written, Ok(()));
                assert_eq!((&out[..39], out[39]), (&record(number)[..], 0xEE));
            }
            if number <= BROADCAST {
                let read = Contact::read(&record(number), edition);
                match is_valid(number, edition) {
                    true => assert_eq!(read, Ok(contact(number))),
                    false => assert_eq!(read, refused(8, 33)),
                }
            }
        }
    }
    // The number of broadcast is no text's.
    let wrong = Contact {
        info: ContactInfo::M17(Address::Callsign(BROADCAST)),
        ..contact(1)
    };
    for edition in Edition::BOTH {
        assert_eq!(wrong.write(&mut [0; 39], edition), refused(8, 33));
    }
}

// Files.

/// A file of M17 contacts with these addresses and a bank.
fn file_with(numbers: &[u64]) -> Vec<u8> {
    let mut file = vec![0; 88];
    write_empty(&mut file).unwrap();
    file[82] = numbers.len() as u8;
    file[86] = 1;
    for &number in numbers {
        file.extend(record(number));
    }
    file.extend([0; 4 + 34]);
    file
}

/// Where contact n has its address.
fn address_at(n: usize) -> usize {
    88 + 39 * n + 33
}

#[test]
fn reading_follows_the_edition() {
    let file = file_with(&[1, FIRST, BROADCAST, LAST]);
    let counts = Counts {
        contacts: 4,
        channels: 0,
        banks: 1,
    };
    assert_eq!(validate(&file, Newer), Ok(counts));
    assert_eq!(codeplug::header(&file, Newer).unwrap().counts, counts);
    assert_eq!(codeplug::contact(&file, 3, Newer), Ok(contact(LAST)));
    assert_eq!(codeplug::contact(&file, 4, Newer), refused(33, 0));
    assert_eq!(codeplug::channel(&file, 0, Newer), refused(33, 0));
    assert_eq!(codeplug::bank(&file, 0, Newer).unwrap().entry_count, 0);
    assert_eq!(codeplug::bank_entry(&file, 0, 0, Newer), refused(33, 0));
    let mut walk = codeplug::bank_entries(&file, 0, Newer).unwrap();
    assert_eq!(walk.read_next(), refused(33, 0));

    // By the older edition the first hash address answers, before any 33.
    let hash = Refusal {
        number: 8,
        place: address_at(1),
    };
    assert_eq!(validate(&file, Older), Err(hash));
    assert_eq!(codeplug::header(&file, Older), Err(hash));
    assert_eq!(codeplug::contact(&file, 9, Older), Err(hash));
    assert_eq!(codeplug::channel(&file, 9, Older), Err(hash));
    assert_eq!(codeplug::bank(&file, 9, Older), Err(hash));
    assert_eq!(codeplug::bank_entry(&file, 9, 9, Older), Err(hash));
    let walk = codeplug::bank_entries(&file, 9, Older);
    assert_eq!(walk.err(), Some(hash));
    let late = file_with(&[FIRST, LAST + 1]);
    assert_eq!(validate(&late, Newer), refused(8, address_at(1)));
}

/// The file with the callsign "A" for every hash address, as far as it goes.
fn without_hashes(file: &[u8]) -> Vec<u8> {
    let mut file = file.to_vec();
    if file.len() < 88 {
        return file;
    }
    let contacts = usize::from(u16::from_le_bytes([file[82], file[83]]));
    for record in file[88..].chunks_exact_mut(39).take(contacts) {
        let number = record[33..].iter().fold(0, |n, &b| n << 8 | u64::from(b));
        if record[32] == 2 && (FIRST..=LAST).contains(&number) {
            record[33..].copy_from_slice(&[0, 0, 0, 0, 0, 1]);
        }
    }
    file
}

/// A file that the older edition accepts is read alike by the newer. The newer
/// answers as the older does where hash addresses are made callsigns.
#[test]
fn files_by_both_editions() {
    let mut rng = Rng::new(34);
    // Accepted by both, by the newer alone, refused 8 by the older alone, by both.
    let mut seen = [0; 4];
    for n in 0..6_000 {
        let file = doubtful::file(&mut rng, Edition::BOTH[n % 2]);
        let (older, newer) = (Codeplug::read(&file, Older), Codeplug::read(&file, Newer));
        assert_eq!(
            validate(&file, Older),
            older.clone().map(|c| c.header.counts)
        );
        assert_eq!(
            validate(&file, Newer),
            validate(&without_hashes(&file), Older)
        );
        let is_8 =
            |answer: &Result<Codeplug, Refusal>| matches!(answer, Err(Refusal { number: 8, .. }));
        seen[2] += u32::from(is_8(&older) && !is_8(&newer));
        seen[3] += u32::from(is_8(&older) && is_8(&newer));
        if older.is_ok() {
            assert_eq!(older, newer);
            seen[0] += 1;
        } else if newer.is_ok() {
            assert!(is_8(&older));
            seen[1] += 1;
        } else if !is_8(&older) {
            assert_eq!(older, newer);
        }
    }
    assert!(seen.iter().all(|&files| files > 100), "{seen:?}");
}

/// Random material is valid by the edition asked for, and has hash addresses
/// by the newer alone: about one M17 contact in three.
#[test]
fn random_material_keeps_to_its_edition() {
    let mut rng = Rng::new(35);
    for edition in Edition::BOTH {
        let (mut m17, mut hashes) = (0, 0);
        for _ in 0..4_000 {
            let contact = sample::contact(&mut rng, edition);
            assert_eq!(contact.write(&mut [0; 39], edition), Ok(()));
            if let ContactInfo::M17(address) = contact.info {
                m17 += 1;
                hashes += u32::from(matches!(address, Address::Callsign(FIRST..=LAST)));
            }
        }
        match edition {
            Older => assert_eq!(hashes, 0),
            Newer => assert!((m17 / 4..m17 * 5 / 12).contains(&hashes), "{hashes} {m17}"),
        }
    }
}

// Edits and undos.

fn insert(place: usize, number: u64) -> Edit {
    Edit {
        kind: 1,
        first: place,
        second: 0,
        record: record(number),
    }
}

fn replace(place: usize, number: u64) -> Edit {
    Edit {
        kind: 3,
        ..insert(place, number)
    }
}

/// Buffers with spare space around a file.
fn lent(file: &[u8], edition: Edition) -> Lent {
    Lent {
        room: [file, &[0xEE; 200]].concat(),
        length: file.len() as u64,
        history: vec![0xEE; 400],
        history_length: 0,
        edition,
    }
}

/// Makes the calls and checks each answer's refusal, 0 standing for none; the
/// book must agree, and a refused call must change nothing.
fn check_calls(lent: &mut Lent, calls: &[(Call, (u8, usize))]) {
    let file = lent.file().unwrap().to_vec();
    let (room, history) = (lent.room.len(), lent.history.len());
    let mut book = Book::open(file, room, history, lent.edition);
    for (call, (number, place)) in calls {
        let before = lent.clone();
        let answer = lent.call(call);
        assert_eq!(answer, book.call(call), "{call:?}");
        assert!(lent.file() == Some(&book.file()));
        match answer {
            Ok(_) => assert_eq!(*number, 0, "{call:?}"),
            Err(refusal) => {
                let expected = Refusal {
                    number: *number,
                    place: *place,
                };
                assert_eq!(refusal, expected, "{call:?}");
                assert!(lent.room == before.room && lent.history == before.history);
            }
        }
    }
}

#[test]
fn edits_follow_the_edition() {
    let opening = file_with(&[1, BROADCAST]);
    let done = (0, 0);
    for edition in Edition::BOTH {
        let hash = |place| match edition {
            Older => (8, address_at(place)),
            Newer => done,
        };
        let mut lent = lent(&opening, edition);
        let calls = [
            (Call::Edit(insert(2, LAST)), hash(2)),
            (Call::Edit(insert(0, FIRST)), hash(0)),
            (Call::Edit(replace(1, FIRST + 40)), hash(1)),
            (Call::Edit(insert(1, LAST + 1)), (8, address_at(1))),
            (Call::Edit(replace(0, 0)), (8, address_at(0))),
            (Call::Edit(replace(0, BROADCAST - 1)), (8, address_at(0))),
            (Call::Edit(replace(0, FIRST - 1)), done),
            (Call::Undo, done),
        ];
        check_calls(&mut lent, &calls);
        let file = lent.file().unwrap();
        match edition {
            Older => assert!(file == opening && lent.history_length == 0),
            Newer => assert!(file == file_with(&[FIRST, FIRST + 40, BROADCAST, LAST])),
        }
    }
}

/// Undos lead back to hash addresses, and through them, by the newer edition.
#[test]
fn undos_follow_the_edition() {
    let opening = file_with(&[FIRST + 1]);
    let mut lent = lent(&opening, Newer);
    let remove = Edit {
        kind: 2,
        first: 0,
        second: 0,
        record: Vec::new(),
    };
    let done = (0, 0);
    let calls = [
        (Call::Edit(replace(0, 1)), done),
        (Call::Edit(remove), done),
        (Call::Undo, done),
        (Call::Undo, done),
        (Call::Undo, (38, 0)),
    ];
    check_calls(&mut lent, &calls);
    assert!(lent.file() == Some(&opening));
}

/// One history by either edition: the old bytes of its entry are a hash address.
#[test]
fn undos_to_a_hash_address() {
    let opening = file_with(&[FIRST + 1]);
    let mut lent = lent(&opening, Newer);
    lent.call(&Call::Edit(replace(0, 1))).unwrap();
    let mut older = Lent {
        edition: Older,
        ..lent.clone()
    };
    assert_eq!(older.call(&Call::Undo), refused(39, 0));
    assert!(older.room == lent.room && older.history == lent.history);
    let answer = Answer {
        length: opening.len(),
        history_length: 0,
        entries: 0,
    };
    assert_eq!(lent.call(&Call::Undo), Ok(answer));
    assert!(lent.file() == Some(&opening));
}

/// A file with hash addresses is the codeplug's own refusal by the older
/// edition: after 30, before 31.
#[test]
fn hash_files_are_not_opened_by_the_older_edition() {
    let mut file = file_with(&[1, LAST]);
    let length = file.len();
    let mut history = [0x80, 0x00];
    let hash = || refused(8, address_at(1));
    let change = replace(1, 1);
    assert_eq!(
        edit(&mut file, length, &mut history, 2, &change, Older),
        hash()
    );
    assert_eq!(undo(&mut file, length, &mut history, 2, Older), hash());
    let answer = undo(&mut file, length, &mut history, 3, Older);
    assert_eq!(answer, refused(30, 0));
    let answer = undo(&mut file, length, &mut history, 2, Newer);
    assert_eq!(answer, refused(31, 0));
}

/// Lists of calls of both editions meet hash addresses in files and records.
#[test]
fn lists_have_hash_addresses() {
    let mut rng = Rng::new(36);
    let mut seen = [[0; 3]; 2];
    for n in 0..2_000 {
        let edition = Edition::BOTH[n % 2];
        let (lent, calls) = list(&mut rng, edition);
        assert_eq!(lent.edition, edition);
        let opening = lent.room.get(..lent.length as usize).unwrap_or(&[]);
        let hash = opening != without_hashes(opening);
        let is_hash = |record: &[u8]| {
            record.len() == 39 && Contact::read(record, Older) != Contact::read(record, Newer)
        };
        let edits = calls.iter().filter(|call| match call {
            Call::Edit(edit) => is_hash(&edit.record),
            Call::Undo => false,
        });
        let met = [hash, edits.count() > 0, hash && calls.contains(&Call::Undo)];
        for (seen, met) in seen[n % 2].iter_mut().zip(met) {
            *seen += u32::from(met);
        }
    }
    assert!(seen.as_flattened().iter().all(|&n| n > 30), "{seen:?}");
}

// Legacy files.

#[test]
fn migrating_follows_the_edition() {
    let file = file_with(&[FIRST, 1, LAST]);
    assert_eq!(validate_legacy(&file, Older), refused(8, address_at(0)));
    assert_eq!(read_legacy(&file, Older), refused(8, address_at(0)));
    let mut left = file.clone();
    assert_eq!(migrate(&mut left, Older), refused(8, address_at(0)));
    assert!(left == file);
    let counts = validate(&file, Newer);
    assert_eq!(validate_legacy(&file, Newer), counts);
    assert_eq!(migrate(&mut left, Newer), counts);
    assert!(left == file && counts.is_ok());
}

// The program.

/// Runs the program on this input.
fn run(arguments: &[&str], input: &[u8]) -> Output {
    let mut program = Command::new(env!("CARGO_BIN_EXE_second"))
        .args(arguments)
        .stdin(Stdio::piped())
        .stdout(Stdio::piped())
        .stderr(Stdio::piped())
        .spawn()
        .unwrap();
    // The program may end before it has read anything.
    let _ = program.stdin.take().unwrap().write_all(input);
    program.wait_with_output().unwrap()
}

#[test]
fn the_program_takes_an_edition() {
    let file = file_with(&[FIRST]);
    let hash = format!("refused 8 at {}\n", address_at(0));
    for command in ["validate", "validate-legacy"] {
        for (arguments, line) in [
            (&[command][..], hash.as_str()),
            (&[command, "older"], &hash),
            (&[command, "newer"], "ok 1 0 1\n"),
        ] {
            let ran = run(arguments, &file);
            assert_eq!(ran.status.code(), Some(0));
            assert_eq!(String::from_utf8(ran.stdout).unwrap(), line);
        }
    }
    for arguments in [&["migrate"][..], &["migrate", "older"]] {
        let ran = run(arguments, &file);
        assert_eq!((ran.status.code(), ran.stdout.len()), (Some(1), 0));
        assert_eq!(String::from_utf8(ran.stderr).unwrap(), hash);
    }
    let ran = run(&["migrate", "newer"], &file);
    assert_eq!(ran.status.code(), Some(0));
    assert!(ran.stdout == file);
    for last in ["", "New", "newer newer", "1"] {
        let ran = run(&["validate", last], &file);
        assert_eq!((ran.status.code(), ran.stdout.len()), (Some(2), 0));
    }
}
