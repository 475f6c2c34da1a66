//! What the corpora that the script `corpora` writes have to meet.

use obcf_second::address::{FIRST_HASH, LAST_HASH};
use obcf_second::book::Call;
use obcf_second::lists::Lent;
use obcf_second::record::{CHANNEL_SIZE, CONTACT_SIZE};
use obcf_second::sample::Rng;
use obcf_second::Edition::{self, Newer, Older};
use obcf_second::{migrate, validate, validate_legacy};

use crate::calls;
use crate::corpus::{
    checksum, generator, validate_line, ADDRESS, CHANNEL, CONTACT, FILE, NEWER, READ, WRITE,
};

/// The seed and the number of cases that the script has for a kind.
fn seed_and_count(kind: &str) -> (u64, usize) {
    let mut lines = include_str!("../corpora").lines();
    let command = format!("write {kind} ");
    let numbers = lines.find_map(|line| line.strip_prefix(&command)).unwrap();
    let numbers: Vec<&str> = numbers.split(' ').collect();
    (numbers[0].parse().unwrap(), numbers[1].parse().unwrap())
}

fn stored(kind: &str) -> Vec<(Vec<u8>, String)> {
    let (seed, count) = seed_and_count(kind);
    let generate = generator(kind).unwrap();
    let mut rng = Rng::new(seed);
    (0..count).map(|_| generate(&mut rng)).collect()
}

type Rule<C> = (&'static str, fn(&C) -> bool);

/// Every rule must hold for this many cases at least.
fn check_met<C>(cases: &[C], least: usize, rules: &[Rule<C>]) {
    for (name, rule) in rules {
        let met = cases.iter().filter(|case| rule(case)).count();
        assert!(met >= least, "{name}: {met}");
    }
}

fn is_hash(number: u64) -> bool {
    (FIRST_HASH..=LAST_HASH).contains(&number)
}

/// Where a line refuses by this number.
fn place(line: &str, number: u8) -> Option<usize> {
    let rest = line.strip_prefix(&format!("refused {number} at "))?;
    rest.split(' ').next()?.parse().ok()
}

/// Whether a line refuses a hash address by 8.
fn refuses_hash(bytes: &[u8], line: &str) -> bool {
    place(line, 8).is_some_and(|at| {
        let address = &bytes[at..at + 6];
        is_hash(address.iter().fold(0, |n, &b| n << 8 | u64::from(b)))
    })
}

/// Whether a line accepts a file that has hash addresses.
fn accepts_hash(file: &[u8], line: &str) -> bool {
    line.starts_with("ok ") && place(&validate_line(validate(file, Older)), 8).is_some()
}

// Mixed cases.

struct Mixed {
    kind: u8,
    edition: Edition,
    /// What follows the byte that says reading or writing.
    body: Vec<u8>,
    line: String,
}

fn mixed(cases: Vec<(Vec<u8>, String)>) -> Vec<Mixed> {
    let mixed = |(case, line): (Vec<u8>, String)| {
        let kind = case[0] % NEWER;
        let edition = Edition::BOTH[usize::from(case[0] / NEWER)];
        assert!(kind != CHANNEL || edition == Older);
        let body = case[if kind == FILE { 1 } else { 2 }..].to_vec();
        Mixed {
            kind,
            edition,
            body,
            line,
        }
    };
    cases.into_iter().map(mixed).collect()
}

impl Mixed {
    fn is(&self, kind: u8, edition: Edition) -> bool {
        (self.kind, self.edition) == (kind, edition)
    }

    fn starts(&self, words: &str) -> bool {
        self.line.starts_with(words)
    }

    fn refuses(&self, number: u8) -> bool {
        place(&self.line, number).is_some()
    }

    /// A text that starts with a hash sign, by the newer edition.
    fn is_newer_hash(&self) -> bool {
        self.is(ADDRESS, Newer) && self.body.starts_with(b"#")
    }

    /// A foreign hash sign.
    fn is_foreign_hash(&self) -> bool {
        place(&self.line, 21).is_some_and(|at| self.body[at] == b'#')
    }

    /// The address number that is written or turned into text.
    fn number(&self) -> Option<u64> {
        let mut rest = &self.body[..];
        if self.kind == CONTACT {
            for _ in ["buffer", "name"] {
                rest = &rest[1 + usize::from(rest[0])..];
            }
            rest = rest.strip_prefix(&[2])?;
        }
        Some(u64::from_le_bytes(*rest.first_chunk()?))
    }
}

/// The three corpora of mixed cases have the first 700 of them.
#[test]
fn mixed_cases_are_shared() {
    let kinds = ["read", "channels-read", "written"];
    let (seed, _) = seed_and_count("read");
    let mut counts = [0; 3];
    let mut rng = Rng::new(seed);
    let generate = generator("mixed").unwrap();
    for _ in 0..700 {
        let (case, _) = generate(&mut rng);
        let written = case[0] % NEWER != FILE && case[1] == WRITE;
        let channel = case[0] == CHANNEL && case[1] == READ;
        counts[if written { 2 } else { usize::from(channel) }] += 1;
    }
    for (kind, count) in kinds.into_iter().zip(counts) {
        assert_eq!(seed_and_count(kind), (seed, count), "{kind}");
    }
}

const ADDRESSES_READ: [Rule<Mixed>; 6] = [
    ("file, older: 8", |c| {
        c.is(FILE, Older) && refuses_hash(&c.body, &c.line)
    }),
    ("file, newer: accepted", |c| {
        c.is(FILE, Newer) && accepts_hash(&c.body, &c.line)
    }),
    ("file, newer: 8", |c| c.is(FILE, Newer) && c.refuses(8)),
    ("contact, older: 8", |c| {
        c.is(CONTACT, Older) && refuses_hash(&c.body, &c.line)
    }),
    ("contact, newer: accepted", |c| {
        let number = c.line.split("callsign=").nth(1);
        let number = number.and_then(|number| number.parse().ok());
        c.is(CONTACT, Newer) && number.is_some_and(is_hash)
    }),
    ("contact, newer: 8", |c| {
        c.is(CONTACT, Newer) && c.refuses(8)
    }),
];

const TEXTS_READ: [Rule<Mixed>; 7] = [
    ("older: 21", |c| c.is(ADDRESS, Older) && c.is_foreign_hash()),
    ("newer: 21", |c| c.is(ADDRESS, Newer) && c.is_foreign_hash()),
    ("newer: 20", |c| c.is_newer_hash() && c.refuses(20)),
    ("newer: 22", |c| c.is_newer_hash() && c.refuses(22)),
    ("newer: number", |c| {
        c.is_newer_hash() && c.starts("number ")
    }),
    ("newer: alone", |c| c.is_newer_hash() && c.body.len() == 1),
    ("newer: nine characters", |c| {
        c.is_newer_hash() && c.starts("number ") && c.body.len() == 9
    }),
];

const WRITTEN: [Rule<Mixed>; 6] = [
    ("contact, older: 8", |c| {
        c.is(CONTACT, Older) && c.number().is_some_and(is_hash) && c.refuses(8)
    }),
    ("contact, newer: written", |c| {
        c.is(CONTACT, Newer) && c.number().is_some_and(is_hash) && c.starts("wrote ")
    }),
    ("contact, newer: 8", |c| {
        c.is(CONTACT, Newer) && c.refuses(8)
    }),
    ("older: 23", |c| {
        c.is(ADDRESS, Older) && c.number().is_some_and(is_hash) && c.refuses(23)
    }),
    ("newer: 23", |c| c.is(ADDRESS, Newer) && c.refuses(23)),
    ("newer: text", |c| {
        c.is(ADDRESS, Newer) && c.starts("text 23")
    }),
];

/// Borders that are written by the newer edition, or refused.
const BORDERS_WRITTEN: [Rule<Mixed>; 3] = [
    ("first", |c| c.is(ADDRESS, Newer) && c.starts("text 230000")),
    ("last", |c| {
        c.is(ADDRESS, Newer) && c.starts("text 232e2e2e2e2e2e2e2e")
    }),
    ("past the last", |c| {
        c.is(ADDRESS, Newer) && c.refuses(23) && c.number() == Some(LAST_HASH + 1)
    }),
];

#[test]
fn the_read_corpus_has_hash_addresses() {
    let cases = mixed(stored("read"));
    check_met(&cases, 2, &ADDRESSES_READ);
    check_met(&cases, 2, &TEXTS_READ);
}

#[test]
fn the_read_corpus_meets_every_refusal() {
    let cases = mixed(stored("read"));
    for number in (2..=12).chain(20..=22) {
        let met = cases.iter().filter(|c| c.refuses(number)).count();
        assert!(met >= 2, "{number}: {met}");
    }
}

#[test]
fn the_written_corpus_has_hash_addresses() {
    let cases = mixed(stored("written"));
    check_met(&cases, 2, &WRITTEN);
    check_met(&cases, 1, &BORDERS_WRITTEN);
}

// Lists of calls.

/// The first call of a list that the editions answer otherwise.
struct Difference {
    /// The edition that the list is by.
    edition: Edition,
    /// Whether the older edition accepts the codeplug at the start.
    opened: bool,
    call: Call,
    older: String,
    newer: String,
}

fn difference(lent: &Lent, calls: Vec<Call>) -> Option<Difference> {
    let by = |edition| Lent {
        edition,
        ..lent.clone()
    };
    let older = calls::answers(by(Older), &calls);
    let newer = calls::answers(by(Newer), &calls);
    let lines = calls.into_iter().zip(older.into_iter().zip(newer));
    let (call, (older, newer)) = lines.into_iter().find(|(_, (a, b))| a != b)?;
    Some(Difference {
        edition: lent.edition,
        opened: by(Older).file().is_some(),
        call,
        older,
        newer,
    })
}

impl Difference {
    /// The newer edition makes the call, and the older refuses it by this number.
    fn is_refused(&self, number: u8) -> bool {
        self.newer.starts_with("done ") && place(&self.older, number).is_some()
    }
}

/// Lists by either edition with hash addresses in the opening file, in an edit's
/// record, and in a history, where an undo meets them.
#[test]
fn the_calls_have_hash_addresses() {
    let (seed, count) = seed_and_count("calls");
    let mut rng = Rng::new(seed);
    let found: Vec<Difference> = (0..count)
        .filter_map(|_| {
            let (lent, calls) = calls::next_list(&mut rng);
            difference(&lent, calls)
        })
        .collect();
    let (older, newer): (Vec<_>, Vec<_>) = found.into_iter().partition(|d| d.edition == Older);
    let rules: [Rule<Difference>; 3] = [
        ("opening", |d| !d.opened && d.is_refused(8)),
        ("edit", |d| {
            d.opened && d.call != Call::Undo && d.is_refused(8)
        }),
        ("undo", |d| d.call == Call::Undo && d.is_refused(39)),
    ];
    check_met(&older, 2, &rules);
    check_met(&newer, 2, &rules);
}

/// 1 and 34 would need larger files.
#[test]
fn the_calls_meet_every_refusal() {
    let cases = stored("calls");
    for number in (2..=12).chain(30..=33).chain(35..=39) {
        let mut lines = cases.iter().flat_map(|case| case.1.lines());
        assert!(lines.any(|line| place(line, number).is_some()), "{number}");
    }
}

// Legacy files.

struct Migrated {
    edition: Edition,
    file: Vec<u8>,
    line: String,
}

fn migrated_cases() -> Vec<Migrated> {
    let migrated = |(case, line): (Vec<u8>, String)| Migrated {
        edition: Edition::BOTH[usize::from(case[0])],
        file: case[1..].to_vec(),
        line,
    };
    stored("migrated").into_iter().map(migrated).collect()
}

#[test]
fn the_migrated_corpus_has_hash_addresses() {
    let rules: [Rule<Migrated>; 3] = [
        ("older: 8", |c| {
            c.edition == Older && refuses_hash(&c.file, &c.line)
        }),
        ("newer: accepted", |c| {
            let by_older = validate_line(validate_legacy(&c.file, Older));
            c.edition == Newer && c.line.starts_with("ok ") && refuses_hash(&c.file, &by_older)
        }),
        ("newer: 8", |c| {
            c.edition == Newer && place(&c.line, 8).is_some()
        }),
    ];
    check_met(&migrated_cases(), 2, &rules);
}

#[test]
fn the_migrated_corpus_is_short_and_meets_every_refusal() {
    let cases = migrated_cases();
    let size: usize = cases.iter().map(|case| 5 + case.file.len()).sum();
    assert!(size < 60_000, "{size}");
    for number in 2..=12 {
        let met = cases.iter().filter(|c| place(&c.line, number).is_some());
        assert!(met.count() >= 3, "{number}");
    }
}

/// A number of the header.
fn number(file: &[u8], at: usize) -> usize {
    usize::from(u16::from_le_bytes([file[at], file[at + 1]]))
}

/// The traits or contact settings for which a file is refused. All before
/// the place is good, so the records are where the counts say.
fn bad_settings(case: &Migrated) -> Option<u8> {
    let file = &case.file;
    let place = place(&case.line, 7)?;
    let channels = 88 + CONTACT_SIZE * number(file, 82);
    let bad = if place < channels {
        (place - 88) % CONTACT_SIZE == 37
    } else {
        (place - channels) % CHANNEL_SIZE == 1
    };
    bad.then_some(file[place])
}

/// Cases refused for one reserved bit beside valid ones, for the number 3,
/// and for every valid byte of today.
#[test]
fn the_migrated_corpus_has_bad_traits_and_settings() {
    let cases = migrated_cases();
    let met: Vec<u8> = cases.iter().flat_map(bad_settings).collect();
    for bit in 0..5 {
        let alone = |b: &u8| matches!(b >> 5, 1..=5) && b & 0x1F == 1 << bit;
        assert!(met.iter().any(alone), "bit {bit}: {met:?}");
    }
    for byte in [0xC0, 0xE0, 1, 2, 4, 5, 6] {
        assert!(met.contains(&byte), "{byte}: {met:?}");
    }
}

/// Accepted cases that change contacts, channels, or the last of several
/// channels, and such as have channels but change nothing.
#[test]
fn the_migrated_corpus_changes_contacts_and_channels() {
    let (mut in_contacts, mut in_channels, mut in_last, mut nowhere) = (0, 0, 0, 0);
    for Migrated {
        edition,
        file,
        line,
    } in migrated_cases()
    {
        let mut left = file.clone();
        let Ok(counts) = migrate(&mut left, edition) else {
            assert!(left == file && line.starts_with("refused "));
            continue;
        };
        assert_eq!(
            line,
            format!("{} file {}", validate_line(Ok(counts)), checksum(&left))
        );
        let channels = 88 + CONTACT_SIZE * usize::from(counts.contacts);
        let changed: Vec<usize> = (0..file.len()).filter(|&n| left[n] != file[n]).collect();
        in_contacts += usize::from(changed.iter().any(|&n| n < channels));
        in_channels += usize::from(changed.iter().any(|&n| n >= channels));
        let last = usize::from(counts.channels.saturating_sub(1));
        let last = channels + CHANNEL_SIZE * last + 1;
        in_last += usize::from(counts.channels > 1 && changed.contains(&last));
        nowhere += usize::from(changed.is_empty() && counts.channels > 0);
    }
    let met = [in_contacts, in_channels, in_last, nowhere];
    assert!(met.iter().all(|&cases| cases >= 3), "{met:?}");
}

/// Accepted cases in which taking M17 contacts for DMR ones changes byte 37,
/// be it by its bits or only where it would be good legacy settings.
#[test]
fn the_migrated_corpus_has_telling_addresses() {
    let (mut by_bits, mut by_table) = (0, 0);
    for case in migrated_cases() {
        let Ok(counts) = validate_legacy(&case.file, case.edition) else {
            continue;
        };
        let contacts = case.file[88..]
            .chunks(CONTACT_SIZE)
            .take(counts.contacts.into());
        let bytes: Vec<u8> = contacts.filter(|c| c[32] == 2).map(|c| c[37]).collect();
        let is_settings = |b: u8| b & 0x1F == 0 && matches!(b >> 5, 1..=5);
        by_bits += usize::from(bytes.iter().any(|&b| (b >> 6 | b >> 3 & 4) != b));
        by_table += usize::from(bytes.iter().any(|&b| is_settings(b)));
    }
    assert!(by_bits >= 10 && by_table >= 10, "{by_bits} {by_table}");
}

/// Whether a file is refused after traits that are not 0.
fn refused_after_traits(case: &Migrated) -> bool {
    let answer = validate_legacy(&case.file, case.edition);
    let place = answer.map_or_else(|refusal| refusal.place, |_| 0);
    let before = &case.file[..place];
    if before.len() < 88 {
        return false;
    }
    let first = 88 + CONTACT_SIZE * number(before, 82) + 1;
    let mut traits = (0..number(before, 84)).map(|n| before.get(first + CHANNEL_SIZE * n));
    traits.any(|byte| byte.is_some_and(|&byte| byte != 0))
}

/// Refused cases that find a program which migrates what it has read
/// before it refuses.
#[test]
fn the_migrated_corpus_refuses_late() {
    let cases = migrated_cases();
    let late = cases.iter().filter(|case| refused_after_traits(case));
    assert!(late.count() >= 10);
}
