//! Files up to 1,048,576 bytes and just past that, validated, read, edited and
//! migrated.

use obcf_second::book::Call;
use obcf_second::edit::Edit;
use obcf_second::lists::{self, Lent};
use obcf_second::record::NO_CONTACT;
use obcf_second::sample::{self, Rng, Span};
use obcf_second::{doubtful, Codeplug, Edition, LONGEST};

use crate::calls::{follow, Made};
use crate::edition::By;
use crate::files;
use crate::legacy;
use crate::report::Compared;
use crate::work::Work;

const MOST_ENTRIES: usize = 65_535;

/// A file or, as often, calls; now and then a legacy file.
pub fn any(work: &mut Work, rng: &mut Rng) -> Compared {
    let by = By::any(rng);
    match rng.below(11) {
        0 => legacy_file(work, rng, by),
        1..=5 => file(work, rng, by),
        _ => calls(work, rng, by),
    }
}

/// A large file: read, then damaged, cut or made longer. By the older edition it
/// may have hash addresses.
fn file(work: &mut Work, rng: &mut Rng, by: By) -> Compared {
    let made_by = doubtful::made_by(rng, by.edition);
    let mut file = valid(rng, made_by);
    files::read(work, rng, &file, by)?;
    let spans = sample::file_spans(&file);
    damage(rng, &mut file, &spans);
    files::read(work, rng, &file, by)
}

/// A large legacy file: migrated, and again after it is damaged.
fn legacy_file(work: &mut Work, rng: &mut Rng, by: By) -> Compared {
    let mut file = valid(rng, by.edition);
    sample::to_legacy(&mut file);
    legacy::migrate(work, rng, &file, by)?;
    let spans = sample::legacy_file_spans(&file);
    damage(rng, &mut file, &spans);
    legacy::migrate(work, rng, &file, by)
}

fn damage(rng: &mut Rng, file: &mut Vec<u8>, spans: &[Span]) {
    match rng.below(4) {
        0 => file.truncate(file.len() - 1 - rng.below(200)),
        1 => file.resize(LONGEST + rng.below(3), 0),
        _ => doubtful::spoil_some(rng, file, spans, 1),
    }
}

/// A few calls on a large file, in a room that is exact or longer than any
/// file.
fn calls(work: &mut Work, rng: &mut Rng, by: By) -> Compared {
    let file = valid(rng, by.edition);
    let spare = match rng.below(4) {
        0 => 0,
        1 => rng.below(200),
        _ => (LONGEST + rng.below(300)).saturating_sub(file.len()),
    };
    let history = match rng.below(4) {
        0 => rng.below(200),
        1 => rng.below(LONGEST),
        _ => 3 * LONGEST,
    };
    let mut lent = Lent {
        length: file.len() as u64,
        room: [file, lists::fill(rng, spare)].concat(),
        history: vec![0xEE; history],
        history_length: 0,
        edition: by.edition,
    };
    let opening = lent.clone();
    let count = 1 + rng.below(4);
    let list: Vec<Made> = (0..count)
        .map(|_| {
            let file = lent.file().expect("a valid file stays valid");
            let call = if rng.one_in(3) {
                grow(rng, file, by.edition)
            } else {
                lists::random_call(rng, file, by.edition)
            };
            let _ = lent.call(&call);
            (call, by)
        })
        .collect();
    follow(work, opening, &list)
}

/// An entry into one of the first banks, where 65,535 may stand already.
fn grow(rng: &mut Rng, file: &[u8], edition: Edition) -> Call {
    let codeplug = Codeplug::read(file, edition).expect("a valid file");
    if codeplug.banks.is_empty() {
        return Call::Edit(Edit {
            kind: 7,
            first: 0,
            second: 0,
            record: sample::padded_text(rng),
        });
    }
    let first = rng.below(codeplug.banks.len().min(8));
    let second = rng.pick(&[0, codeplug.banks[first].entries.len()]);
    Call::Edit(Edit {
        kind: 10,
        first,
        second,
        record: vec![0, 0],
    })
}

/// A valid file of about the greatest length, and now and then of just it.
fn valid(rng: &mut Rng, edition: Edition) -> Vec<u8> {
    let first = contact(rng, edition);
    let channel = sample::channel_bytes(&sample::channel(rng, |_, _| None));
    let mut contacts = vec![first; 1 + rng.below(3)];
    let mut channels = vec![channel; 1 + rng.below(3)];
    let mut banks = Vec::new();
    match rng.below(4) {
        0 => contacts = varied(rng, 20_000, |rng| contact(rng, edition)),
        1 => {
            let modes: Vec<u8> = contacts.iter().map(|contact| contact[32]).collect();
            channels = varied(rng, 9_000, |rng| {
                let choose = |rng: &mut Rng, mode| {
                    let n = rng.below(modes.len());
                    Some(n as u16).filter(|&n| n != NO_CONTACT && modes[usize::from(n)] == mode as u8)
                };
                sample::channel_bytes(&sample::channel(rng, choose))
            });
        }
        2 => banks = varied(rng, 20_000, |rng| lists::bank_of(&sample::padded_text(rng), &[])),
        _ => {}
    }
    // Banks of entries take what is left; the header and offsets count too.
    let size = |list: &[Vec<u8>]| list.iter().map(Vec::len).sum::<usize>();
    let mut left = LONGEST - 88 - size(&contacts) - size(&channels) - size(&banks) - 4 * banks.len();
    left -= if rng.flag() { 0 } else { rng.below(400) };
    while left >= 38 {
        let most = ((left - 38) / 2).min(MOST_ENTRIES);
        let entries = match rng.below(3) {
            0 => vec![0; most],
            _ => (0..most).map(|_| rng.below(channels.len()) as u16).collect(),
        };
        left -= 38 + 2 * entries.len();
        banks.insert(0, lists::bank_of(&sample::padded_text(rng), &entries));
    }
    lists::file_of(rng, &contacts, &channels, &banks)
}

fn contact(rng: &mut Rng, edition: Edition) -> Vec<u8> {
    sample::contact_bytes(&sample::contact(rng, edition), edition)
}

/// Up to so many records, not all of them alike.
fn varied(rng: &mut Rng, most: usize, make: impl Fn(&mut Rng) -> Vec<u8>) -> Vec<Vec<u8>> {
    let some: Vec<Vec<u8>> = (0..50).map(|_| make(rng)).collect();
    let count = most / 2 + rng.below(most / 2);
    (0..count).map(|_| rng.pick(&some)).collect()
}
