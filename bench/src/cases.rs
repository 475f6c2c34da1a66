//! The edits that are timed: every kind, at the front, the middle and the end of its list.

use crate::files::{self, Settings};
use crate::work::OLDER;
use obcf_second::edit::Edit;
use obcf_second::sample::{self, Rng};

pub struct Case {
    pub name: String,
    pub middle: bool,
    pub edit: Edit,
}

const KINDS: [&str; 12] = [
    "insert contact",
    "remove contact",
    "replace contact",
    "insert channel",
    "remove channel",
    "replace channel",
    "insert bank",
    "remove bank",
    "rename bank",
    "insert entry",
    "remove entry",
    "set header",
];

const SPOTS: [&str; 3] = ["front", "middle", "end"];

fn u16_at(bytes: &[u8], at: usize) -> usize {
    usize::from(u16::from_le_bytes([bytes[at], bytes[at + 1]]))
}

/// How many entries each bank has.
fn entry_counts(file: &[u8]) -> Vec<usize> {
    let [contacts, channels, banks] = [82, 84, 86].map(|at| u16_at(file, at));
    let mut at = 88 + 39 * contacts + 90 * channels + 4 * banks;
    let mut counts = Vec::new();
    for _ in 0..banks {
        counts.push(u16_at(file, at + 32));
        at += 34 + 2 * counts[counts.len() - 1];
    }
    counts
}

fn record(rng: &mut Rng, kind: usize, settings: Settings) -> Vec<u8> {
    match kind {
        1 | 3 => sample::contact_bytes(&files::contact(rng, settings), OLDER),
        4 | 6 => sample::channel_bytes(&files::channel(rng, &[], settings)),
        7 | 9 => files::text(rng, 16),
        10 => vec![1, 0],
        12 => [files::text(rng, 16), files::text(rng, 32), rng.bytes(8)].concat(),
        _ => Vec::new(),
    }
}

/// All edits of a file, in the order of their kinds.
pub fn all(file: &[u8], settings: Settings) -> Vec<Case> {
    let rng = &mut Rng::new(12);
    let [contacts, channels, banks] = [82, 84, 86].map(|at| u16_at(file, at));
    let entries = entry_counts(file);
    let mut cases = Vec::new();
    for kind in 1..=12 {
        let inserts = matches!(kind, 1 | 4 | 7 | 10);
        let list = [contacts, channels, banks, banks][(kind - 1) / 3];
        for (spot, spot_name) in SPOTS.into_iter().enumerate() {
            let (first, second) = match kind {
                12 => (0, 0),
                10 | 11 => {
                    let bank = files::three(banks)[spot];
                    (
                        bank,
                        files::three(entries[bank] + usize::from(inserts))[spot],
                    )
                }
                _ => (files::three(list + usize::from(inserts))[spot], 0),
            };
            if kind == 12 && spot != 1 {
                continue;
            }
            let spot_name = if kind == 12 { "" } else { spot_name };
            cases.push(Case {
                name: format!("{kind:2} {:15} {spot_name}", KINDS[kind - 1])
                    .trim_end()
                    .to_string(),
                middle: spot == 1,
                edit: Edit {
                    kind: kind as u64,
                    first,
                    second,
                    record: record(rng, kind, settings),
                },
            });
        }
    }
    cases
}

/// Small edits made before: what the history holds when a case begins.
pub fn earlier(file: &[u8], settings: Settings) -> Vec<Edit> {
    let rng = &mut Rng::new(16);
    let channels = u16_at(file, 84);
    (0..16)
        .map(|_| Edit {
            kind: 6,
            first: rng.below(channels),
            second: 0,
            record: record(rng, 6, settings),
        })
        .collect()
}
