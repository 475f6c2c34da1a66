//! The parts of a run, and how many seeds each has.

use obcf_second::sample::Rng;
use obcf_second::Edition;

use crate::report::{Compared, Pair, Tally};
use crate::work::Work;
use crate::{addresses, borders, calls, editions, files, histories, large, legacy, records};

/// A part makes its cases from a seed and compares them.
pub struct Part {
    pub name: &'static str,
    pub run: fn(&mut Work, &mut Rng) -> Compared,
    /// How many seeds a short run has, and a round of a long one.
    pub seeds: u64,
    pub round: u64,
    /// In how many shares the short run's seeds are compared, at the same time where there are processors.
    pub shares: u64,
    /// Whether its calls take an edition of addresses.
    pub editions: bool,
    /// The refusals that a short run must meet, by both editions where there are editions.
    pub meets: &'static [u8],
    /// The answers of both editions to one question that a short run must meet.
    pub pairs: &'static [Pair],
}

impl Part {
    /// What a run has not met.
    pub fn unmet(&self, tally: &Tally) -> Vec<String> {
        let either = [None];
        let both = Edition::BOTH.map(Some);
        let editions = if self.editions { &both[..] } else { &either };
        let mut unmet = Vec::new();
        for &number in self.meets {
            for &edition in editions.iter().filter(|&&edition| !tally.met(number, edition)) {
                let by = edition.map_or(String::new(), |edition| format!(" by the edition {edition:?}"));
                unmet.push(format!("refusal {number}{by}"));
            }
        }
        let pairs = self.pairs.iter().filter(|&&pair| !tally.met_pair(pair));
        unmet.extend(pairs.map(|(what, older, newer)| format!("{what}, {older} by the older edition and {newer} by the newer,")));
        unmet
    }
}

pub const PARTS: [Part; 17] = [
    Part {
        name: "files",
        run: files::any,
        seeds: 200_000,
        round: 5_000,
        shares: 1,
        editions: true,
        meets: &[2, 3, 4, 5, 6, 7, 8, 9, 10, 11, 12, 25, 33],
        pairs: &[],
    },
    Part {
        name: "damaged",
        run: files::damaged,
        seeds: 15_000,
        round: 500,
        shares: 1,
        editions: true,
        meets: &[2, 3, 4, 5, 6, 7, 8, 9, 10, 11, 12],
        pairs: &[],
    },
    Part {
        name: "cut",
        run: files::cut,
        seeds: 15_000,
        round: 500,
        shares: 1,
        editions: true,
        meets: &[2, 8, 12],
        pairs: &[],
    },
    Part {
        name: "contacts",
        run: records::contact,
        seeds: 3_000_000,
        round: 50_000,
        shares: 1,
        editions: true,
        meets: &[5, 6, 7, 8, 25],
        pairs: &[],
    },
    Part {
        name: "channels",
        run: records::channel,
        seeds: 3_000_000,
        round: 50_000,
        shares: 1,
        editions: false,
        meets: &[5, 6, 7, 25],
        pairs: &[],
    },
    Part {
        name: "addresses",
        run: addresses::any,
        seeds: 2_000_000,
        round: 30_000,
        shares: 1,
        editions: true,
        meets: &[20, 21, 22, 23, 24],
        pairs: &addresses::PAIRS,
    },
    Part {
        name: "short-texts",
        run: addresses::every_short,
        seeds: 1,
        round: 0,
        shares: 1,
        editions: true,
        meets: &[20, 21, 22, 23],
        pairs: &[],
    },
    Part {
        name: "borders",
        run: borders::all,
        seeds: 20,
        round: 1,
        shares: 1,
        editions: true,
        meets: &[8, 20, 21, 22, 23, 24, 25],
        pairs: &calls::PAIRS,
    },
    Part {
        name: "editions",
        run: editions::any,
        seeds: 60_000,
        round: 1_000,
        shares: 1,
        editions: true,
        meets: &[2, 3, 4, 5, 6, 7, 8, 9, 10, 11, 12],
        pairs: &editions::PAIRS,
    },
    Part {
        name: "tones",
        run: addresses::tones,
        seeds: 1,
        round: 0,
        shares: 1,
        editions: false,
        meets: &[],
        pairs: &[],
    },
    Part {
        name: "text-fields",
        run: records::text_fields,
        seeds: 300,
        round: 5,
        shares: 1,
        editions: false,
        meets: &[5, 25],
        pairs: &[],
    },
    Part {
        name: "empty-codeplug",
        run: records::empty_codeplug,
        seeds: 2_000,
        round: 50,
        shares: 1,
        editions: false,
        meets: &[25],
        pairs: &[],
    },
    Part {
        name: "histories",
        run: histories::any,
        seeds: 20_000,
        round: 300,
        shares: 1,
        editions: false,
        meets: &[31],
        pairs: &[],
    },
    Part {
        name: "migrate",
        run: legacy::any,
        seeds: 40_000,
        round: 1_000,
        shares: 1,
        editions: true,
        meets: &[2, 3, 4, 5, 6, 7, 8, 9, 10, 11, 12],
        pairs: &[],
    },
    Part {
        name: "legacy-cut",
        run: legacy::cut,
        seeds: 6_000,
        round: 150,
        shares: 1,
        editions: true,
        meets: &[2, 3, 4, 5, 6, 7, 8, 9, 10, 11, 12],
        pairs: &[],
    },
    Part {
        name: "calls",
        run: calls::list,
        seeds: 180_000,
        round: 5_000,
        shares: 4,
        editions: true,
        meets: &[2, 3, 4, 5, 6, 7, 8, 9, 10, 11, 12, 30, 31, 32, 33, 35, 36, 37, 38, 39],
        pairs: &calls::PAIRS,
    },
    Part {
        name: "large",
        run: large::any,
        seeds: 220,
        round: 6,
        shares: 1,
        editions: true,
        meets: &[1, 34, 36, 37],
        pairs: &[],
    },
];
