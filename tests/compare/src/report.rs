//! What was compared, and a difference where there is one.

use std::collections::BTreeMap;
use std::fmt::{self, Debug};

use obcf_second::Edition;

use crate::edition::By;

/// The longest bytes that are shown whole.
const SHOWN: usize = 8_192;

/// A call that the two answer otherwise, or that the library answers otherwise
/// than it has to by what it answered to another.
pub struct Difference {
    call: String,
    lent: Vec<(&'static str, Vec<u8>)>,
    library: String,
    second: String,
}

pub type Compared = Result<(), Box<Difference>>;

impl Difference {
    pub fn of(call: &dyn Debug, lent: &[(&'static str, &[u8])], library: &dyn Debug, second: &dyn Debug) -> Box<Difference> {
        Box::new(Difference {
            call: format!("{call:?}"),
            lent: lent.iter().map(|&(name, bytes)| (name, bytes.to_vec())).collect(),
            library: format!("{library:?}"),
            second: format!("{second:?}"),
        })
    }
}

impl fmt::Display for Difference {
    fn fmt(&self, f: &mut fmt::Formatter<'_>) -> fmt::Result {
        writeln!(f, "call: {}", self.call)?;
        for (name, bytes) in &self.lent {
            writeln!(f, "{name}, {} bytes: {}", bytes.len(), hex(bytes))?;
        }
        writeln!(f, "library: {}", self.library)?;
        write!(f, "second:  {}", self.second)
    }
}

fn hex(bytes: &[u8]) -> String {
    if bytes.len() > SHOWN {
        return "not shown".to_string();
    }
    bytes.iter().map(|byte| format!("{byte:02x}")).collect()
}

/// Bytes in a difference: the first place where they differ.
pub fn bytes_differ(library: &[u8], second: &[u8]) -> (String, String) {
    let at = library.iter().zip(second).position(|(a, b)| a != b).unwrap_or(0);
    let excerpt = |bytes: &[u8]| format!("from {at}: {}", hex(&bytes[at..bytes.len().min(at + 200)]));
    (excerpt(library), excerpt(second))
}

/// What both editions were asked, and the numbers of the older's answer and of
/// the newer's: 0 for accepted, else the refusal.
pub type Pair = (&'static str, u8, u8);

/// How many calls got each answer.
pub struct Tally {
    /// Of calls that take no edition, by the older one and by the newer.
    answers: [[u64; 40]; 3],
    pairs: BTreeMap<Pair, u64>,
}

impl Tally {
    pub fn new() -> Tally {
        Tally {
            answers: [[0; 40]; 3],
            pairs: BTreeMap::new(),
        }
    }

    pub fn add(&mut self, by: By, number: u8) {
        self.answers[row(by.edition)][usize::from(number)] += 1;
    }

    /// A call that takes no edition.
    pub fn add_plain(&mut self, number: u8) {
        self.answers[0][usize::from(number)] += 1;
    }

    pub fn add_pair(&mut self, pair: Pair) {
        *self.pairs.entry(pair).or_default() += 1;
    }

    pub fn cases(&self) -> u64 {
        self.answers.iter().flatten().sum()
    }

    pub fn accepted(&self) -> u64 {
        self.answers.iter().map(|answers| answers[0]).sum()
    }

    /// Whether an answer was met: by that edition, or at all.
    pub fn met(&self, number: u8, edition: Option<Edition>) -> bool {
        let met = |row: usize| self.answers[row][usize::from(number)] > 0;
        edition.map_or((0..3).any(met), |edition| met(row(edition)))
    }

    pub fn met_pair(&self, pair: Pair) -> bool {
        self.pairs.contains_key(&pair)
    }
}

fn row(edition: Edition) -> usize {
    match edition {
        Edition::Older => 1,
        Edition::Newer => 2,
    }
}

/// How many calls there were by each edition, which refusals they met, and which
/// answers of the two editions to one question differed.
impl fmt::Display for Tally {
    fn fmt(&self, f: &mut fmt::Formatter<'_>) -> fmt::Result {
        let names = ["without an edition", "by the older edition", "by the newer edition"];
        for (name, answers) in names.iter().zip(&self.answers) {
            let met: Vec<String> = (1..40).filter(|&n| answers[n] > 0).map(|n| n.to_string()).collect();
            match answers.iter().sum::<u64>() {
                0 => {}
                cases if met.is_empty() => write!(f, "; {name} {cases}, no refusal")?,
                cases => write!(f, "; {name} {cases}, refusals {}", met.join(" "))?,
            }
        }
        let mut last = "";
        for (what, older, newer) in self.pairs.keys().filter(|pair| pair.1 != pair.2) {
            if *what != last {
                write!(f, "; {what}, older and newer")?;
                last = what;
            }
            write!(f, " {older}-{newer}")?;
        }
        Ok(())
    }
}
