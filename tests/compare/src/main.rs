//! Compares the proved library, called through its C interface, with the
//! second program: every answer, and every lent buffer whole; and by one
//! edition of M17 addresses with itself by the other.
//!
//!     compare shares              the shares of all parts, a line for each; what takes longest stands first
//!     compare short PART SHARE    a share of a part's fixed number of cases from fixed seeds
//!     compare long SEED MINUTES   rounds of new seeds, for so long; one at least
//!     compare case PART SEED      one seed of a part again

mod addresses;
mod borders;
mod calls;
mod edition;
mod editions;
mod expected;
mod fence;
mod files;
mod histories;
mod interface;
mod large;
mod legacy;
mod parts;
mod reading;
mod records;
mod report;
mod stopped;
mod work;

use std::process::ExitCode;
use std::time::{Duration, Instant};

use obcf_second::sample::Rng;

use parts::{Part, PARTS};
use report::Tally;
use work::Work;

/// The short run's seed.
const SHORT: u64 = 1;

fn main() -> ExitCode {
    let arguments: Vec<String> = std::env::args().skip(1).collect();
    let arguments: Vec<&str> = arguments.iter().map(String::as_str).collect();
    stopped::watch();
    let passed = match arguments[..] {
        ["shares"] => {
            shares();
            Some(true)
        }
        ["short", name, share] => match (PARTS.iter().position(|part| part.name == name), share.parse()) {
            (Some(n), Ok(share)) if share < PARTS[n].shares => Some(short(n, share)),
            _ => None,
        },
        ["long", seed, minutes] => match (seed.parse(), minutes.parse()) {
            (Ok(seed), Ok(minutes)) => Some(long(seed, minutes)),
            _ => None,
        },
        ["case", name, seed] => match (PARTS.iter().find(|part| part.name == name), seed.parse()) {
            (Some(part), Ok(seed)) => Some(one(&mut Work::new(), part, seed)),
            _ => None,
        },
        _ => None,
    };
    match passed {
        Some(true) => ExitCode::SUCCESS,
        Some(false) => ExitCode::FAILURE,
        None => {
            eprintln!("usage: compare shares | short PART SHARE | long SEED MINUTES | case PART SEED");
            ExitCode::from(2)
        }
    }
}

/// One seed of a part; a difference is printed.
fn one(work: &mut Work, part: &Part, seed: u64) -> bool {
    stopped::at(part.name, seed);
    interface::pass_null(seed % 2 == 1);
    match (part.run)(work, &mut Rng::new(seed)) {
        Ok(()) => true,
        Err(difference) => {
            eprintln!("{difference}\nagain: tests/compare/run case {} {seed}", part.name);
            false
        }
    }
}

/// A part's seeds in a run or round.
fn seeds_of(run: u64, part: usize) -> Rng {
    Rng::new(Rng::new(run).number() ^ part as u64)
}

fn line(name: &str, seeds: u64, tally: &Tally, time: Duration) {
    println!(
        "{name}: {} cases alike, {} of them accepted, from {seeds} seeds in {:.1} s{tally}",
        tally.cases(),
        tally.accepted(),
        time.as_secs_f64(),
    );
}

fn shares() {
    for part in PARTS.iter().rev() {
        for share in 0..part.shares {
            println!("{} {share}", part.name);
        }
    }
}

/// A share of the short run of part n.
fn short(n: usize, share: u64) -> bool {
    let part = &PARTS[n];
    let start = Instant::now();
    let mut work = Work::new();
    let mut seeds = seeds_of(SHORT, n);
    let mut compared = 0;
    for i in 0..part.seeds {
        let seed = seeds.number();
        if i % part.shares == share {
            compared += 1;
            if !one(&mut work, part, seed) {
                return false;
            }
        }
    }
    line(part.name, compared, &work.tally, start.elapsed());
    let unmet = part.unmet(&work.tally);
    for what in &unmet {
        eprintln!("{}: {what} was not met", part.name);
    }
    unmet.is_empty()
}

fn long(seed: u64, minutes: u64) -> bool {
    let start = Instant::now();
    let limit = Duration::from_secs(60 * minutes);
    let mut work = Work::new();
    let mut totals: Vec<(u64, Tally, Duration)> = PARTS.iter().map(|_| (0, Tally::new(), Duration::ZERO)).collect();
    println!("seed {seed}, {minutes} minutes");
    let mut round = seed;
    while round == seed || start.elapsed() < limit {
        for (n, part) in PARTS.iter().enumerate() {
            let began = Instant::now();
            let mut seeds = seeds_of(round, n);
            let (count, tally, time) = &mut totals[n];
            std::mem::swap(&mut work.tally, tally);
            for _ in 0..part.round {
                if !one(&mut work, part, seeds.number()) {
                    return false;
                }
            }
            std::mem::swap(&mut work.tally, tally);
            *count += part.round;
            *time += began.elapsed();
        }
        round = round.wrapping_add(1);
    }
    let mut cases = 0;
    for (part, (count, tally, time)) in PARTS.iter().zip(&totals).filter(|(part, _)| part.round > 0) {
        line(part.name, *count, tally, *time);
        cases += tally.cases();
    }
    println!("{cases} cases in {} rounds, no difference", round.wrapping_sub(seed));
    true
}
