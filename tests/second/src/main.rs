//! `second validate` validates the file on standard input, `second
//! validate-legacy` does so by the legacy reading and `second migrate` migrates
//! a legacy file; `second corpus` writes cases with their expected answers;
//! `second play` makes the calls of a script (see README.md).

mod calls;
mod corpus;
#[cfg(test)]
mod stored;

use std::error::Error;
use std::fs::{self, File};
use std::io::{self, BufWriter, Read, Write};
use std::process::ExitCode;

use obcf_second::codeplug::{write_empty, HEADER_SIZE};
use obcf_second::play::Player;
use obcf_second::sample::Rng;
use obcf_second::script::{self, Malformed};
use obcf_second::{migrate, validate, validate_legacy, Counts, Edition, Reason, Refusal, LONGEST};

const USAGE: &str = "usage: second validate [older|newer] < FILE
       second validate-legacy [older|newer] < FILE
       second migrate [older|newer] < FILE > OUT
       second corpus files|contacts|channels|addresses|mixed|read|channels-read|written|calls|migrated SEED COUNT OUT.bin OUT.txt
       second play OPEN|empty OUT [older|newer] < SCRIPT";

/// `second validate` and `second validate-legacy` read at most this many bytes
/// (paper: Examples).
const MOST_INPUT: usize = 65_536;

type Done = Result<(), Box<dyn Error>>;

fn main() -> ExitCode {
    let arguments: Vec<String> = std::env::args().skip(1).collect();
    let arguments: Vec<&str> = arguments.iter().map(String::as_str).collect();
    let done = match arguments[..] {
        ["validate", ref last @ ..] => by_edition(last, |e| validate_input(validate, e)),
        ["validate-legacy", ref last @ ..] => {
            by_edition(last, |e| validate_input(validate_legacy, e))
        }
        ["migrate", ref last @ ..] => by_edition(last, migrate_input),
        ["corpus", kind, seed, count, bin, txt] => {
            match (corpus::generator(kind), seed.parse(), count.parse()) {
                (Some(generate), Ok(seed), Ok(count)) => {
                    Some(write_corpus(generate, seed, count, bin, txt))
                }
                _ => None,
            }
        }
        ["play", open, out, ref last @ ..] => by_edition(last, |e| play(open, out, e)),
        _ => None,
    };
    let Some(done) = done else {
        return usage();
    };
    match done {
        Ok(()) => ExitCode::SUCCESS,
        // A refused migration: its line and nothing else.
        Err(error) if error.is::<Refusal>() => {
            eprintln!("{error}");
            ExitCode::FAILURE
        }
        Err(error) => {
            eprintln!("second: {error}");
            // What the caller has written wrongly is 2, as in `usage`.
            ExitCode::from(if error.is::<Malformed>() { 2 } else { 1 })
        }
    }
}

/// Runs a command by the edition that its last argument names, or by the older
/// where there is none; `None` where the argument is anything else.
fn by_edition(last: &[&str], command: impl FnOnce(Edition) -> Done) -> Option<Done> {
    match last {
        [] | ["older"] => Some(command(Edition::Older)),
        ["newer"] => Some(command(Edition::Newer)),
        _ => None,
    }
}

fn usage() -> ExitCode {
    eprintln!("{USAGE}");
    ExitCode::from(2)
}

fn validate_input(
    validate: fn(&[u8], Edition) -> Result<Counts, Refusal>,
    edition: Edition,
) -> Done {
    let input = input(MOST_INPUT)?;
    let answer = if input.len() > MOST_INPUT {
        Err(Refusal::from(Reason::TooLong))
    } else {
        validate(&input, edition)
    };
    writeln!(io::stdout(), "{}", corpus::validate_line(answer))?;
    Ok(())
}

/// Migrates a file of any length that a codeplug may have. Nothing is written
/// where it is refused.
fn migrate_input(edition: Edition) -> Done {
    let mut file = input(LONGEST)?;
    migrate(&mut file, edition)?;
    io::stdout().write_all(&file)?;
    Ok(())
}

/// The bytes on standard input; a single one past `most`, where there are more.
fn input(most: usize) -> io::Result<Vec<u8>> {
    let mut input = Vec::new();
    io::stdin()
        .lock()
        .take(most as u64 + 1)
        .read_to_end(&mut input)?;
    Ok(input)
}

fn write_corpus(
    generate: corpus::Generator,
    seed: u64,
    count: usize,
    bin: &str,
    txt: &str,
) -> Done {
    let mut rng = Rng::new(seed);
    let mut bin = BufWriter::new(File::create(bin)?);
    let mut txt = BufWriter::new(File::create(txt)?);
    for _ in 0..count {
        let (case, line) = generate(&mut rng);
        bin.write_all(&(case.len() as u32).to_le_bytes())?;
        bin.write_all(&case)?;
        writeln!(txt, "{line}")?;
    }
    bin.flush()?;
    txt.flush()?;
    Ok(())
}

/// Plays the script on standard input. All of it is read before the first call
/// is made.
fn play(open: &str, out: &str, edition: Edition) -> Done {
    let mut input = Vec::new();
    io::stdin().lock().read_to_end(&mut input)?;
    let script = script::read(&input, edition)?;
    let opening = opening(open).map_err(|error| format!("{open}: {error}"))?;
    let player = Player::open(&opening, edition);
    let mut player = player.map_err(|refusal| format!("{open}: {refusal}"))?;
    player.play(&script, &mut io::stdout().lock())?;
    fs::write(out, player.file()).map_err(|error| format!("{out}: {error}"))?;
    Ok(())
}

/// The file to open, or the empty codeplug for the word `empty`.
fn opening(open: &str) -> Result<Vec<u8>, Box<dyn Error>> {
    if open != "empty" {
        return Ok(fs::read(open)?);
    }
    let mut file = vec![0; HEADER_SIZE];
    write_empty(&mut file)?;
    Ok(file)
}
