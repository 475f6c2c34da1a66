//! Legacy files: validated by the legacy reading and migrated. What a migrated
//! one holds is then read record by record.

use obcf_second::codeplug::Codeplug;
use obcf_second::legacy;
use obcf_second::sample::{self, Rng};
use obcf_second::{doubtful, Refusal};

use crate::edition::By;
use crate::expected;
use crate::files::{self, FEW, SMALL};
use crate::interface::{self as library, ValidateAnswer};
use crate::reading::Reading;
use crate::report::{bytes_differ, Compared, Difference};
use crate::work::Work;

/// A legacy file of any sort, or now and then one with each field spoiled, each
/// byte changed, and each byte as traits and settings, one at a time.
pub fn any(work: &mut Work, rng: &mut Rng) -> Compared {
    let by = By::any(rng);
    let edition = by.edition;
    let file = match rng.below(64) {
        0 => return damaged(work, rng, by),
        1..=12 => sample::legacy_file(rng, SMALL, edition),
        13..=28 => doubtful::short_legacy_file(rng, edition),
        29..=32 => doubtful::file(rng, edition),
        _ => doubtful::legacy_file(rng, edition),
    };
    migrate(work, rng, &file, by)
}

fn damaged(work: &mut Work, rng: &mut Rng, by: By) -> Compared {
    let mut file = sample::legacy_file(rng, FEW, by.edition);
    let spans = sample::legacy_file_spans(&file);
    files::each_damage(rng, &file, &spans, |rng, file| migrate(work, rng, file, by))?;
    for at in sample::settings_places(&file) {
        let valid = file[at];
        for byte in 0..=u8::MAX {
            file[at] = byte;
            migrate(work, rng, &file, by)?;
        }
        file[at] = valid;
    }
    Ok(())
}

/// A legacy file, valid or spoiled, or with hash addresses by the older edition,
/// cut at every length and with more after it.
pub fn cut(work: &mut Work, rng: &mut Rng) -> Compared {
    let by = By::any(rng);
    let made_by = doubtful::made_by(rng, by.edition);
    let file = sample::legacy_file(rng, FEW, made_by);
    let spans = sample::legacy_file_spans(&file);
    files::each_cut(rng, file, &spans, |rng, file| migrate(work, rng, file, by))
}

/// Migrates a file. Every record of the result has to read as the second
/// program read it in the file before, by the legacy reading; then it is
/// migrated once more.
pub fn migrate(work: &mut Work, rng: &mut Rng, file: &[u8], by: By) -> Compared {
    let codeplug = migrated(work, file, by)?;
    if codeplug.is_err() {
        return Ok(());
    }
    // The result stands where the file was lent.
    let mut reading = Reading::holding(work.file.slice(), by, codeplug, &mut work.texts, &mut work.tally);
    files::read_all(&mut reading, rng)?;
    let result = work.file.slice().to_vec();
    migrated(work, &result, by).map(drop)
}

/// Validates and migrates a file in both. Answers what the second program read
/// in it before.
fn migrated(work: &mut Work, file: &[u8], by: By) -> Result<Result<Codeplug, Refusal>, Box<Difference>> {
    let codeplug = legacy::read_legacy(file, by.edition);
    let counts = codeplug.as_ref().map(|codeplug| codeplug.header.counts);
    let right = expected::validated(counts.map_err(|&refusal| refusal));
    let found = library::validate_legacy(work.file.lend(file), by);
    same_answer(work, ("validate_legacy", by), file, found, right)?;
    same_file(work, ("validate_legacy", by), file, file)?;

    let mut after = file.to_vec();
    let right = expected::validated(legacy::migrate(&mut after, by.edition));
    let found = library::migrate(work.file.slice(), by);
    same_answer(work, ("migrate", by), file, found, right)?;
    same_file(work, ("migrate", by), file, &after)?;
    Ok(codeplug)
}

fn same_answer(work: &mut Work, call: (&str, By), file: &[u8], found: ValidateAnswer, right: ValidateAnswer) -> Compared {
    work.tally.add(call.1, right.number);
    if found != right {
        return Err(Difference::of(&call, &[("file", file)], &found, &right));
    }
    Ok(())
}

/// The whole file after a call.
fn same_file(work: &mut Work, call: (&str, By), file: &[u8], after: &[u8]) -> Compared {
    if work.file.slice() != after || !work.file.whole() {
        let (found, right) = bytes_differ(work.file.slice(), after);
        return Err(Difference::of(&call, &[("file", file)], &found, &right));
    }
    Ok(())
}
