//! Files: valid, damaged, cut, with more after them, and noise.

use obcf_second::doubtful;
use obcf_second::sample::{self, Limits, Rng, Shape, Span};
use obcf_second::Codeplug;

use crate::edition::By;
use crate::reading::{How, Read, Reading};
use crate::report::Compared;
use crate::work::Work;

/// Up to so many records of a sort are all read by the readers that validate.
const READ_WHOLE: usize = 60;

pub const FEW: Shape = Shape {
    contacts: 3,
    channels: 3,
    banks: 3,
    entries: 4,
};
pub const SMALL: Shape = Shape {
    contacts: 12,
    channels: 12,
    banks: 6,
    entries: 8,
};

/// A file of any sort: validated, and every record read, or some of a large one.
pub fn any(work: &mut Work, rng: &mut Rng) -> Compared {
    let by = By::any(rng);
    let file = match rng.below(8) {
        0 => sample::file(rng, SMALL, by.edition),
        1 => sample::file(rng, FEW, by.edition),
        _ => doubtful::file(rng, by.edition),
    };
    read(work, rng, &file, by)
}

/// Lends a file, validates it and reads its records.
pub fn read(work: &mut Work, rng: &mut Rng, file: &[u8], by: By) -> Compared {
    let mut reading = Reading::of(work.file.lend(file), by, &mut work.texts, &mut work.tally);
    read_all(&mut reading, rng)
}

/// Validates a file and reads its records: by the readers that do not validate
/// again every one of a valid file, by the others every one or some of many.
pub fn read_all(reading: &mut Reading, rng: &mut Rng) -> Compared {
    reading.validated()?;
    reading.read(rng, Read::Header)?;
    let sizes = sizes(reading.codeplug());
    read_records(reading, rng, &sizes, How::Validating)?;
    if reading.codeplug().is_some() {
        return read_records(reading, rng, &sizes, How::Prevalidated);
    }
    for n in [0, 1, rng.below(16), usize::MAX] {
        reading.read_invalid(n)?;
    }
    Ok(())
}

/// How many records there are to read.
struct Sizes {
    contacts: usize,
    channels: usize,
    entries: Vec<usize>,
}

/// Of an invalid file, some places that could be there.
fn sizes(codeplug: Option<&Codeplug>) -> Sizes {
    match codeplug {
        Some(codeplug) => Sizes {
            contacts: codeplug.contacts.len(),
            channels: codeplug.channels.len(),
            entries: codeplug.banks.iter().map(|bank| bank.entries.len()).collect(),
        },
        None => Sizes {
            contacts: 2,
            channels: 2,
            entries: vec![1],
        },
    }
}

fn read_records(reading: &mut Reading, rng: &mut Rng, sizes: &Sizes, how: How) -> Compared {
    for n in places(rng, sizes.contacts, how) {
        reading.read(rng, Read::Contact(n, how))?;
    }
    for n in places(rng, sizes.channels, how) {
        reading.read(rng, Read::Channel(n, how))?;
    }
    for n in places(rng, sizes.entries.len(), how) {
        reading.read(rng, Read::Bank(n, how))?;
        for i in places(rng, sizes.entries.get(n).copied().unwrap_or(0), how) {
            reading.read(rng, Read::Entry(n, i, how))?;
        }
    }
    Ok(())
}

/// Every place below the count, or eight of many; the count, and a place past
/// it.
fn places(rng: &mut Rng, count: usize, how: How) -> Vec<usize> {
    let mut places: Vec<usize> = match how {
        How::Validating if count > READ_WHOLE => (0..8).map(|_| rng.below(count)).collect(),
        _ => (0..count).collect(),
    };
    places.push(count);
    places.push(rng.pick(&[count + 1, 65_535, 65_536, 1 << 32, 1 << 63, usize::MAX]));
    places
}

/// A valid file with each field spoiled, and each byte changed, one at a time.
pub fn damaged(work: &mut Work, rng: &mut Rng) -> Compared {
    let by = By::any(rng);
    let valid = sample::file(rng, FEW, by.edition);
    let spans = sample::file_spans(&valid);
    each_damage(rng, &valid, &spans, |_, file| validate(work, file, by))
}

/// Each field of a file spoiled twice and each byte changed once, one at a time.
pub fn each_damage(rng: &mut Rng, valid: &[u8], spans: &[Span], mut compare: impl FnMut(&mut Rng, &[u8]) -> Compared) -> Compared {
    let limits = Limits::of_file(valid);
    let mut invalid = valid.to_vec();
    for &span in spans {
        for _ in 0..2 {
            sample::spoil(rng, &mut invalid, span, limits);
            compare(rng, &invalid)?;
            invalid.copy_from_slice(valid);
        }
    }
    for at in 0..valid.len() {
        let any = rng.byte();
        invalid[at] = rng.pick(&[
            any,
            0,
            0x1F,
            0x7F,
            0x80,
            0xFF,
            valid[at].wrapping_add(1),
            valid[at].wrapping_sub(1),
            valid[at] ^ 0x80,
        ]);
        compare(rng, &invalid)?;
        invalid[at] = valid[at];
    }
    Ok(())
}

/// A file, valid or spoiled, or with hash addresses by the older edition, cut at
/// every length and with more after it.
pub fn cut(work: &mut Work, rng: &mut Rng) -> Compared {
    let by = By::any(rng);
    let made_by = doubtful::made_by(rng, by.edition);
    let file = sample::file(rng, FEW, made_by);
    let spans = sample::file_spans(&file);
    each_cut(rng, file, &spans, |_, file| validate(work, file, by))
}

/// A file at every length below its own and at some above, one in three spoiled.
pub fn each_cut(rng: &mut Rng, mut file: Vec<u8>, spans: &[Span], mut compare: impl FnMut(&mut Rng, &[u8]) -> Compared) -> Compared {
    if rng.one_in(3) {
        doubtful::spoil_some(rng, &mut file, spans, 1);
    }
    for length in 0..file.len() {
        compare(rng, &file[..length])?;
    }
    for _ in 0..8 {
        compare(rng, &file)?;
        doubtful::extend(rng, &mut file, 40);
    }
    compare(rng, &file)
}

fn validate(work: &mut Work, file: &[u8], by: By) -> Compared {
    Reading::of(work.file.lend(file), by, &mut work.texts, &mut work.tally).validated()
}
