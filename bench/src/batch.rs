//! A batch: different files of one size, 1 MiB together, so that every size meets the same caches and branch predictor.

use crate::cases::{self, Case};
use crate::files::{self, Settings};
use crate::makers::{Buffer, Maker, Set, MAKERS};
use crate::timing::{medians, Timed};
use crate::work::OLDER;
use obcf_second::edit::Edit;
use obcf_second::{sample, Edition};

pub const WHOLE: usize = 1 << 20;

pub struct Batch {
    pub sets: Vec<Set>,
    settings: Settings,
}

impl Batch {
    /// As many files of a size as make 1 MiB.
    pub fn whole(size: usize, settings: Settings) -> Batch {
        Batch::new(size, WHOLE / size, settings)
    }

    /// So many files of a size, each in a room of that size, and each with a history of sixteen earlier edits in twice that size.
    pub fn new(size: usize, files: usize, settings: Settings) -> Batch {
        let sets = (0..files).map(|seed| opened(size, seed as u64, settings));
        Batch {
            sets: sets.collect(),
            settings,
        }
    }

    /// As many files of contacts alone, of the same size.
    pub fn of_contacts(&self, edition: Edition) -> Batch {
        let contacts = |(seed, set): (usize, &Set)| {
            let file = files::contacts(set.room.bytes.len(), seed as u64, edition);
            Set {
                room: Buffer::new(&file, file.len()),
                past: Buffer::new(&[], 0),
            }
        };
        Batch {
            sets: self.sets.iter().enumerate().map(contacts).collect(),
            ..*self
        }
    }

    pub fn bytes(&self) -> usize {
        self.sets.iter().map(|set| set.room.length).sum()
    }

    /// The edits by case, and in each case by file.
    pub fn cases(&self) -> Vec<(Case, Vec<Edit>)> {
        let all = |set: &Set| cases::all(set.file(), self.settings);
        let by_file: Vec<Vec<Case>> = self.sets.iter().map(all).collect();
        let edits = |n: usize| by_file.iter().map(|cases| cases[n].edit.clone()).collect();
        all(&self.sets[0])
            .into_iter()
            .enumerate()
            .map(|(n, case)| (case, edits(n)))
            .collect()
    }

    /// The batch after an edit of each file, by some makers, which have to agree.
    pub fn edited(&self, makers: &[Maker], edits: &[Edit]) -> Batch {
        let sets = self
            .sets
            .iter()
            .zip(edits)
            .map(|(set, edit)| made(makers, set, Some(edit)))
            .collect();
        Batch { sets, ..*self }
    }

    /// The files in the legacy order. Some makers migrate each first, which has to give back the file.
    pub fn legacy(&self, makers: &[Maker]) -> Vec<Vec<u8>> {
        let legacy = self.sets.iter().map(|set| {
            let mut file = set.file().to_vec();
            sample::to_legacy(&mut file);
            for maker in makers {
                let mut copy = file.clone();
                let answer = maker.migrate(&mut copy, OLDER).expect("accepted");
                let counts = maker.validate(set.file(), OLDER).expect("accepted");
                assert!(answer == counts && copy == set.file(), "they differ");
            }
            file
        });
        legacy.collect()
    }

    /// Tries an undo in each file.
    pub fn try_undo(&self, makers: &[Maker]) {
        for set in &self.sets {
            made(makers, set, None);
        }
    }
}

/// Median nanoseconds per byte of some makers, for each batch; all of them interleaved.
pub fn per_byte<'a, T: Timed, const N: usize>(
    runs: usize,
    batches: &'a [Batch],
    makers: [Maker; N],
    make: impl Fn(usize, &'a [Set], Maker) -> T,
) -> Vec<[f64; N]> {
    let all = batches.iter().enumerate();
    let timed = all.flat_map(|(n, batch)| makers.map(|maker| make(n, &batch.sets, maker)));
    let times = medians(runs, timed.collect());
    let by_batch = times.as_chunks::<N>().0.iter().zip(batches);
    by_batch
        .map(|(times, batch)| times.map(|time| time / batch.bytes() as f64))
        .collect()
}

fn opened(size: usize, seed: u64, settings: Settings) -> Set {
    let file = files::typical(size, seed, settings);
    let mut set = Set {
        room: Buffer::new(&file, size),
        past: Buffer::new(&[], 2 * size),
    };
    for edit in cases::earlier(&file, settings) {
        set = made(&MAKERS, &set, Some(&edit));
    }
    set
}

/// Makes a call, or an undo, by some makers: they must agree in the answer and in every byte of both buffers.
fn made(makers: &[Maker], set: &Set, edit: Option<&Edit>) -> Set {
    let made: Vec<_> = makers
        .iter()
        .map(|maker| {
            let mut set = set.clone();
            let answer = match edit {
                Some(edit) => maker.edit(&mut set, edit, OLDER),
                None => maker.undo(&mut set, OLDER),
            };
            let answer = answer.expect("accepted");
            set.grown(&answer);
            (answer, set)
        })
        .collect();
    assert!(made.iter().all(|one| *one == made[0]), "they differ");
    made[0].1.clone()
}
