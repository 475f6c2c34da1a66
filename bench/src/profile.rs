//! One case again and again by one of the three, for a profiler.

use crate::batch::Batch;
use crate::files::Settings;
use crate::makers::{Maker, MAKERS};
use crate::timing::Timed;
use crate::work::{Calling, Migrating, Reading, Validating, ValidatingLegacy, OLDER};

const SIZE: usize = 1 << 20;

/// `validate`, `read`, `validate-legacy`, `migrate`, `edit KIND` or `undo KIND` (in the middle of its list), by `proved`, `second` or `lean`.
pub fn run(maker: &str, what: &str, kind: usize, times: usize) {
    let maker = match maker {
        "proved" => MAKERS[0],
        "second" => Maker::Second,
        _ => Maker::Lean,
    };
    let batch = Batch::whole(SIZE, Settings::Any);
    let sets = batch.sets.as_slice();
    let cases = batch.cases();
    let case = cases
        .iter()
        .find(|(case, _)| case.middle && case.edit.kind == kind as u64);
    let edits = case.map(|(_, edits)| edits.as_slice()).unwrap_or_default();
    match what {
        "validate" => {
            let edition = OLDER;
            repeat(
                times,
                Validating {
                    maker,
                    sets,
                    edition,
                },
            )
        }
        "read" => repeat(times, Reading { maker, sets }),
        "validate-legacy" => {
            let files = &batch.legacy(&MAKERS);
            repeat(times, ValidatingLegacy { maker, files })
        }
        "migrate" => repeat(times, Migrating::new(maker, &batch.legacy(&MAKERS))),
        "edit" => repeat(times, Calling::new(maker, sets, Some(edits))),
        _ => repeat(
            times,
            Calling::new(maker, &batch.edited(&MAKERS, edits).sets, None),
        ),
    }
}

fn repeat(times: usize, mut timed: impl Timed) {
    for _ in 0..times {
        timed.ready();
        timed.call();
    }
}
