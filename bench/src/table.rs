//! The table of times.

use crate::batch::{per_byte, Batch};
use crate::files::Settings;
use crate::makers::{Maker, MAKERS};
use crate::timing::medians;
use crate::work::{
    Calling, Decoding, Encoding, Listing, Migrating, Reading, Validating, ValidatingLegacy, OLDER,
};
use obcf_second::address::number_to_text;
use obcf_second::edit::Edit;
use obcf_second::sample::{self, Rng};
use obcf_second::Edition;

const RUNS: usize = 41;

/// A row's name and the medians of some makers, for each batch.
pub type Row<const N: usize> = (String, Vec<[f64; N]>);

fn validating<const N: usize>(
    batches: &[Batch],
    makers: [Maker; N],
    edition: Edition,
) -> Vec<[f64; N]> {
    per_byte(RUNS, batches, makers, |_, sets, maker| Validating {
        maker,
        sets,
        edition,
    })
}

/// Nanoseconds per byte of validating and reading.
fn reading<const N: usize>(batches: &[Batch], makers: [Maker; N]) -> Vec<Row<N>> {
    let validate = validating(batches, makers, OLDER);
    let list = per_byte(RUNS, batches, makers, |_, sets, maker| Listing {
        maker,
        sets,
    });
    let read = per_byte(RUNS, batches, makers, |_, sets, maker| Reading {
        maker,
        sets,
    });
    vec![
        ("validate".to_string(), validate),
        ("validate, beside a reader".to_string(), list),
        ("read every record".to_string(), read),
    ]
}

/// Of legacy files, where all makers read them.
fn legacy<const N: usize>(batches: &[Batch], makers: [Maker; N]) -> Vec<Row<N>> {
    if !makers.iter().all(|maker| maker.reads_legacy()) {
        return Vec::new();
    }
    let files: Vec<_> = batches.iter().map(|batch| batch.legacy(&makers)).collect();
    let validate = per_byte(RUNS, batches, makers, |n, _, maker| ValidatingLegacy {
        maker,
        files: &files[n],
    });
    let migrate = per_byte(RUNS, batches, makers, |n, _, maker| {
        Migrating::new(maker, &files[n])
    });
    vec![
        ("validate legacy".to_string(), validate),
        ("migrate".to_string(), migrate),
    ]
}

/// Of files of contacts alone: callsigns by the older edition, and hash addresses by the newer where all makers have it.
fn contacts<const N: usize>(batches: &[Batch], makers: [Maker; N]) -> Vec<Row<N>> {
    let of = |edition| {
        let of_batch = |batch: &Batch| batch.of_contacts(edition);
        let batches: Vec<Batch> = batches.iter().map(of_batch).collect();
        validating(&batches, makers, edition)
    };
    let mut rows = vec![("validate callsigns".to_string(), of(OLDER))];
    if makers.iter().all(|maker| maker.has_editions()) {
        let hash = of(Edition::Newer);
        rows.push(("validate hash addresses, newer".to_string(), hash));
    }
    rows
}

/// Of an edit of each file, and of its undo.
fn calling<const N: usize>(
    name: &str,
    batches: &[Batch],
    edits: &[&[Edit]],
    makers: [Maker; N],
) -> [Row<N>; 2] {
    let both = batches.iter().zip(edits);
    let edited: Vec<Batch> = both
        .map(|(batch, edits)| batch.edited(&makers, edits))
        .collect();
    edited.iter().for_each(|batch| batch.try_undo(&makers));
    let edit = per_byte(RUNS, batches, makers, |n, sets, maker| {
        Calling::new(maker, sets, Some(edits[n]))
    });
    let undo = per_byte(RUNS, &edited, makers, |_, sets, maker| {
        Calling::new(maker, sets, None)
    });
    [
        (name.to_string(), edit),
        (format!("undo {}", name.trim()), undo),
    ]
}

/// Of everything that a file is put through, or of the edits alone that `chosen` names.
pub fn rows<const N: usize>(
    batches: &[Batch],
    makers: [Maker; N],
    chosen: impl Fn(&str) -> bool,
) -> Vec<Row<N>> {
    let mut rows = reading(batches, makers);
    rows.extend(legacy(batches, makers));
    rows.extend(contacts(batches, makers));
    let cases: Vec<_> = batches.iter().map(Batch::cases).collect();
    let mut undos = Vec::new();
    for (n, (case, _)) in cases[0].iter().enumerate() {
        if chosen(&case.name) {
            let edits: Vec<&[Edit]> = cases.iter().map(|cases| cases[n].1.as_slice()).collect();
            let [edit, undo] = calling(&case.name, batches, &edits, makers);
            rows.push(edit);
            undos.push(undo);
        }
    }
    rows.extend(undos);
    rows
}

/// One file of 64 KiB again and again, which caches and branch predictor learn.
pub fn learnt<const N: usize>(makers: [Maker; N], settings: Settings) -> Vec<Row<N>> {
    rows(&[Batch::new(64 << 10, 1, settings)], makers, |name| {
        name == " 6 replace channel middle"
    })
}

/// Numbers, and their texts.
struct Addresses {
    numbers: Vec<u64>,
    texts: Vec<Vec<u8>>,
}

impl Addresses {
    fn new(make: impl Fn(&mut Rng) -> u64) -> Addresses {
        let rng = &mut Rng::new(40);
        let numbers: Vec<u64> = (0..131_072).map(|_| make(rng)).collect();
        let text = |&number: &u64| {
            let mut text = [0; 9];
            number_to_text(number, &mut text, Edition::Newer).expect("an address");
            text.iter().copied().take_while(|&b| b != 0).collect()
        };
        let texts = numbers.iter().map(text).collect();
        Addresses { numbers, texts }
    }

    /// Nanoseconds per call, texts to numbers and numbers to texts.
    fn rows<const N: usize>(
        &self,
        names: [&str; 2],
        makers: [Maker; N],
        edition: Edition,
    ) -> [Row<N>; 2] {
        let Addresses { numbers, texts } = self;
        let encoding = makers.map(|maker| Encoding {
            maker,
            texts,
            edition,
        });
        let decoding = makers.map(|maker| Decoding {
            maker,
            numbers,
            edition,
        });
        let times = [
            medians(RUNS, encoding.into()),
            medians(RUNS, decoding.into()),
        ];
        let each = |n: usize| std::array::from_fn(|m| times[n][m] / numbers.len() as f64);
        [0, 1].map(|n| (names[n].to_string(), vec![each(n)]))
    }
}

/// Callsigns and hash addresses each way; by the newer edition where all makers have it.
pub fn addresses<const N: usize>(makers: [Maker; N]) -> Vec<Row<N>> {
    let callsigns = Addresses::new(|rng| sample::callsign_number(rng, OLDER));
    let names = ["callsign to address", "address to callsign"];
    let mut rows = callsigns.rows(names, makers, OLDER).to_vec();
    if makers.iter().all(|maker| maker.has_editions()) {
        let names = ["callsign to address, newer", "address to callsign, newer"];
        rows.extend(callsigns.rows(names, makers, Edition::Newer));
        let names = ["hash text to address, newer", "hash address to text, newer"];
        rows.extend(Addresses::new(sample::hash_number).rows(names, makers, Edition::Newer));
    }
    rows
}

fn cells([proved, second, lean]: [f64; 3], digits: usize) -> String {
    format!(
        "{proved:6.digits$} {second:6.digits$} {lean:6.digits$} {:5.2} {:5.2}",
        proved / second,
        proved / lean
    )
}

/// The table's last part alone.
pub fn print_addresses() {
    println!("{:30} | {:^32} |", "", "ns per call");
    for (name, times) in addresses(MAKERS) {
        println!("{name:30} | {} |", cells(times[0], 1));
    }
}

/// The table's first part: of everything, or with the edits alone that `chosen` names.
pub fn print_files(chosen: impl Fn(&str) -> bool) {
    let batches = [64 << 10, 1 << 20].map(|size| Batch::whole(size, Settings::Any));
    let group = "proved second   lean    /s    /l";
    println!(
        "{:30} | {:^32} | {:^32} | {:^20}",
        "", "64 KiB, ns per byte", "1 MiB, ns per byte", "growth per byte"
    );
    println!("{:30} | {group} | {group} | proved second   lean", "");
    println!("{}", "-".repeat(123));
    for (name, times) in rows(&batches, MAKERS, chosen) {
        let (small, large) = (times[0], times[1]);
        let growth = [0, 1, 2].map(|n| format!("{:6.2}", large[n] / small[n]));
        println!(
            "{name:30} | {} | {} | {}",
            cells(small, 3),
            cells(large, 3),
            growth.join(" ")
        );
    }
}

pub fn print() {
    print_files(|_| true);
    println!("\n{:30} | {:^32} |", "", "one file of 64 KiB, learnt");
    for (name, times) in learnt(MAKERS, Settings::Any) {
        println!("{name:30} | {} |", cells(times[0], 3));
    }
    println!();
    print_addresses();
    println!("\n/s and /l: the proved library's time over the second program's and over lean's; under 1 the proved library is faster.");
}
