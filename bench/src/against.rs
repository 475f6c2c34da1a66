//! The library beside another build of it, both loaded from their files and called in turn: what a change of the code costs.

use crate::batch::Batch;
use crate::files::Settings;
use crate::library::Library;
use crate::makers::Maker;
use crate::table::{addresses, learnt, rows, Row};

/// Whole tables, each with the other library first where the last one had it second.
const ROUNDS: usize = 14;

/// A figure over this much of the other library's is counted.
const SLOWER: f64 = 1.05;

/// One figure of the table: its name and, of each round, both times.
type Figure = (String, Vec<[f64; 2]>);

/// A table's rows as single figures. A library from before version 2.0.0 has the legacy reading alone, so the files are valid by both. Rows
/// by the newer edition are there where both libraries have it (library.rs).
fn figures(makers: [Maker; 2]) -> Vec<(String, [f64; 2])> {
    let batches = [64 << 10, 1 << 20].map(|size| Batch::whole(size, Settings::Zero));
    let parts: [(&[&str], Vec<Row<2>>); 3] = [
        (&["64 KiB", "1 MiB"], rows(&batches, makers, |_| true)),
        (&["learnt"], learnt(makers, Settings::Zero)),
        (&["ns per call"], addresses(makers)),
    ];
    let of_part = |(sizes, rows): (&[&str], Vec<Row<2>>)| -> Vec<_> {
        let of_row = |(name, times): Row<2>| -> Vec<_> {
            let named = sizes.iter().map(|size| format!("{name:30} {size:11}"));
            named.zip(times).collect()
        };
        rows.into_iter().flat_map(of_row).collect()
    };
    parts.into_iter().flat_map(of_part).collect()
}

/// Of an even number, the mean of the two in the middle, so that neither order counts for more.
fn median(mut numbers: Vec<f64>) -> f64 {
    numbers.sort_by(f64::total_cmp);
    let half = numbers.len() / 2;
    (numbers[half] + numbers[(numbers.len() - 1) / 2]) / 2.0
}

/// Prints a figure's medians, and answers the median of one time over the other.
fn line((name, times): &Figure) -> f64 {
    let of = |n: usize| median(times.iter().map(|time| time[n]).collect());
    let ratio = median(times.iter().map(|[this, other]| this / other).collect());
    println!("{name} | {:7.3} {:7.3} {ratio:5.2}", of(0), of(1));
    ratio
}

/// Prints the times of both, and this one's over the other's.
pub fn print(this: &str, other: &str) {
    let [this, other] = [this, other].map(|path| Maker::Proved(Library::load(path)));
    let mut all: Vec<Figure> = Vec::new();
    for round in 0..ROUNDS {
        let first = round % 2;
        let makers = [[this, other], [other, this]][first];
        for (n, (name, times)) in figures(makers).into_iter().enumerate() {
            if round == 0 {
                all.push((name, Vec::new()));
            }
            all[n].1.push([times[first], times[1 - first]]);
        }
    }
    println!("ns per byte, but for the last part: this, other, this over other; medians of {ROUNDS} tables");
    let ratios: Vec<f64> = all.iter().map(line).collect();
    let slower = ratios.iter().filter(|&&ratio| ratio > SLOWER).count();
    let most = ratios.iter().copied().fold(0.0, f64::max);
    let (count, middle) = (ratios.len(), median(ratios));
    println!(
        "\n{count} figures: {middle:.3} in the median, at most {most:.3}, {slower} over {SLOWER}"
    );
}
