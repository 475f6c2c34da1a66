//! The plot of time against file size, as an SVG.

use crate::batch::{per_byte, Batch};
use crate::files::Settings;
use crate::makers::{Maker, MAKERS};
use crate::work::{Calling, Validating, OLDER};
use obcf_second::edit::Edit;
use std::fmt::Write;

const RUNS: usize = 31;
const KIB: [usize; 8] = [16, 32, 64, 128, 256, 512, 768, 1024];
const PANELS: [&str; 3] = ["validate", "edit: insert a channel", "undo of that edit"];

/// A size in bytes, and the microseconds of one call of each maker.
type Point = (f64, [f64; 3]);

fn measure() -> [Vec<Point>; 3] {
    let batches = KIB.map(|kib| Batch::whole(kib << 10, Settings::Any));
    let edits: Vec<Vec<Edit>> = batches.iter().map(channel_inserted).collect();
    let edited: Vec<Batch> = batches
        .iter()
        .zip(&edits)
        .map(|(batch, edits)| batch.edited(&MAKERS, edits))
        .collect();
    let times = [
        per_byte(RUNS, &batches, MAKERS, |_, sets, maker| Validating {
            maker,
            sets,
            edition: OLDER,
        }),
        per_byte(RUNS, &batches, MAKERS, |n, sets, maker| {
            Calling::new(maker, sets, Some(&edits[n]))
        }),
        per_byte(RUNS, &edited, MAKERS, |_, sets, maker| {
            Calling::new(maker, sets, None)
        }),
    ];
    times.map(|times| {
        let of_file = |(times, batch): ([f64; 3], &Batch)| {
            let bytes = (batch.bytes() / batch.sets.len()) as f64;
            (bytes, times.map(|time| time * bytes / 1_000.0))
        };
        times.into_iter().zip(&batches).map(of_file).collect()
    })
}

/// A channel put into the middle of the list, in each file.
fn channel_inserted(batch: &Batch) -> Vec<Edit> {
    let mut cases = batch.cases().into_iter();
    let case = cases.find(|(case, _)| case.middle && case.edit.kind == 4);
    case.expect("there is such a case").1
}

// Where things stand on the sheet.
const WIDTH: f64 = 980.0;
const HEIGHT: f64 = 430.0;
const TOP: f64 = 60.0;
const BOTTOM: f64 = 370.0;
const LEFT: f64 = 70.0;
const PANEL: f64 = 270.0;
const GAP: f64 = 30.0;
/// Decades of microseconds: 1 µs to 10 ms.
const DECADES: [(f64, &str); 5] = [
    (1.0, "1 µs"),
    (1e1, "10 µs"),
    (1e2, "100 µs"),
    (1e3, "1 ms"),
    (1e4, "10 ms"),
];

fn x(panel: usize, bytes: f64) -> f64 {
    let part = (bytes / 16_384.0).log2() / 6.0;
    LEFT + panel as f64 * (PANEL + GAP) + 14.0 + part * (PANEL - 28.0)
}

fn y(microseconds: f64) -> f64 {
    BOTTOM - microseconds.log10() / 4.0 * (BOTTOM - TOP)
}

fn look(maker: Maker) -> (&'static str, &'static str, &'static str) {
    match maker {
        Maker::Proved(_) => ("proved library", "#0b5cad", ""),
        Maker::Second => ("second program", "#c2410c", "7 4"),
        Maker::Lean => ("lean plain Rust", "#4b5563", "2 3"),
    }
}

fn text(svg: &mut String, x: f64, y: f64, anchor: &str, size: usize, words: &str) {
    writeln!(svg, r##"<text x="{x:.1}" y="{y:.1}" text-anchor="{anchor}" font-size="{size}" fill="#111">{words}</text>"##)
        .expect("a string takes it");
}

fn line(svg: &mut String, from: (f64, f64), to: (f64, f64)) {
    let ((x1, y1), (x2, y2)) = (from, to);
    writeln!(
        svg,
        r##"<line x1="{x1:.1}" y1="{y1:.1}" x2="{x2:.1}" y2="{y2:.1}" stroke="#ddd"/>"##
    )
    .expect("a string takes it");
}

fn grid(svg: &mut String, panel: usize) {
    let left = LEFT + panel as f64 * (PANEL + GAP);
    for (time, words) in DECADES {
        line(svg, (left, y(time)), (left + PANEL, y(time)));
        if panel == 0 {
            text(svg, left - 6.0, y(time) + 4.0, "end", 12, words);
        }
    }
    for kib in KIB {
        let at = x(panel, (kib << 10) as f64);
        line(svg, (at, TOP), (at, BOTTOM));
        // 768 KiB has no room beside 1 MiB.
        let words = match kib {
            768 => continue,
            1024 => "1 MiB".to_string(),
            16 => "16 KiB".to_string(),
            _ => kib.to_string(),
        };
        text(svg, at, BOTTOM + 18.0, "middle", 12, &words);
    }
    text(
        svg,
        left + PANEL / 2.0,
        TOP - 10.0,
        "middle",
        14,
        PANELS[panel],
    );
}

fn curve(svg: &mut String, panel: usize, maker: Maker, points: &[(f64, f64)]) {
    let (_, colour, dashes) = look(maker);
    let places: Vec<(f64, f64)> = points
        .iter()
        .map(|&(bytes, time)| (x(panel, bytes), y(time)))
        .collect();
    let list: Vec<String> = places
        .iter()
        .map(|(x, y)| format!("{x:.1},{y:.1}"))
        .collect();
    let list = list.join(" ");
    writeln!(svg, r#"<polyline points="{list}" fill="none" stroke="{colour}" stroke-width="2" stroke-dasharray="{dashes}"/>"#)
        .expect("a string takes it");
    for (x, y) in places {
        writeln!(
            svg,
            r#"<circle cx="{x:.1}" cy="{y:.1}" r="3" fill="{colour}"/>"#
        )
        .expect("a string takes it");
    }
}

fn key(svg: &mut String) {
    for (n, maker) in MAKERS.into_iter().enumerate() {
        let (name, colour, dashes) = look(maker);
        let at = LEFT + 150.0 + 200.0 * n as f64;
        let height = HEIGHT - 20.0;
        writeln!(
            svg,
            r#"<line x1="{at}" y1="{height}" x2="{}" y2="{height}" stroke="{colour}" stroke-width="2" stroke-dasharray="{dashes}"/>"#,
            at + 40.0
        )
        .expect("a string takes it");
        text(svg, at + 48.0, height + 4.0, "start", 13, name);
    }
}

pub fn write(path: &str) {
    let mut svg = format!(
        r#"<svg xmlns="http://www.w3.org/2000/svg" viewBox="0 0 {WIDTH} {HEIGHT}" font-family="sans-serif">
<rect width="{WIDTH}" height="{HEIGHT}" fill="white"/>
"#
    );
    text(
        &mut svg,
        WIDTH / 2.0,
        22.0,
        "middle",
        15,
        "Time of one call against the file's size",
    );
    for (panel, points) in measure().iter().enumerate() {
        grid(&mut svg, panel);
        for (n, maker) in MAKERS.into_iter().enumerate() {
            let points: Vec<(f64, f64)> = points
                .iter()
                .map(|(bytes, times)| (*bytes, times[n]))
                .collect();
            curve(&mut svg, panel, maker, &points);
        }
    }
    key(&mut svg);
    svg.push_str("</svg>\n");
    std::fs::write(path, svg).expect("the file can be written");
}
