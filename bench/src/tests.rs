//! The lean path and the C interface's numbers agree with the second program.

use crate::lean;
use crate::makers::{Buffer, Set, MAKERS};
use codeplug::c;
use obcf_second::address::{number_to_text, text_to_number};
use obcf_second::edit::Edit;
use obcf_second::sample::{self, Limits, Rng, Shape};
use obcf_second::{doubtful, Edition, Refusal};

const SHAPE: Shape = Shape {
    contacts: 6,
    channels: 6,
    banks: 4,
    entries: 6,
};

#[test]
fn validation_agrees() {
    let rng = &mut Rng::new(1);
    for _ in 0..20_000 {
        let edition = rng.pick(&Edition::BOTH);
        let mut file = sample::file(rng, SHAPE, edition);
        let spans = sample::file_spans(&file);
        let limits = Limits::of_file(&file);
        for _ in 0..rng.below(3) {
            let span = rng.pick(&spans);
            sample::spoil(rng, &mut file, span, limits);
        }
        if rng.one_in(8) {
            file.truncate(rng.below(file.len() + 1));
        }
        let [a, b, c] = MAKERS.map(|maker| maker.validate(&file, edition));
        assert!(a == b && b == c, "{a:?} {b:?} {c:?}");
    }
}

#[test]
fn migration_agrees() {
    let rng = &mut Rng::new(3);
    let mut accepted = 0;
    for _ in 0..20_000 {
        let edition = rng.pick(&Edition::BOTH);
        let mut file = sample::legacy_file(rng, SHAPE, edition);
        let spans = sample::legacy_file_spans(&file);
        let limits = Limits::of_file(&file);
        for _ in 0..rng.below(3) {
            let span = rng.pick(&spans);
            sample::spoil(rng, &mut file, span, limits);
        }
        if rng.one_in(8) {
            file.truncate(rng.below(file.len() + 1));
        }
        let [a, b, c] = MAKERS.map(|maker| maker.validate_legacy(&file, edition));
        assert!(a == b && b == c, "{a:?} {b:?} {c:?}");
        let [d, e, f] = MAKERS.map(|maker| {
            let mut copy = file.clone();
            (maker.migrate(&mut copy, edition), copy)
        });
        assert!(
            d == e && e == f && d.0 == a,
            "{:?} {:?} {:?}",
            d.0,
            e.0,
            f.0
        );
        accepted += usize::from(a.is_ok());
    }
    assert!(accepted > 5_000, "{accepted}");
}

#[test]
fn calls_agree() {
    let rng = &mut Rng::new(2);
    let mut accepted = 0;
    for _ in 0..3_000 {
        let edition = rng.pick(&Edition::BOTH);
        let file = sample::file(rng, SHAPE, edition);
        let room_size = file.len() + rng.below(300);
        let mut set = Set {
            room: Buffer::new(&file, room_size),
            past: Buffer::new(&[], rng.below(600)),
        };
        for _ in 0..12 {
            let edit = some_edit(rng);
            let undoes = rng.one_in(4);
            let [a, b, c] = MAKERS.map(|maker| {
                let mut set = set.clone();
                let answer = match undoes {
                    true => maker.undo(&mut set, edition),
                    false => maker.edit(&mut set, &edit, edition),
                };
                if let Ok(answer) = &answer {
                    set.grown(answer);
                }
                (answer, set)
            });
            assert!(a == b, "{edit:?} {undoes} {:?} {:?}", a.0, b.0);
            assert!(b == c, "{edit:?} {undoes} {:?} {:?}", b.0, c.0);
            accepted += usize::from(a.0.is_ok());
            set = a.1;
        }
    }
    assert!(accepted > 10_000, "{accepted}");
}

#[test]
fn addresses_agree() {
    let rng = &mut Rng::new(4);
    for _ in 0..100_000 {
        let edition = rng.pick(&Edition::BOTH);
        let text = doubtful::callsign(rng);
        let right = text_to_number(&text, edition);
        assert_eq!(lean::address::encode(&text, edition), right, "{text:?}");
        assert_eq!(proved_number(&text, edition), right, "{text:?}");

        let number = match rng.flag() {
            true => sample::callsign_number(rng, Edition::Newer),
            false => sample::doubtful_number(rng),
        };
        let length = 9 + rng.below(3);
        let before = rng.bytes(length);
        let [mut proved, mut second, mut lean] = [(); 3].map(|_| before.clone());
        let right = number_to_text(number, &mut second, edition);
        let answer = lean::address::decode(number, &mut lean, edition);
        assert!(answer == right && lean == second, "{number}");
        let refused = proved_text(number, &mut proved, edition);
        assert!(refused == right.err() && proved == second, "{number}");
    }
}

fn proved_number(text: &[u8], edition: Edition) -> Result<u64, Refusal> {
    let a = unsafe { c::codeplug_encode_callsign(text.as_ptr(), text.len(), edition as u32) };
    match a.number {
        0 => Ok(a.address),
        number => Err(Refusal {
            number,
            place: a.place,
        }),
    }
}

fn proved_text(number: u64, out: &mut [u8], edition: Edition) -> Option<Refusal> {
    let a =
        unsafe { c::codeplug_decode_address(number, out.as_mut_ptr(), out.len(), edition as u32) };
    (a.number != 0).then_some(Refusal {
        number: a.number,
        place: a.place,
    })
}

fn some_edit(rng: &mut Rng) -> Edit {
    let kind = 1 + rng.below(12);
    let record = match kind {
        1 | 3 => sample::contact_bytes(&sample::contact(rng, Edition::Newer), Edition::Newer),
        4 | 6 => sample::channel_bytes(&sample::channel(rng, |rng, _| {
            rng.one_in(3).then(|| rng.below(4) as u16)
        })),
        7 | 9 => sample::padded_text(rng),
        10 => vec![rng.below(6) as u8, 0],
        12 => [
            sample::padded_text(rng),
            sample::padded_text(rng),
            rng.bytes(8),
        ]
        .concat(),
        _ => Vec::new(),
    };
    let second = if matches!(kind, 10 | 11) {
        rng.below(6)
    } else {
        0
    };
    Edit {
        kind: kind as u64,
        first: if kind == 12 { 0 } else { rng.below(6) },
        second,
        record,
    }
}
