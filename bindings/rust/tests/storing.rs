//! A codeplug from nothing, and one that was stored with its history.
mod common;
use codeplug::{Codeplug, Counts, EditAnswer, Header};
use common::*;

#[test]
fn empty() {
    let mut codeplug = Codeplug::empty(1000, 1000, OLDER);
    assert_eq!((codeplug.bytes(), codeplug.undoable()), (&sample("empty")[..], 0));
    assert_eq!(codeplug::write_empty()[..], sample("empty"));
    codeplug.insert_bank(0, "Field day").unwrap();
    codeplug.set_header("Shop", "", 1).unwrap();
    let counts = Counts { contacts: 0, channels: 0, banks: 1 };
    assert_eq!(codeplug.header(), Header { author: "Shop".into(), description: "".into(), timestamp: 1, counts });
    assert_eq!(codeplug.bank(0).unwrap().name, "Field day");
    assert_eq!(Codeplug::empty(0, 1000, OLDER).insert_bank(0, ""), no(36, 0));
}

/// The club's codeplug after two edits.
fn edited() -> Codeplug {
    let mut codeplug = club();
    codeplug.rename_bank(0, "Daily").unwrap();
    codeplug.insert_contact(0, &dmr("New", 7)).unwrap();
    codeplug
}

#[test]
fn restored_and_undone() {
    let stored = edited();
    assert_eq!(codeplug::history_entries(stored.history()), Ok(2));
    let mut codeplug = Codeplug::restore(stored.bytes(), stored.history(), 0, 0, OLDER).unwrap();
    assert_eq!((codeplug.bytes(), codeplug.history(), codeplug.undoable()), (stored.bytes(), stored.history(), 2));
    assert_eq!(codeplug.undo().unwrap().entries, 1);
    assert_eq!(codeplug.undo(), Ok(EditAnswer { length: 1400, used: 0, entries: 0 }));
    assert_eq!((codeplug.bytes(), codeplug.history()), (&sample("club")[..], &[][..]));
    assert_eq!(codeplug.undo(), no(38, 0));
}

#[test]
fn restored_and_edited() {
    let stored = edited();
    let mut codeplug = Codeplug::restore(stored.bytes(), stored.history(), 1000, 10_000, OLDER).unwrap();
    assert_eq!(codeplug.insert_bank(0, "More").unwrap().entries, 3);
    while codeplug.undoable() > 0 {
        codeplug.undo().unwrap();
    }
    assert_eq!(codeplug.bytes(), sample("club"));
}

#[test]
fn restore_refused() {
    let stored = edited();
    let restored = |file: &[u8], history: &[u8]| Codeplug::restore(file, history, 0, 0, OLDER).map(|codeplug| codeplug.undoable());
    assert_eq!(restored(&sample("club-trailing"), stored.history()), no(12, 1400));
    assert_eq!(restored(&sample("club-trailing"), &[0x80, 0]), no(12, 1400));
    assert_eq!(restored(stored.bytes(), &[0x80, 0]), no(31, 0));
    assert_eq!(restored(&[], &[]), no(2, 0));
    assert_eq!(restored(stored.bytes(), &[]), Ok(0));
}

/// A history of another codeplug is found out by undo, which changes nothing.
#[test]
fn restored_with_the_history_of_another() {
    let stored = edited();
    let mut codeplug = Codeplug::restore(&sample("empty"), stored.history(), 0, 0, OLDER).unwrap();
    assert_eq!(codeplug.undo(), no(39, 0));
    assert_eq!((codeplug.bytes(), codeplug.history()), (&sample("empty")[..], stored.history()));
}

/// There is room for what undo brings back, whatever spare bytes are asked for.
#[test]
fn restored_after_removals() {
    let mut stored = club();
    (0..4).for_each(|_| assert!(stored.remove_bank(0).is_ok()));
    (0..10).for_each(|_| assert!(stored.remove_channel(0).is_ok()));
    for spare in [0, 1, 2000, usize::MAX] {
        let mut codeplug = Codeplug::restore(stored.bytes(), stored.history(), spare, 0, OLDER).unwrap();
        (0..14).for_each(|_| assert!(codeplug.undo().is_ok()));
        assert_eq!((codeplug.undo(), codeplug.bytes()), (no(38, 0), &sample("club")[..]));
    }
}
