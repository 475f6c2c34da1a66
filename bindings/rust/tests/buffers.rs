//! Editing in lent buffers.
mod common;
use codeplug::{edit, history_entries, undo, EditAnswer, EditKind};
use common::*;

#[test]
fn made_and_taken_back() {
    let file = sample("empty");
    let (mut room, mut history) = (file.clone(), [7; 6]);
    room.resize(130, 7);
    let made = edit(&mut room, 88, &mut history, 0, EditKind::InsertBank, 0, 0, &[0; 32], OLDER);
    assert_eq!(made, Ok(EditAnswer { length: 126, used: 3, entries: 1 }));
    assert_eq!((&history, codeplug::validate(&room[..126], OLDER).unwrap().banks), (&[0x56, 0x26, 0, 7, 7, 7], 1));
    assert_eq!(room[126..], [7; 4]);
    assert_eq!(undo(&mut room, 126, &mut history, 3, OLDER), Ok(EditAnswer { length: 88, used: 0, entries: 0 }));
    assert_eq!((&room[..88], &room[88..126], &room[126..]), (&file[..], &[0; 38][..], &[7; 4][..]));
    assert_eq!(history, [0, 0, 0, 7, 7, 7]);
}

#[test]
fn refused() {
    let file = sample("empty");
    let mut room = file.clone();
    assert_eq!(edit(&mut room, 89, &mut [], 0, EditKind::RemoveBank, 0, 0, &[], OLDER), no(30, 0));
    assert_eq!(undo(&mut room, 88, &mut [], 1, OLDER), no(30, 0));
    assert_eq!(undo(&mut room, 87, &mut [], 0, OLDER), no(2, 86));
    assert_eq!(undo(&mut room, 88, &mut [0x80, 0], 2, OLDER), no(31, 0));
    assert_eq!(edit(&mut room, 88, &mut [], 0, EditKind::InsertBank, 0, 0, &[0; 31], OLDER), no(32, 0));
    assert_eq!(edit(&mut room, 88, &mut [], 0, EditKind::InsertBank, 0, 1, &[0; 32], OLDER), no(33, 0));
    assert_eq!(undo(&mut room, 88, &mut [0, 0x7F, 0], 3, OLDER), no(39, 0));
    assert_eq!(undo(&mut room, 88, &mut [], 0, OLDER), no(38, 0));
    assert_eq!(room, file);
}

#[test]
fn nothing_lent() {
    assert_eq!(edit(&mut [], 0, &mut [], 0, EditKind::RemoveBank, 0, 0, &[], OLDER), no(2, 0));
    assert_eq!(undo(&mut [], 0, &mut [], 0, OLDER), no(2, 0));
    assert_eq!(history_entries(&[]), Ok(0));
}

#[test]
fn entries_of_a_history() {
    let (mut room, mut history) = (sample("empty"), [0; 12]);
    let mut header = [0; 72];
    for n in 1..4 {
        header[64] = n;
        let made = edit(&mut room, 88, &mut history, 4 * usize::from(n - 1), EditKind::SetHeader, 0, 0, &header, OLDER);
        assert_eq!(made, Ok(EditAnswer { length: 88, used: 4 * usize::from(n), entries: n.into() }));
        assert_eq!(history_entries(&history[..made.unwrap().used]), Ok(n.into()));
    }
    assert_eq!(history_entries(&[0x80, 0]), no(31, 0));
    assert_eq!(history_entries(&history[..11]), no(31, 0));
}
