//! Each edit, made, taken back and refused.
mod common;
use codeplug::{Codeplug, Contact, ContactInfo, Counts, EditAnswer, Info, Refused, Tone};
use common::*;

/// A refused call leaves the codeplug as it was.
fn refused(codeplug: &mut Codeplug, number: u8, place: usize, call: impl FnOnce(&mut Codeplug) -> Result<EditAnswer, Refused>) {
    let (before, undoable) = (codeplug.bytes().to_vec(), codeplug.undoable());
    assert_eq!(call(codeplug), no(number, place));
    assert_eq!((codeplug.bytes(), codeplug.undoable()), (&before[..], undoable));
}

/// Undo brings back the club's file.
fn taken_back(mut codeplug: Codeplug) {
    while codeplug.undoable() > 0 {
        codeplug.undo().unwrap();
    }
    assert_eq!(codeplug.bytes(), sample("club"));
    refused(&mut codeplug, 38, 0, |c| c.undo());
}

fn counts(contacts: u16, channels: u16, banks: u16) -> Counts {
    Counts { contacts, channels, banks }
}

#[test]
fn insert_contact() {
    let mut codeplug = club();
    let made = codeplug.insert_contact(0, &dmr("New", 7)).unwrap();
    assert_eq!((made.length, made.entries), (1439, 1));
    assert_eq!((codeplug.counts(), codeplug.contact(0)), (counts(7, 10, 4), Ok(dmr("New", 7))));
    assert_eq!(codeplug.channel(4).unwrap().info.contact(), Some(1));
    assert_eq!(codeplug.channel(6).unwrap().info.contact(), None);
    codeplug.insert_contact(7, &dmr("Last", 8)).unwrap();
    refused(&mut codeplug, 33, 0, |c| c.insert_contact(9, &dmr("", 1)));
    refused(&mut codeplug, 5, 0, |c| c.insert_contact(0, &dmr("\n", 1)));
    taken_back(codeplug);
}

#[test]
fn remove_contact() {
    let mut codeplug = club();
    codeplug.remove_contact(2).unwrap();
    assert_eq!((codeplug.counts(), codeplug.channel(7).unwrap().info.contact()), (counts(5, 10, 4), Some(2)));
    refused(&mut codeplug, 35, 0, |c| c.remove_contact(0));
    refused(&mut codeplug, 33, 0, |c| c.remove_contact(5));
    taken_back(codeplug);
}

#[test]
fn replace_contact() {
    let mut codeplug = club();
    codeplug.replace_contact(1, &dmr("Region", 91)).unwrap();
    assert_eq!(codeplug.contact(1), Ok(dmr("Region", 91)));
    let m17 = codeplug.contact(5).unwrap();
    refused(&mut codeplug, 9, 769, |c| c.replace_contact(0, &m17));
    refused(&mut codeplug, 33, 0, |c| c.replace_contact(6, &m17));
    let bad = Contact { info: ContactInfo::Dmr { id: 0, contact_type: 3, rx_tone: false }, ..m17 };
    refused(&mut codeplug, 7, 37, |c| c.replace_contact(5, &bad));
    taken_back(codeplug);
}

#[test]
fn insert_channel() {
    let mut codeplug = club();
    codeplug.insert_channel(0, &m17_channel(Some(5))).unwrap();
    assert_eq!((codeplug.counts(), codeplug.channel(0)), (counts(6, 11, 4), Ok(m17_channel(Some(5)))));
    assert_eq!(codeplug.entries(0), Ok(vec![1, 2, 5, 6, 3]));
    codeplug.insert_channel(11, &dmr_channel(None)).unwrap();
    refused(&mut codeplug, 9, 322 + 87, |c| c.insert_channel(0, &dmr_channel(Some(6))));
    refused(&mut codeplug, 33, 0, |c| c.insert_channel(13, &fm("")));
    taken_back(codeplug);
}

#[test]
fn remove_channel() {
    let mut codeplug = club();
    codeplug.remove_channel(3).unwrap();
    assert_eq!((codeplug.counts(), codeplug.entries(1)), (counts(6, 9, 4), Ok(vec![3, 4, 5, 6, 7])));
    refused(&mut codeplug, 35, 0, |c| c.remove_channel(0));
    refused(&mut codeplug, 33, 0, |c| c.remove_channel(9));
    taken_back(codeplug);
}

#[test]
fn replace_channel() {
    let mut codeplug = club();
    let mut hill = codeplug.channel(0).unwrap();
    hill.info = Info::Fm { receive_tone: Tone::Disabled(9), transmit_tone: Tone::Disabled(2) };
    codeplug.replace_channel(0, &hill).unwrap();
    assert_eq!(codeplug.channel(0), Ok(hill.clone()));
    refused(&mut codeplug, 33, 0, |c| c.replace_channel(10, &hill));
    hill.latitude = 91;
    refused(&mut codeplug, 7, 77, |c| c.replace_channel(0, &hill));
    refused(&mut codeplug, 9, 322 + 88, |c| c.replace_channel(0, &m17_channel(Some(0))));
    taken_back(codeplug);
}

#[test]
fn insert_bank() {
    let mut codeplug = club();
    let full = "x".repeat(32);
    codeplug.insert_bank(4, &full).unwrap();
    codeplug.insert_bank(0, "").unwrap();
    assert_eq!((codeplug.counts(), codeplug.bank(5).unwrap().name, codeplug.entries(0)), (counts(6, 10, 6), full, Ok(vec![])));
    refused(&mut codeplug, 33, 0, |c| c.insert_bank(7, ""));
    for bad in ["x".repeat(33).as_str(), "a\0", "é"] {
        refused(&mut codeplug, 5, 0, |c| c.insert_bank(0, bad));
    }
    taken_back(codeplug);
}

#[test]
fn remove_bank() {
    let mut codeplug = club();
    codeplug.remove_bank(0).unwrap();
    assert_eq!((codeplug.counts(), codeplug.entries(0)), (counts(6, 10, 3), Ok(vec![4, 5, 6, 7, 8])));
    refused(&mut codeplug, 33, 0, |c| c.remove_bank(3));
    taken_back(codeplug);
}

#[test]
fn rename_bank() {
    let mut codeplug = club();
    codeplug.rename_bank(3, "Best").unwrap();
    assert_eq!((codeplug.bank(3).unwrap().name, codeplug.entries(3)), ("Best".into(), Ok(vec![0, 0, 7])));
    refused(&mut codeplug, 33, 0, |c| c.rename_bank(4, "Best"));
    refused(&mut codeplug, 5, 0, |c| c.rename_bank(3, "a\nb"));
    taken_back(codeplug);
}

#[test]
fn insert_entry() {
    let mut codeplug = club();
    codeplug.insert_entry(2, 0, 9).unwrap();
    codeplug.insert_entry(2, 1, 0).unwrap();
    assert_eq!(codeplug.entries(2), Ok(vec![9, 0]));
    refused(&mut codeplug, 33, 0, |c| c.insert_entry(4, 0, 0));
    refused(&mut codeplug, 33, 0, |c| c.insert_entry(2, 3, 0));
    refused(&mut codeplug, 11, 1238 + 34, |c| c.insert_entry(0, 0, 10));
    taken_back(codeplug);
}

/// A bank of 65,535 entries takes no more.
#[test]
fn insert_entry_into_a_full_bank() {
    let mut codeplug = Codeplug::open(&sample("empty"), 1000, 1000, OLDER).unwrap();
    codeplug.insert_channel(0, &fm("Only")).unwrap();
    codeplug.insert_bank(0, "Full").unwrap();
    let mut file = codeplug.bytes().to_vec();
    let count = file.len() - 2;
    file[count..].fill(255);
    file.resize(file.len() + 2 * 65_535, 0);
    let mut codeplug = Codeplug::open(&file, 1000, 1000, OLDER).unwrap();
    assert_eq!(codeplug.entries(0).unwrap().len(), 65_535);
    refused(&mut codeplug, 34, 0, |c| c.insert_entry(0, 0, 0));
}

#[test]
fn remove_entry() {
    let mut codeplug = club();
    codeplug.remove_entry(0, 2).unwrap();
    assert_eq!(codeplug.entries(0), Ok(vec![0, 1, 5, 2]));
    refused(&mut codeplug, 33, 0, |c| c.remove_entry(0, 4));
    refused(&mut codeplug, 33, 0, |c| c.remove_entry(4, 0));
    taken_back(codeplug);
}

#[test]
fn set_header() {
    let mut codeplug = club();
    codeplug.set_header("Shop", "", u64::MAX).unwrap();
    let header = codeplug.header();
    assert_eq!((header.author.as_str(), header.description.as_str(), header.timestamp), ("Shop", "", u64::MAX));
    refused(&mut codeplug, 5, 0, |c| c.set_header("\n", "\n", 0));
    refused(&mut codeplug, 5, 32, |c| c.set_header("", "\n", 0));
    taken_back(codeplug);
}

#[test]
fn without_room_or_history() {
    let mut codeplug = Codeplug::open(&sample("empty"), 37, 1000, OLDER).unwrap();
    refused(&mut codeplug, 36, 0, |c| c.insert_bank(0, ""));
    let mut codeplug = Codeplug::open(&sample("empty"), 38, 3, OLDER).unwrap();
    assert_eq!(codeplug.insert_bank(0, ""), Ok(EditAnswer { length: 126, used: 3, entries: 1 }));
    let mut codeplug = Codeplug::open(&sample("empty"), 38, 2, OLDER).unwrap();
    refused(&mut codeplug, 37, 0, |c| c.insert_bank(0, ""));
    let mut codeplug = Codeplug::open(&sample("empty"), 0, 0, OLDER).unwrap();
    refused(&mut codeplug, 37, 0, |c| c.set_header("", "", 1));
    refused(&mut codeplug, 38, 0, |c| c.undo());
}

/// Where the history is full, the oldest edit can no longer be taken back.
#[test]
fn history_drops_the_oldest() {
    let mut codeplug = Codeplug::open(&sample("empty"), 0, 4, OLDER).unwrap();
    assert_eq!(codeplug.set_header("", "", 1), Ok(EditAnswer { length: 88, used: 4, entries: 1 }));
    assert_eq!(codeplug.set_header("", "", 2), Ok(EditAnswer { length: 88, used: 4, entries: 1 }));
    codeplug.undo().unwrap();
    assert_eq!(codeplug.header().timestamp, 1);
    refused(&mut codeplug, 38, 0, |c| c.undo());
}
