//! A typical codeplug of a given size: mostly channels of all three modes, some hundred contacts, and banks.
//!
//! The first, middle and last contact are named by no channel, and those channels stand in no bank, so that they can be removed.

use crate::work::OLDER;
use obcf_second::address::Address;
use obcf_second::record::{Channel, Contact, ContactInfo, Mode};
use obcf_second::sample::{self, Rng};
use obcf_second::Edition;

/// Bytes left free below the size, so that an insertion stays within it.
pub const SPARE: usize = 256;

/// The traits of channels and the settings of contacts. Files and records in which all are zero are valid by the legacy reading too.
#[derive(Clone, Copy, PartialEq)]
pub enum Settings {
    Any,
    Zero,
}

/// The first, the middle and the last of a list.
pub fn three(count: usize) -> [usize; 3] {
    [0, count / 2, count - 1]
}

/// A valid file of `size - SPARE` bytes, 16 KiB or more. The seed changes its records, and none of its counts.
pub fn typical(size: usize, seed: u64, settings: Settings) -> Vec<u8> {
    let rng = &mut Rng::new(seed);
    let length = size - SPARE;
    // 60 contacts at 16 KiB, twice as many at four times the size: 480 at 1 MiB.
    let contacts = 2 * (30.0 * (size as f64 / 16_384.0).sqrt()) as usize;
    let banks = size / 8_192;
    let fixed = 88 + 39 * contacts + banks * (4 + 34 + 2 * 24);
    let channels = (length - fixed) / 90;
    // What is left over goes into the last bank.
    let left = (length - fixed - 90 * channels) / 2;

    let made: Vec<Contact> = (0..contacts).map(|_| contact(rng, settings)).collect();
    let free = three(contacts);
    let named: Vec<(u16, Mode)> = (0..contacts)
        .filter(|n| !free.contains(n))
        .map(|n| (n as u16, made[n].info.mode()))
        .collect();

    let mut file = header(rng, [contacts, channels, banks]);
    for contact in &made {
        file.extend(sample::contact_bytes(contact, OLDER));
    }
    for _ in 0..channels {
        file.extend(sample::channel_bytes(&channel(rng, &named, settings)));
    }
    add_banks(&mut file, rng, banks, left, channels);
    assert_eq!(file.len(), length);
    obcf_second::codeplug::validate(&file, OLDER).expect("a valid file");
    file
}

/// A file of M17 contacts alone, as many as the size holds: callsigns by the older edition, hash addresses by the newer.
pub fn contacts(size: usize, seed: u64, edition: Edition) -> Vec<u8> {
    let rng = &mut Rng::new(seed);
    let count = (size - 88) / 39;
    let mut file = header(rng, [count, 0, 0]);
    for _ in 0..count {
        let number = match edition {
            Edition::Older => sample::callsign_number(rng, edition),
            Edition::Newer => sample::hash_number(rng),
        };
        let contact = Contact {
            name: name(rng, 16),
            info: ContactInfo::M17(Address::Callsign(number)),
        };
        file.extend(sample::contact_bytes(&contact, edition));
    }
    obcf_second::codeplug::validate(&file, edition).expect("a valid file");
    file
}

fn header(rng: &mut Rng, counts: [usize; 3]) -> Vec<u8> {
    let mut header = b"RTXC\0\0\0\0\x01\0".to_vec();
    header.extend(text(rng, 16));
    header.extend(text(rng, 32));
    header.extend(1_700_000_000u64.to_le_bytes());
    for count in counts {
        header.extend((count as u16).to_le_bytes());
    }
    header
}

/// The offset table and banks of 24 entries, the last with so many more.
fn add_banks(file: &mut Vec<u8>, rng: &mut Rng, banks: usize, more: usize, channels: usize) {
    let held = |n: usize| if n + 1 == banks { 24 + more } else { 24 };
    let mut offset = 0;
    for n in 0..banks {
        file.extend((offset as u32).to_le_bytes());
        offset += 34 + 2 * held(n);
    }
    let free = three(channels);
    for n in 0..banks {
        file.extend(text(rng, 16));
        file.extend((held(n) as u16).to_le_bytes());
        for _ in 0..held(n) {
            let entry = loop {
                let entry = rng.below(channels);
                if !free.contains(&entry) {
                    break entry as u16;
                }
            };
            file.extend(entry.to_le_bytes());
        }
    }
}

/// A text of 4 to `most` characters, with its padding.
pub fn text(rng: &mut Rng, most: usize) -> Vec<u8> {
    let mut field = name(rng, most);
    field.resize(32, 0);
    field
}

fn name(rng: &mut Rng, most: usize) -> Vec<u8> {
    let length = 4 + rng.below(most - 3);
    (0..length).map(|_| 0x20 + rng.below(0x5F) as u8).collect()
}

pub fn contact(rng: &mut Rng, settings: Settings) -> Contact {
    let mut made = sample::contact(rng, OLDER);
    made.name = name(rng, 16);
    if let ContactInfo::Dmr {
        contact_type,
        rx_tone,
        ..
    } = &mut made.info
    {
        if settings == Settings::Zero {
            (*contact_type, *rx_tone) = (0, false);
        }
    }
    made
}

/// A channel of any of the three modes; three in four of DMR and M17 name a contact.
pub fn channel(rng: &mut Rng, named: &[(u16, Mode)], settings: Settings) -> Channel {
    let mut made = sample::channel(rng, |rng, mode| {
        let fitting: Vec<u16> = named.iter().filter(|c| c.1 == mode).map(|c| c.0).collect();
        (!fitting.is_empty() && !rng.one_in(4)).then(|| rng.pick(&fitting))
    });
    made.name = name(rng, 16);
    made.description = name(rng, 32);
    if settings == Settings::Zero {
        (made.bandwidth, made.receive_only) = (0, false);
    }
    made
}
