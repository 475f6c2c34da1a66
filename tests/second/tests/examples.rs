//! The example table of the paper, row by row, and a few rules that its
//! text settles without an example. Traits and contact settings are those of
//! paper 02, request [5]; both editions of request [10] must answer alike, but
//! for the row that differs.

use std::fmt::Debug;

use obcf_second::address::{self, Address, BROADCAST};
use obcf_second::codeplug::{self, write_empty};
use obcf_second::edit::{self, Answer, Edit};
use obcf_second::history::{self, parse, put_number, take_number};
use obcf_second::record::{write_text, Channel, ChannelInfo, Contact, ContactInfo, Location};
use obcf_second::tone::{Tone, TONES};
use obcf_second::{Counts, Edition, Refusal, LONGEST};

fn refused<T>(number: u8, place: usize) -> Result<T, Refusal> {
    Err(Refusal { number, place })
}

/// What both editions answer.
fn by_both<T: Debug + PartialEq>(answer: impl Fn(Edition) -> T) -> T {
    let [older, newer] = Edition::BOTH.map(answer);
    assert_eq!(older, newer);
    older
}

/// The same for a call that may change what it is lent.
fn on_copies<T: Debug + PartialEq>(
    lent: [&mut [u8]; 2],
    answer: impl Fn(&mut [u8], &mut [u8], Edition) -> T,
) -> T {
    let (answer, first, second) = by_both(|edition| {
        let [mut first, mut second] = [lent[0].to_vec(), lent[1].to_vec()];
        let answer = answer(&mut first, &mut second, edition);
        (answer, first, second)
    });
    let [one, other] = lent;
    one.copy_from_slice(&first);
    other.copy_from_slice(&second);
    answer
}

fn text_to_number(text: &[u8]) -> Result<u64, Refusal> {
    by_both(|edition| address::text_to_number(text, edition))
}

fn number_to_text(number: u64, buffer: &mut [u8]) -> Result<Address, Refusal> {
    on_copies([buffer, &mut []], |buffer, _, edition| {
        address::number_to_text(number, buffer, edition)
    })
}

fn validate(file: &[u8]) -> Result<Counts, Refusal> {
    by_both(|edition| obcf_second::validate(file, edition))
}

fn read_contact(record: &[u8]) -> Result<Contact, Refusal> {
    by_both(|edition| Contact::read(record, edition))
}

fn write_contact(contact: &Contact, out: &mut [u8]) -> Result<(), Refusal> {
    on_copies([out, &mut []], |out, _, edition| {
        contact.write(out, edition)
    })
}

fn edit(
    room: &mut [u8],
    length: usize,
    history: &mut [u8],
    history_length: usize,
    edit: &Edit,
) -> Result<Answer, Refusal> {
    on_copies([room, history], |room, history, edition| {
        edit::edit(room, length, history, history_length, edit, edition)
    })
}

fn undo(
    room: &mut [u8],
    length: usize,
    history: &mut [u8],
    history_length: usize,
) -> Result<Answer, Refusal> {
    on_copies([room, history], |room, history, edition| {
        edit::undo(room, length, history, history_length, edition)
    })
}

/// The empty 88-byte file.
fn empty_file() -> Vec<u8> {
    let mut file = vec![0; 88];
    file[..4].copy_from_slice(b"RTXC");
    file[8] = 1;
    file
}

fn counts(contacts: u16, channels: u16, banks: u16) -> Result<Counts, Refusal> {
    Ok(Counts {
        contacts,
        channels,
        banks,
    })
}

fn fm_channel() -> Channel {
    let tone = Tone {
        enabled: false,
        index: 0,
    };
    Channel {
        bandwidth: 0,
        receive_only: false,
        power: 0,
        rx_frequency: 145_000_000,
        tx_frequency: 145_000_000,
        scan_list: 0,
        group_list: 0,
        name: b"FM".to_vec(),
        description: Vec::new(),
        location: Location {
            latitude_floor: 44,
            latitude_ten_thousandths: 4_939,
            longitude_floor: 11,
            longitude_ten_thousandths: 3_428,
            altitude_plus_500: 500,
        },
        info: ChannelInfo::Fm {
            rx_tone: tone,
            tx_tone: tone,
        },
    }
}

fn set_header(timestamp: u64) -> Edit {
    let mut record = vec![0; 64];
    record.extend(timestamp.to_le_bytes());
    Edit {
        kind: 12,
        first: 0,
        second: 0,
        record,
    }
}

#[test]
fn callsigns() {
    assert_eq!(text_to_number(b"A"), Ok(1));
    assert_eq!(text_to_number(b"AB1CD"), Ok(10_476_881));
    assert_eq!(text_to_number(b" A"), Ok(40));
    assert_eq!(text_to_number(b"A "), refused(22, 0));
    assert_eq!(text_to_number(b"........."), Ok(262_143_999_999_999));
    assert_eq!(text_to_number(b""), refused(20, 0));
    // By the newer edition this is the hash sign alone.
    assert_eq!(
        address::number_to_text(262_144_000_000_000, &mut [0; 9], Edition::Older),
        refused(23, 0)
    );

    assert_eq!(text_to_number(b".........."), refused(20, 0));
    assert_eq!(text_to_number(b"AB1cd "), refused(21, 3));
    assert_eq!(text_to_number(b"   "), refused(22, 0));
    assert_eq!(number_to_text(0, &mut [0; 9]), refused(23, 0));
    assert_eq!(number_to_text(0, &mut [0; 8]), refused(24, 0));
    assert_eq!(number_to_text(BROADCAST, &mut [0; 8]), refused(24, 0));
}

#[test]
fn callsign_buffers() {
    let mut buffer = [7; 11];
    assert_eq!(
        number_to_text(BROADCAST, &mut buffer),
        Ok(Address::Broadcast)
    );
    assert_eq!(buffer, [7; 11]);
    assert_eq!(number_to_text(40, &mut buffer), Ok(Address::Callsign(40)));
    assert_eq!(&buffer, b" A\0\0\0\0\0\0\0\x07\x07");
    number_to_text(262_143_999_999_999, &mut buffer).unwrap();
    assert_eq!(&buffer, b".........\x07\x07");
}

#[test]
fn tones() {
    let disabled = Tone::from_byte(0x1F).unwrap();
    assert_eq!(
        (disabled.enabled, disabled.tenths_of_hertz()),
        (false, Some(1_738))
    );
    let enabled = Tone::from_byte(0x8E).unwrap();
    assert_eq!(
        (enabled.enabled, enabled.tenths_of_hertz()),
        (true, Some(1_072))
    );
    assert_eq!((TONES[0], TONES[49]), (670, 2_541));
    assert!(TONES.windows(2).all(|pair| pair[0] < pair[1]));

    let mut record = [0; 90];
    fm_channel().write(&mut record).unwrap();
    for (byte, valid) in [
        (0x31, true),
        (0x32, false),
        (0xB1, true),
        (0xB2, false),
        (0x7F, false),
    ] {
        record[85] = byte;
        let answer = Channel::read(&record).map(|_| ());
        assert_eq!(answer, if valid { Ok(()) } else { refused(7, 85) });
    }
}

/// The number is bits 0 and 1, the flag bit 2, and the other five are zero.
fn traits_byte(number: u8, flag: bool) -> u8 {
    number + if flag { 4 } else { 0 }
}

#[test]
fn traits() {
    let mut record = [0; 90];
    for byte in 0..=255 {
        fm_channel().write(&mut record).unwrap();
        record[1] = byte;
        let (bandwidth, receive_only) = (byte % 4, byte >= 4);
        let expected = match bandwidth {
            0..=2 if byte < 8 => Ok(Channel {
                bandwidth,
                receive_only,
                ..fm_channel()
            }),
            _ => refused(7, 1),
        };
        assert_eq!(Channel::read(&record), expected, "{byte}");
        let channel = Channel {
            bandwidth: byte,
            receive_only: true,
            ..fm_channel()
        };
        let mut out = [0xEE; 90];
        match channel.write(&mut out) {
            Ok(()) => assert_eq!((out[1], byte < 3), (traits_byte(byte, true), true)),
            refusal => assert_eq!((refusal, byte < 3), (refused(7, 1), false)),
        }
    }
}

#[test]
fn contact_settings() {
    let contact = |contact_type, rx_tone| Contact {
        name: Vec::new(),
        info: ContactInfo::Dmr {
            id: 0,
            contact_type,
            rx_tone,
        },
    };
    for contact_type in 0..=255 {
        for rx_tone in [false, true] {
            let mut record = [0; 39];
            let written = write_contact(&contact(contact_type, rx_tone), &mut record);
            if contact_type > 2 {
                assert_eq!(written, refused(7, 37));
                continue;
            }
            assert_eq!(record[37], traits_byte(contact_type, rx_tone));
            assert_eq!(read_contact(&record), Ok(contact(contact_type, rx_tone)));
        }
    }
    let mut record = [0; 39];
    record[32] = 1;
    for byte in (8..=255).chain([3, 7]) {
        record[37] = byte;
        assert_eq!(read_contact(&record), refused(7, 37), "{byte}");
    }
}

#[test]
fn history_numbers() {
    let groups = |number| {
        let mut bytes = Vec::new();
        put_number(&mut bytes, number);
        bytes
    };
    assert_eq!(groups(127), [0x7F]);
    assert_eq!(groups(128), [0x80, 0x01]);
    assert_eq!(groups(LONGEST), [0x80, 0x80, 0x40]);
    let take = |mut bytes: &[u8]| take_number(&mut bytes);
    assert_eq!(take(&[0x80, 0x00]), None);
    assert_eq!(take(&[0x80, 0x80, 0x00]), None);
    assert_eq!(take(&[0x80]), None);
    assert_eq!(take(&[]), None);
    assert_eq!(take(&[0x00]), Some(0));
    assert_eq!(take(&[0x80, 0x80, 0x40, 0xFF]), Some(LONGEST));
    assert_eq!(take(&[0x81, 0x80, 0x40]), None);
    assert_eq!(take(&[0x80, 0x80, 0x80, 0x01]), None);
    assert_eq!(take(&[0xFF; 40]), None);

    assert_eq!(parse(&[0x80, 0x00, 0x00, 0x00]), refused(31, 0));
    assert_eq!(parse(&[0x05, 0x00, 0x02, 0x41]), refused(31, 0));
    assert_eq!(parse(&[0x05, 0x00, 0x01, 0x41]).unwrap().len(), 1);
}

#[test]
fn entries_of_edits() {
    let mut room = empty_file();
    let mut history = [9; 6];
    let answer = edit(&mut room, 88, &mut history, 0, &set_header(1));
    assert_eq!(
        answer,
        Ok(Answer {
            length: 88,
            history_length: 4,
            entries: 1
        })
    );
    assert_eq!(history, [0x4A, 0x01, 0x01, 0x00, 9, 9]);

    let mut room = empty_file();
    room.extend([9; 40]);
    let nameless = Edit {
        kind: 7,
        first: 0,
        second: 0,
        record: vec![0; 32],
    };
    let answer = edit(&mut room, 88, &mut history, 0, &nameless);
    assert_eq!(
        answer,
        Ok(Answer {
            length: 126,
            history_length: 3,
            entries: 1
        })
    );
    assert_eq!(history, [0x56, 0x26, 0x00, 0x00, 9, 9]);
    assert_eq!(room[126..], [9, 9]);
    assert_eq!(validate(&room[..126]), counts(0, 0, 1));

    // An edit that changes nothing makes an entry too, which fills a history of
    // 3 bytes.
    let mut room = empty_file();
    let mut history = [9; 3];
    let answer = edit(&mut room, 88, &mut history, 0, &set_header(0));
    assert_eq!(
        answer,
        Ok(Answer {
            length: 88,
            history_length: 3,
            entries: 1
        })
    );
    assert_eq!(history, [0x58, 0x00, 0x00]);
    assert_eq!(
        edit(&mut room, 88, &mut history, 3, &set_header(1)),
        refused(37, 0)
    );
}

#[test]
fn files() {
    assert_eq!(validate(&[]), refused(2, 0));
    let valid = empty_file();
    assert_eq!(validate(&valid[..87]), refused(2, 86));
    assert_eq!(validate(&valid), counts(0, 0, 0));
    assert_eq!(
        validate(&[valid.as_slice(), &[0]].concat()),
        refused(12, 88)
    );
    assert_eq!(validate(&vec![0; LONGEST + 1]), refused(1, 0));
    assert_eq!(validate(&vec![0; LONGEST]), refused(3, 0));
}

#[test]
fn latitude_90() {
    let mut record = [0; 90];
    fm_channel().write(&mut record).unwrap();
    record[77..80].copy_from_slice(&[90, 0, 0]);
    assert!(Channel::read(&record).is_ok());
    record[78] = 1;
    assert_eq!(Channel::read(&record), refused(7, 78));

    let mut file = empty_file();
    file[84] = 1;
    file.extend(record);
    assert_eq!(validate(&file), refused(7, 88 + 78));
}

#[test]
fn lengths_and_histories_are_validated_in_order() {
    let mut room = empty_file();
    let valid = set_header(1);
    let mut history = [0x80, 0x00, 0x00, 0x00];
    assert_eq!(edit(&mut room, 89, &mut history, 4, &valid), refused(30, 0));
    assert_eq!(
        edit(&mut room, usize::MAX, &mut history, 4, &valid),
        refused(30, 0)
    );
    assert_eq!(edit(&mut room, 87, &mut history, 5, &valid), refused(30, 0));
    assert_eq!(edit(&mut room, 87, &mut history, 4, &valid), refused(2, 86));
    let unknown = Edit {
        kind: 13,
        ..valid.clone()
    };
    assert_eq!(
        edit(&mut room, 88, &mut history, 4, &unknown),
        refused(31, 0)
    );
    assert_eq!(undo(&mut room, 88, &mut history, 4), refused(31, 0));
    assert_eq!(
        edit(&mut room, 88, &mut history, 0, &unknown),
        refused(32, 0)
    );
    assert_eq!(undo(&mut room, 88, &mut history, 0), refused(38, 0));
    // p + k past the codeplug, though the entry's form is valid.
    let mut history = [0x58, 0x01, 0x00];
    assert_eq!(undo(&mut room, 88, &mut history, 3), refused(39, 0));
    // A result that exceeds the room, and one that reading refuses.
    let mut history = [0x58, 0x00, 0x01, 0x00];
    assert_eq!(undo(&mut room, 88, &mut history, 4), refused(39, 0));
    let mut history = [0x00, 0x01, 0x00, 0x00];
    assert_eq!(undo(&mut room, 88, &mut history, 3), refused(39, 0));
}

#[test]
fn a_full_bank_does_not_grow() {
    let mut file = empty_file();
    file[84] = 1;
    file[86] = 1;
    let mut record = [0; 90];
    fm_channel().write(&mut record).unwrap();
    file.extend(record);
    file.extend([0; 4 + 32]);
    file.extend([0xFF, 0xFF]);
    file.extend(vec![0; 2 * 65_535]);
    assert_eq!(validate(&file), counts(0, 1, 1));
    let length = file.len();
    file.extend([0; 8]);
    let insert = |place| Edit {
        kind: 10,
        first: 0,
        second: place,
        record: vec![9, 9],
    };
    assert_eq!(
        edit(&mut file, length, &mut [0; 9], 0, &insert(65_536)),
        refused(33, 0)
    );
    assert_eq!(
        edit(&mut file, length, &mut [0; 9], 0, &insert(65_535)),
        refused(34, 0)
    );
}

#[test]
fn contacts_in_use_and_changed() {
    let mut file = empty_file();
    let contact = |info| {
        let mut record = vec![0; 39];
        let name = b"C".to_vec();
        write_contact(&Contact { name, info }, &mut record).unwrap();
        record
    };
    let dmr = contact(ContactInfo::Dmr {
        id: 1,
        contact_type: 0,
        rx_tone: false,
    });
    let m17 = contact(ContactInfo::M17(Address::Broadcast));
    let mut record = vec![0; 90];
    let info = ChannelInfo::Dmr {
        rx_colour: 1,
        tx_colour: 15,
        timeslot: 2,
        contact: Some(0),
    };
    Channel {
        info,
        ..fm_channel()
    }
    .write(&mut record)
    .unwrap();
    file[82] = 1;
    file[84] = 1;
    file.extend(&dmr);
    file.extend(&record);
    let length = file.len();
    assert_eq!(validate(&file), counts(1, 1, 0));
    file.extend([0; 100]);
    let mut history = [0; 200];

    let remove = Edit {
        kind: 2,
        first: 0,
        second: 0,
        record: Vec::new(),
    };
    assert_eq!(
        edit(&mut file, length, &mut history, 0, &remove),
        refused(35, 0)
    );
    let replace = Edit {
        kind: 3,
        first: 0,
        second: 0,
        record: m17.clone(),
    };
    assert_eq!(
        edit(&mut file, length, &mut history, 0, &replace),
        refused(9, 88 + 39 + 87)
    );
    let insert = Edit {
        kind: 1,
        first: 0,
        second: 0,
        record: m17,
    };
    let answer = edit(&mut file, length, &mut history, 0, &insert).unwrap();
    let channel = |n| by_both(|edition| codeplug::channel(&file[..answer.length], n, edition));
    assert!(matches!(
        channel(0).unwrap().info,
        ChannelInfo::Dmr {
            contact: Some(1),
            ..
        }
    ));
    assert_eq!(channel(1), refused(33, 0));
}

#[test]
fn writers_refuse_what_no_valid_record_holds() {
    let write = |contact: &Contact| write_contact(contact, &mut [0; 39]);
    let mut contact = Contact {
        name: vec![b'x'; 32],
        info: ContactInfo::Dmr {
            id: 7,
            contact_type: 2,
            rx_tone: true,
        },
    };
    assert_eq!(write(&contact), Ok(()));
    assert_eq!(write_contact(&contact, &mut [0; 38]), refused(25, 0));
    contact.info = ContactInfo::Dmr {
        id: 7,
        contact_type: 3,
        rx_tone: true,
    };
    assert_eq!(write(&contact), refused(7, 37));
    contact.info = ContactInfo::M17(Address::Callsign(0));
    assert_eq!(write(&contact), refused(8, 33));
    contact.name.push(b'x');
    assert_eq!(write(&contact), refused(5, 0));

    let write = |info: ChannelInfo| {
        Channel {
            info,
            ..fm_channel()
        }
        .write(&mut [0; 90])
    };
    let dmr = |tx_colour, contact| ChannelInfo::Dmr {
        rx_colour: 0,
        tx_colour,
        timeslot: 1,
        contact,
    };
    assert_eq!(write(dmr(15, None)), Ok(()));
    assert_eq!(write(dmr(15, Some(65_534))), Ok(()));
    assert_eq!(write(dmr(15, Some(65_535))), Ok(()));
    assert_eq!(write(dmr(16, Some(65_535))), refused(7, 85));
    let m17 = |operation, contact| ChannelInfo::M17 {
        rx_access: 0,
        tx_access: 0,
        operation,
        encryption: 2,
        send_position: true,
        contact,
    };
    assert_eq!(write(m17(3, None)), Ok(()));
    assert_eq!(write(m17(17, None)), refused(7, 86));
    assert_eq!(write(m17(3, Some(65_535))), Ok(()));
}

#[test]
fn text_fields() {
    let written = |text: &[u8]| {
        let mut out = [0xEE; 35];
        let answer = write_text(text, &mut out);
        assert_eq!(out[32..], [0xEE; 3]);
        if answer.is_err() {
            assert_eq!(out, [0xEE; 35]);
        }
        answer.map(|()| out[..32].to_vec())
    };
    let padded = |text: &[u8]| Ok([text, &vec![0; 32 - text.len()]].concat());
    for text in [
        &b""[..],
        b"A",
        b" ",
        b" ~",
        b"two words ",
        &[b'x'; 31],
        &[b'~'; 32],
    ] {
        assert_eq!(written(text), padded(text));
    }
    assert_eq!(written(&[b'x'; 33]), refused(5, 0));
    assert_eq!(written(&[b'x'; 300]), refused(5, 0));
    for byte in 0..=255 {
        let text = [b'a', byte, b'b'];
        let expected = match byte {
            0x20..=0x7E => padded(&text),
            _ => refused(5, 0),
        };
        assert_eq!(written(&text), expected);
        // The last of 32 bytes follows the same rule.
        let mut text = [b'x'; 32];
        text[31] = byte;
        assert_eq!(written(&text).is_ok(), (0x20..=0x7E).contains(&byte));
    }

    // Exactly 32 bytes are enough; 25 comes before 5.
    let mut out = [0xEE; 32];
    assert_eq!(write_text(b"AB", &mut out), Ok(()));
    assert_eq!((&out[..2], &out[2..]), (&b"AB"[..], &[0; 30][..]));
    let mut out = [0xEE; 31];
    assert_eq!(write_text(b"", &mut out), refused(25, 0));
    assert_eq!(write_text(&[0; 33], &mut out), refused(25, 0));
    assert_eq!(out, [0xEE; 31]);
    assert_eq!(write_text(b"", &mut []), refused(25, 0));

    // It is the field that a contact's name is written as.
    let contact = Contact {
        name: b"two words".to_vec(),
        info: ContactInfo::M17(Address::Broadcast),
    };
    let mut record = [0; 39];
    write_contact(&contact, &mut record).unwrap();
    assert_eq!(written(&contact.name).unwrap(), record[..32]);
}

#[test]
fn the_empty_codeplug() {
    let mut out = [0xEE; 90];
    assert_eq!(write_empty(&mut out), Ok(()));
    assert_eq!(out[..8], [0x52, 0x54, 0x58, 0x43, 0, 0, 0, 0]);
    assert_eq!(out[8..10], [1, 0]);
    assert_eq!(out[10..88], [0; 78]);
    assert_eq!(out[88..], [0xEE; 2]);
    assert_eq!(out[..88], empty_file());

    assert_eq!(validate(&out[..88]), counts(0, 0, 0));
    assert_eq!(validate(&out[..87]), refused(2, 86));
    assert_eq!(validate(&out[..89]), refused(12, 88));
    let header = by_both(|edition| codeplug::header(&out[..88], edition)).unwrap();
    assert!(header.author.is_empty() && header.description.is_empty());
    assert_eq!(header.timestamp, 0);

    let mut out = [0xEE; 88];
    assert_eq!(write_empty(&mut out), Ok(()));
    assert_eq!(out[..], empty_file());
    let mut out = [0xEE; 87];
    assert_eq!(write_empty(&mut out), refused(25, 0));
    assert_eq!(out, [0xEE; 87]);
    assert_eq!(write_empty(&mut []), refused(25, 0));
}

#[test]
fn entries_are_counted() {
    let count = |bytes: &[u8]| history::count(bytes);
    assert_eq!(count(&[]), Ok(0));
    assert_eq!(count(&[0x4A, 0x01, 0x01, 0x00]), Ok(1));
    assert_eq!(count(&[0x56, 0x26, 0x00]), Ok(1));
    assert_eq!(count(&[0x56, 0x26, 0x00, 0x4A, 0x01, 0x01, 0x00]), Ok(2));

    // 80 00 is not the shortest form of 0; 00 is, and makes a whole entry.
    assert_eq!(count(&[0x80, 0x00, 0x00, 0x00]), refused(31, 0));
    assert_eq!(count(&[0x00, 0x00, 0x00]), Ok(1));
    assert_eq!(count(&[0x80, 0x00]), refused(31, 0));
    // The second and the third number follow the same rule.
    assert_eq!(count(&[0x00, 0x80, 0x00, 0x00]), refused(31, 0));
    assert_eq!(count(&[0x00, 0x00, 0x80, 0x00]), refused(31, 0));
    assert_eq!(count(&[0x80, 0x01, 0x00, 0x00]), Ok(1));

    // Entries that are cut, and whole ones with something after them.
    assert_eq!(count(&[0x4A]), refused(31, 0));
    assert_eq!(count(&[0x4A, 0x01]), refused(31, 0));
    assert_eq!(count(&[0x4A, 0x01, 0x01]), refused(31, 0));
    assert_eq!(count(&[0x4A, 0x01, 0x02, 0x00]), refused(31, 0));
    assert_eq!(count(&[0x4A, 0x01, 0x01, 0x00, 0x00]), refused(31, 0));
    assert_eq!(count(&[0x00; 4]), refused(31, 0));
    assert_eq!(count(&[0x00; 6]), Ok(2));

    // A number is at most 1,048,576.
    assert_eq!(count(&[0x80, 0x80, 0x40, 0x00, 0x00]), Ok(1));
    assert_eq!(count(&[0x81, 0x80, 0x40, 0x00, 0x00]), refused(31, 0));
    let mut longest = vec![0x00, 0x00, 0x80, 0x80, 0x40];
    longest.extend(vec![0; LONGEST]);
    assert_eq!(count(&longest), Ok(1));
    assert_eq!(count(&longest[..longest.len() - 1]), refused(31, 0));
}
