//! Random tests that compare parts of the crate with each other, by both
//! editions.

use obcf_second::address::{number_to_text, text_to_number};
use obcf_second::book::{Book, Call};
use obcf_second::codeplug::{bank, bank_entries, bank_entry, Codeplug};
use obcf_second::edit::{edit, undo, Answer, Edit};
use obcf_second::history;
use obcf_second::record::{Channel, Contact};
use obcf_second::sample::{self, Limits, Rng, Shape};
use obcf_second::{validate, Edition, Refusal};

const SHAPE: Shape = Shape {
    contacts: 4,
    channels: 4,
    banks: 3,
    entries: 4,
};

#[test]
fn random_files_are_valid() {
    let mut rng = Rng::new(11);
    for _ in 0..500 {
        let edition = rng.pick(&Edition::BOTH);
        let file = sample::file(&mut rng, SHAPE, edition);
        let counts = validate(&file, edition).expect("a valid file");
        let spans = sample::file_spans(&file);
        let last = spans.last().unwrap();
        assert_eq!(last.at + last.size, file.len());
        for n in 0..usize::from(counts.banks) {
            let head = bank(&file, n, edition).unwrap();
            let mut walk = bank_entries(&file, n, edition).unwrap();
            for place in 0..usize::from(head.entry_count) {
                assert_eq!(walk.read_next(), bank_entry(&file, n, place, edition));
            }
            assert_eq!(
                walk.read_next(),
                Err(Refusal {
                    number: 33,
                    place: 0
                })
            );
        }
        assert_eq!(bank(&file, usize::MAX, edition).unwrap_err().number, 33);
    }
}

#[test]
fn records_read_back_as_written() {
    let mut rng = Rng::new(12);
    for _ in 0..2_000 {
        let edition = rng.pick(&Edition::BOTH);
        let contact = sample::contact(&mut rng, edition);
        let record = sample::contact_bytes(&contact, edition);
        assert_eq!(Contact::read(&record, edition), Ok(contact));
        let channel = sample::channel(&mut rng, sample::any_contact);
        assert_eq!(Channel::read(&sample::channel_bytes(&channel)), Ok(channel));
    }
}

/// A record that is read without refusal is written back as the same bytes.
#[test]
fn records_write_back_as_read() {
    let mut rng = Rng::new(13);
    let limits = Limits {
        contacts: 3,
        channels: 3,
    };
    for _ in 0..5_000 {
        let edition = rng.pick(&Edition::BOTH);
        let contact = sample::contact(&mut rng, edition);
        let mut record = sample::contact_bytes(&contact, edition);
        let span = rng.pick(&sample::contact_spans(&record));
        sample::spoil(&mut rng, &mut record, span, limits);
        if let Ok(contact) = Contact::read(&record, edition) {
            assert_eq!(sample::contact_bytes(&contact, edition), record);
        }
        let channel = sample::channel(&mut rng, sample::any_contact);
        let mut record = sample::channel_bytes(&channel);
        let span = rng.pick(&sample::channel_spans(&record));
        sample::spoil(&mut rng, &mut record, span, limits);
        if let Ok(channel) = Channel::read(&record) {
            assert_eq!(sample::channel_bytes(&channel), record);
        }
    }
}

#[test]
fn callsigns_round_trip() {
    let mut rng = Rng::new(14);
    for _ in 0..5_000 {
        let edition = rng.pick(&Edition::BOTH);
        let number = sample::callsign_number(&mut rng, edition);
        let mut buffer = [0xEE; 9];
        number_to_text(number, &mut buffer, edition).unwrap();
        let length = buffer.iter().position(|&b| b == 0).unwrap_or(9);
        assert_eq!(text_to_number(&buffer[..length], edition), Ok(number));
    }
}

/// A call that makes sense for this file, more often than not.
fn random_call(rng: &mut Rng, file: &[u8], edition: Edition) -> Call {
    if rng.one_in(4) {
        return Call::Undo;
    }
    let codeplug = Codeplug::read(file, edition).unwrap();
    let kind = if rng.one_in(40) {
        rng.pick(&[0, 13, u64::MAX])
    } else {
        1 + rng.below(12) as u64
    };
    let count = match kind {
        1..=3 => codeplug.contacts.len(),
        4..=6 => codeplug.channels.len(),
        7..=11 => codeplug.banks.len(),
        _ => 0,
    };
    let mut first = place(rng, count);
    let mut second = 0;
    if matches!(kind, 10 | 11) {
        second = place(
            rng,
            codeplug
                .banks
                .get(first)
                .map_or(0, |bank| bank.entries.len()),
        );
    }
    if rng.one_in(30) {
        second = rng.pick(&[1, usize::MAX]);
    }
    if rng.one_in(30) {
        first = usize::MAX;
    }
    let limits = Limits::of_file(file);
    let mut record = match kind {
        // By the older edition a hash address is 8.
        1 | 3 => sample::contact_bytes(&sample::contact(rng, Edition::Newer), Edition::Newer),
        4 | 6 => {
            let modes: Vec<_> = codeplug.contacts.iter().map(|c| c.info.mode()).collect();
            let choose = |rng: &mut Rng, mode| sample::contact_of_mode(rng, &modes, mode);
            sample::channel_bytes(&sample::channel(rng, choose))
        }
        7 | 9 => sample::padded_text(rng),
        10 => (rng.below(codeplug.channels.len() + 1) as u16)
            .to_le_bytes()
            .to_vec(),
        12 => file[10..82].to_vec(),
        _ => Vec::new(),
    };
    match kind {
        12 if rng.flag() => record[64] ^= 1,
        12 if rng.flag() => record[..32].copy_from_slice(&sample::padded_text(rng)),
        _ => {}
    }
    if rng.one_in(12) {
        let spans = match kind {
            1 | 3 => sample::contact_spans(&record),
            4 | 6 => sample::channel_spans(&record),
            _ => Vec::new(),
        };
        if spans.is_empty() {
            record.iter_mut().take(1).for_each(|byte| *byte = 0x1F);
        } else {
            let span = rng.pick(&spans);
            sample::spoil(rng, &mut record, span, limits);
        }
    }
    if rng.one_in(30) {
        record.push(0);
    } else if rng.one_in(30) {
        record.pop();
    }
    Call::Edit(Edit {
        kind,
        first,
        second,
        record,
    })
}

fn place(rng: &mut Rng, count: usize) -> usize {
    rng.pick(&[0, count.saturating_sub(1), count])
        .min(rng.below(count + 3))
}

/// What a buffer holds after `new` has taken the place of its first
/// `old_length` bytes.
fn expected_buffer(buffer: &[u8], old_length: usize, new: &[u8]) -> Vec<u8> {
    let mut expected = buffer.to_vec();
    expected[..old_length].fill(0);
    expected[..new.len()].copy_from_slice(new);
    expected
}

struct Machine {
    room: Vec<u8>,
    length: usize,
    history: Vec<u8>,
    history_length: usize,
    edition: Edition,
}

impl Machine {
    fn file(&self) -> &[u8] {
        &self.room[..self.length]
    }

    fn call(&mut self, call: &Call) -> Result<Answer, Refusal> {
        let answer = match call {
            Call::Edit(what) => edit(
                &mut self.room,
                self.length,
                &mut self.history,
                self.history_length,
                what,
                self.edition,
            ),
            Call::Undo => undo(
                &mut self.room,
                self.length,
                &mut self.history,
                self.history_length,
                self.edition,
            ),
        }?;
        self.length = answer.length;
        self.history_length = answer.history_length;
        Ok(answer)
    }
}

/// A random list of calls, each made for the file that the ones before it leave
/// in ample buffers, with the lengths of the longest file and history on the
/// way.
fn random_calls(rng: &mut Rng, opening: &[u8], edition: Edition) -> (Vec<Call>, usize, usize) {
    let mut machine = Machine {
        room: opening.to_vec(),
        length: opening.len(),
        history: vec![0; 20_000],
        history_length: 0,
        edition,
    };
    machine.room.resize(opening.len() + 4_000, 0);
    let (mut longest_file, mut longest_history) = (machine.length, 0);
    let calls = (0..rng.below(16))
        .map(|_| {
            let call = random_call(rng, machine.file(), edition);
            let _ = machine.call(&call);
            longest_file = longest_file.max(machine.length);
            longest_history = longest_history.max(machine.history_length);
            call
        })
        .collect();
    (calls, longest_file, longest_history)
}

/// Makes the calls on a machine with an empty history and in a book, and
/// compares every answer and all that is lent. Counts the refusals by number,
/// and acceptance as 0.
fn compare(mut machine: Machine, calls: &[Call], seen: &mut [u32; 40]) {
    let mut book = Book::open(
        machine.file().to_vec(),
        machine.room.len(),
        machine.history.len(),
        machine.edition,
    );
    for call in calls {
        let (room, history) = (machine.room.clone(), machine.history.clone());
        let (length, history_length) = (machine.length, machine.history_length);
        let answer = machine.call(call);
        assert_eq!(answer, book.call(call), "{call:?}");
        match answer {
            Ok(answer) => {
                seen[0] += 1;
                let now = &machine.history[..answer.history_length];
                assert_eq!(history::count(now), Ok(answer.entries));
                assert_eq!(machine.room, expected_buffer(&room, length, &book.file()));
                assert_eq!(
                    machine.history,
                    expected_buffer(&history, history_length, now)
                );
            }
            Err(refusal) => {
                seen[usize::from(refusal.number)] += 1;
                assert!(machine.room == room && machine.history == history);
            }
        }
        assert_eq!(machine.file(), book.file());
    }
}

#[test]
fn the_book_agrees_with_the_machine() {
    let mut rng = Rng::new(15);
    let mut seen = [0; 40];
    for _ in 0..1_000 {
        let edition = rng.pick(&Edition::BOTH);
        let opening = sample::file(&mut rng, SHAPE, edition);
        let (calls, longest_file, longest_history) = random_calls(&mut rng, &opening, edition);
        let exact = longest_file - opening.len();
        // Ample, exact, one byte short, tiny.
        let sizes = [
            (exact + 50, longest_history + 50),
            (exact, longest_history),
            (exact + 50, longest_history.saturating_sub(1)),
            (exact.saturating_sub(1), longest_history + 50),
            (rng.below(3), rng.below(60)),
            (exact + 50, rng.below(12)),
        ];
        for (spare, history) in sizes {
            let machine = Machine {
                room: [opening.clone(), rng.bytes(spare)].concat(),
                length: opening.len(),
                history: rng.bytes(history),
                history_length: 0,
                edition,
            };
            compare(machine, &calls, &mut seen);
        }
    }
    // 34 would need a full bank, and 39 a history that no edit writes.
    for number in [0, 5, 6, 7, 8, 9, 11, 32, 33, 35, 36, 37, 38] {
        assert!(seen[number] > 20, "answer {number} is too rare: {seen:?}");
    }
}

/// Undoing every edit gives the opening file and an empty history.
#[test]
fn undo_takes_edits_back() {
    let mut rng = Rng::new(16);
    for _ in 0..300 {
        let edition = rng.pick(&Edition::BOTH);
        let opening = sample::file(&mut rng, SHAPE, edition);
        let mut room = opening.clone();
        room.resize(10_000, 0);
        let mut machine = Machine {
            length: opening.len(),
            history: vec![0; 20_000],
            history_length: 0,
            room,
            edition,
        };
        let mut files = vec![opening];
        for _ in 0..12 {
            let call = random_call(&mut rng, machine.file(), edition);
            if call != Call::Undo && machine.call(&call).is_ok() {
                files.push(machine.file().to_vec());
            }
        }
        while let Some(file) = files.pop() {
            assert_eq!(machine.file(), file);
            match machine.call(&Call::Undo) {
                Ok(answer) => assert_eq!(answer.entries + 1, files.len()),
                Err(refusal) => assert_eq!((refusal.number, files.len()), (38, 0)),
            }
        }
        assert_eq!(machine.history_length, 0);
        assert!(machine.room[machine.length..].iter().all(|&byte| byte == 0));
        assert!(machine.history.iter().all(|&byte| byte == 0));
    }
}
