//! What FILE.history holds: the library's history in batches, and which command made them.
//!
//! Lines of text, an empty line, then the library's bytes:
//!
//! ```text
//! codeplug history 1
//! size BYTES                          how many of the library's bytes it may hold
//! before SHA256                       of the codeplug before the oldest command
//! command SHA256 ENTRIES:BYTES ..     newest first: the codeplug after it, and its batches of edits, newest first
//! ```
//!
//! Every state of the codeplug is there by its digest, so a history tells which of its states a file is in, if any: what is newer does not
//! count. So both files need not be replaced at one moment.
use crate::sha256::{from_hex, hex, sha256, Digest};
use codeplug::{history_entries, Codeplug, Edition, FILE_MAX};

/// The size of a new history, in bytes.
const DEFAULT_SIZE: usize = 16 << 20;
/// The largest: it is held in memory.
pub const LARGEST_SIZE: usize = 64 << 20;
/// How many commands can be undone at the most.
const MOST_COMMANDS: usize = 10_000;

const TITLE: &str = "codeplug history 1";

/// Entries of the library's history, newest first. A command of many edits has several batches: the library reads the whole history that it
/// is given at each call.
pub struct Batch {
    pub entries: usize,
    pub bytes: Vec<u8>,
}

pub struct Command {
    pub after: Digest,
    /// Newest first.
    pub batches: Vec<Batch>,
}

pub struct History {
    pub size: usize,
    pub before: Digest,
    /// Newest first.
    pub commands: Vec<Command>,
}

impl Command {
    fn length(&self) -> usize {
        self.batches.iter().map(|batch| batch.bytes.len()).sum()
    }
}

impl History {
    pub fn new(file: &[u8]) -> History {
        History { size: DEFAULT_SIZE, before: sha256(file), commands: Vec::new() }
    }

    /// A stored history; none where it is not one.
    pub fn parse(stored: &[u8]) -> Option<History> {
        let end = stored.windows(2).position(|two| two == b"\n\n")?;
        let (head, mut bytes) = (std::str::from_utf8(&stored[..end]).ok()?, &stored[end + 2..]);
        let mut lines = head.split('\n');
        (lines.next()? == TITLE).then_some(())?;
        let size = lines.next()?.strip_prefix("size ")?.parse().ok().filter(|size| *size <= LARGEST_SIZE)?;
        let before = from_hex(lines.next()?.strip_prefix("before ")?)?;
        let commands: Vec<Command> = lines.map(|line| command(line, &mut bytes)).collect::<Option<_>>()?;
        (bytes.is_empty() && commands.len() <= MOST_COMMANDS).then_some(History { size, before, commands })
    }

    pub fn stored(&self) -> Vec<u8> {
        let batch = |batch: &Batch| format!(" {}:{}", batch.entries, batch.bytes.len());
        let line = |command: &Command| {
            let batches: String = command.batches.iter().map(batch).collect();
            format!("command {}{batches}\n", hex(&command.after))
        };
        let lines: String = self.commands.iter().map(line).collect();
        let mut stored = format!("{TITLE}\nsize {}\nbefore {}\n{lines}\n", self.size, hex(&self.before)).into_bytes();
        self.commands.iter().flat_map(|command| &command.batches).for_each(|batch| stored.extend(&batch.bytes));
        stored
    }

    /// The history of a file: commands that are newer than its state are left out. None where the file is in none of its states.
    pub fn of_file(mut self, file: &[u8]) -> Option<History> {
        let digest = sha256(file);
        let newer = match self.commands.iter().position(|command| command.after == digest) {
            Some(newer) => newer,
            None if self.before == digest => self.commands.len(),
            None => return None,
        };
        self.commands.drain(..newer);
        Some(self)
    }

    /// Undoes the nth command from the newest, in the file as it was after it. None where that does not give the state that is known here, or
    /// the edition refuses that.
    pub fn take_back(&self, file: &[u8], n: usize, edition: Edition) -> Option<Vec<u8>> {
        let mut file = file.to_vec();
        for batch in &self.commands[n].batches {
            let mut codeplug = Codeplug::restore(&file, &batch.bytes, FILE_MAX, 0, edition).ok()?;
            (0..batch.entries).all(|_| codeplug.undo().is_ok()).then_some(())?;
            file = codeplug.bytes().to_vec();
        }
        let before = self.commands.get(n + 1).map_or(self.before, |command| command.after);
        (sha256(&file) == before).then_some(file)
    }

    /// After a command, which fits the size.
    pub fn add(&mut self, command: Command) {
        self.commands.insert(0, command);
        self.keep();
    }

    /// After the newest commands were undone.
    pub fn forget(&mut self, count: usize) {
        self.commands.drain(..count);
        self.keep();
    }

    /// Keeps the newest commands that together fit the size.
    fn keep(&mut self) {
        let mut length = 0;
        let fits = |command: &&Command| {
            length += command.length();
            length <= self.size
        };
        let kept = self.commands.iter().take(MOST_COMMANDS).take_while(fits).count();
        if let Some(dropped) = self.commands.get(kept) {
            self.before = dropped.after;
        }
        self.commands.truncate(kept);
    }
}

/// A command by its line, and its batches' bytes from the front of those that are left.
fn command(line: &str, bytes: &mut &[u8]) -> Option<Command> {
    let mut words = line.strip_prefix("command ")?.split(' ');
    let after = from_hex(words.next()?)?;
    let batches: Vec<Batch> = words.map(|word| batch(word, bytes)).collect::<Option<_>>()?;
    (!batches.is_empty()).then_some(Command { after, batches })
}

/// A batch that the library takes for as many entries as are said.
fn batch(word: &str, bytes: &mut &[u8]) -> Option<Batch> {
    let (entries, length) = word.split_once(':')?;
    let (entries, length): (usize, usize) = (entries.parse().ok()?, length.parse().ok()?);
    let (own, rest) = bytes.split_at_checked(length)?;
    *bytes = rest;
    (entries > 0 && history_entries(own) == Ok(entries)).then(|| Batch { entries, bytes: own.to_vec() })
}
