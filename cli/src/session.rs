//! A codeplug that is open for a command: its edits are made in memory, by the library, and saved together.
use crate::args::Args;
use crate::diff::{changes, print};
use crate::disk::{read_codeplug, Lock};
use crate::edition;
use crate::edits::Edit;
use crate::fail::{usage, Done, Fail};
use crate::history::{Batch, Command, History, LARGEST_SIZE};
use crate::out::{say, Out};
use crate::reading::{shown, Reading, HASH_BEFORE};
use crate::records::Records;
use crate::sha256::sha256;
use crate::stored::{Order, Stored};
use codeplug::{Codeplug, Edition, Refused, FILE_MAX};
use std::ffi::OsStr;
use std::time::Duration;

/// The options of the verbs that edit a file, with a value and without.
pub const VALUES: [&str; 2] = ["history-size", "wait"];
pub const FLAGS: [&str; 2] = ["dry-run", "verbose"];

pub struct Options {
    pub dry_run: bool,
    pub verbose: bool,
    pub edition: Edition,
    history_size: Option<usize>,
    wait: Duration,
}

impl Options {
    pub fn of(args: &mut Args) -> Result<Options, Fail> {
        Ok(Options {
            dry_run: args.flag("dry-run"),
            verbose: args.flag("verbose"),
            edition: edition::of(args)?,
            history_size: args.number("history-size", LARGEST_SIZE)?,
            wait: wait_of(args)?,
        })
    }
}

/// Refusals of a command, as the library has them of an edit and an undo.
const TOO_SMALL: Refused = Refused { number: 37, place: 0 };
const NO_UNDO: Refused = Refused { number: 38, place: 0 };
const NOT_UNDONE: Refused = Refused { number: 39, place: 0 };
const HISTORY_TOO_SMALL: &str = "what undo needs of this command does not fit the history (--history-size)";

/// How long to wait for another codeplug.
fn wait_of(args: &mut Args) -> Result<Duration, Fail> {
    Ok(Duration::from_secs(args.number("wait", 86_400)?.unwrap_or(10) as u64))
}

/// What a file or standard input holds, where the file lies, and the history that belongs to it. Who only tries a change does not need to be
/// alone.
pub fn read(name: &OsStr, options: &Options) -> Result<(Option<Stored>, Vec<u8>, History), Fail> {
    if name == "-" {
        let file = read_codeplug(name)?;
        let history = History::new(&file);
        return Ok((None, file, history));
    }
    let lock = if options.dry_run { Lock::Shared } else { Lock::Alone };
    let (stored, file, history) = Stored::open(name, lock, options.wait)?;
    Ok((Some(stored), file, history))
}

/// How many edits of a command the library has in its history at once.
const BATCH: usize = 256;

pub struct Session {
    /// The file as the user named it.
    name: String,
    /// None for standard input and output.
    stored: Option<Stored>,
    options: Options,
    history: History,
    /// With a history of the command's last edits alone.
    codeplug: Codeplug,
    /// How many bytes that history can hold, and how many edits it should.
    width: usize,
    last: usize,
    /// The command's earlier edits, newest first.
    batches: Vec<Batch>,
    /// As it was opened.
    file: Vec<u8>,
    pub records: Records,
}

impl Session {
    pub fn open(name: &OsStr, options: Options) -> Result<Session, Fail> {
        let (stored, file, mut history) = read(name, &options)?;
        let edition = options.edition;
        let refused = |refused: Refused| Reading::New.refused(name, &file, edition, refused);
        let records = Records::of(&file, edition).map_err(refused)?;
        let codeplug = Codeplug::open(&file, FILE_MAX, 0, edition).map_err(refused)?;
        if stored.is_some() {
            history.size = options.history_size.unwrap_or(history.size);
        }
        let (name, batches) = (shown(name), Vec::new());
        Ok(Session { name, stored, options, history, codeplug, width: 0, last: 0, batches, file, records })
    }

    pub fn codeplug(&self) -> &Codeplug {
        &self.codeplug
    }

    /// A refusal of the command.
    pub fn refused(&self, refused: Refused, words: impl Into<String>) -> Fail {
        Fail::Refused { about: self.name.clone(), refused, words: words.into() }
    }

    /// Makes an edit. Where it is refused the command ends, and nothing is saved.
    pub fn make(&mut self, edit: &Edit) -> Done {
        self.make_room()?;
        edit.make(&mut self.codeplug).map_err(|refused| {
            let (refused, words) = edit.refusal(refused, &self.codeplug);
            self.refused(refused, words)
        })?;
        self.last += 1;
        let earlier: usize = self.batches.iter().map(|batch| batch.bytes.len()).sum();
        let fits = self.codeplug.undoable() == self.last && earlier + self.codeplug.history().len() <= self.history.size;
        if self.stored.is_some() && !fits {
            return Err(self.refused(TOO_SMALL, HISTORY_TOO_SMALL));
        }
        Ok(())
    }

    /// Lays the last edits by where the library has many, or no room for one more: an entry has at most the codeplug's bytes and 9 more. There
    /// is never more room than the history's size, so that the library refuses what is larger.
    fn make_room(&mut self) -> Done {
        let needed = self.codeplug.history().len() + self.codeplug.bytes().len() + 9;
        if self.last < BATCH && (needed <= self.width || self.width >= self.history.size) {
            return Ok(());
        }
        self.lay_by();
        self.width = (self.codeplug.bytes().len() + 9 + 65_536).min(self.history.size);
        let emptied = Codeplug::open(self.codeplug.bytes(), FILE_MAX, self.width, self.options.edition);
        self.codeplug = emptied.map_err(|refused| self.refused(refused, refused.text()))?;
        Ok(())
    }

    fn lay_by(&mut self) {
        let bytes = self.codeplug.history().to_vec();
        if self.last > 0 && self.stored.is_some() {
            self.batches.insert(0, Batch { entries: self.last, bytes });
        }
        self.last = 0;
    }

    /// Saves what was made.
    pub fn save(mut self, out: &mut Out) -> Done {
        let changed = self.codeplug.bytes() != self.file;
        self.lay_by();
        if self.stored.is_some() && changed {
            self.history.add(Command { after: sha256(self.codeplug.bytes()), batches: std::mem::take(&mut self.batches) });
        }
        let file = self.codeplug.bytes();
        if self.options.dry_run {
            return print(&self.changes(file)?, "", out);
        }
        match &self.stored {
            None => out.bytes(file)?,
            Some(stored) if changed => stored.replace(file, &self.history, Order::HistoryFirst)?,
            Some(_) => {}
        }
        self.tell(file)
    }

    /// Takes the last commands back, and saves.
    pub fn undo(mut self, count: usize, out: &mut Out) -> Done {
        let Some(stored) = &self.stored else { return Err(self.refused(NO_UNDO, NO_UNDO.text())) };
        let there = self.history.commands.len();
        let undone = self.taken_back(count, self.options.edition);
        if undone.is_none() && self.taken_back(count, Edition::Newer).is_some() {
            return Err(self.refused(NOT_UNDONE, HASH_BEFORE));
        }
        let (false, Some(file)) = (stored.has_foreign_history(), undone) else {
            if self.options.dry_run {
                stored.say_foreign();
            } else {
                stored.set_history_aside()?;
            }
            return Err(self.refused(NO_UNDO, NO_UNDO.text()));
        };
        match there {
            0 => return Err(self.refused(NO_UNDO, NO_UNDO.text())),
            _ if there < count => return Err(self.refused(NO_UNDO, format!("of {count} commands only {there} can be undone"))),
            _ if self.options.dry_run => return print(&self.changes(&file)?, "", out),
            _ => self.history.forget(count),
        }
        stored.replace(&file, &self.history, Order::CodeplugFirst)?;
        self.tell(&file)
    }

    /// The file before its last commands, as many as there are; none where an edition refuses to go there, or the history is damaged.
    fn taken_back(&self, count: usize, edition: Edition) -> Option<Vec<u8>> {
        let there = self.history.commands.len();
        (0..count.min(there)).try_fold(self.file.clone(), |file, n| self.history.take_back(&file, n, edition))
    }

    /// What a file differs in from the one that was opened.
    fn changes(&self, file: &[u8]) -> Result<Vec<String>, Fail> {
        let now = Records::of(file, self.options.edition).map_err(|refused| self.refused(refused, refused.text()))?;
        Ok(changes(&self.records, &now))
    }

    /// Says what was changed, where it is asked for.
    fn tell(&self, file: &[u8]) -> Done {
        if self.options.verbose {
            self.changes(file)?.iter().for_each(|line| say(line));
        }
        Ok(())
    }
}

/// Lists what can be undone, newest first.
pub fn history(mut args: Args, out: &mut Out) -> Done {
    let most = args.number("count", usize::MAX)?.unwrap_or(usize::MAX);
    let (wait, edition) = (wait_of(&mut args)?, edition::of(&mut args)?);
    let name = args.next("FILE")?;
    args.end("history")?;
    if name == "-" {
        return usage("there is no history of standard input");
    }
    let (stored, file, history) = Stored::open(&name, Lock::Shared, wait)?;
    let refused = |refused: Refused| Reading::New.refused(&name, &file, edition, refused);
    let mut newer = Records::of(&file, edition).map_err(refused)?;
    if stored.has_foreign_history() {
        stored.say_foreign();
    }
    // All is read: nobody has to wait while it is shown.
    drop(stored);
    let mut state = file.clone();
    for n in 0..history.commands.len().min(most) {
        let Some(before) = history.take_back(&state, n, edition) else {
            return Err(not_listed(&name, history.take_back(&state, n, Edition::Newer).is_some()));
        };
        let older = Records::of(&before, edition).map_err(refused)?;
        out.line(&(n + 1).to_string())?;
        print(&changes(&older, &newer), "  ", out)?;
        (newer, state) = (older, before);
    }
    Ok(())
}

/// Why a history is listed no further: the newer edition would, or nothing does.
fn not_listed(name: &OsStr, by_newer: bool) -> Fail {
    if by_newer {
        return Fail::Refused { about: shown(name), refused: NOT_UNDONE, words: HASH_BEFORE.into() };
    }
    let words = "its history is damaged, or goes back to a legacy codeplug, and what follows cannot be undone";
    Fail::Io(format!("{}: {words}", shown(name)))
}
