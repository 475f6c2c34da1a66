//! A codeplug and its history as they lie on a disk: read under a lock, and replaced together.
use crate::disk::{beside, open_locked, read_most, real_path, set_aside, unchanged, Folder, Lock, Prepared};
use crate::fail::{io_fail, io_words, Done, Fail};
use crate::history::{History, LARGEST_SIZE};
use crate::out::say;
use codeplug::FILE_MAX;
use std::ffi::OsStr;
use std::fs::{self, File, Metadata, OpenOptions};
use std::io;
use std::path::{Path, PathBuf};
use std::time::Duration;

const NOT_ITS_OWN: &str = "does not belong to the file any more, which something else changed";
const UNKNOWN: &str = "is damaged, goes back to a legacy codeplug, or is no history that this program knows";
const MIGRATED: &str = "does not belong to the file any more, which was migrated";

/// Where a codeplug lies. It stays locked as long as this is held.
pub struct Stored {
    path: PathBuf,
    opened: Metadata,
    locked: File,
    /// Whether there is a FILE.history.
    has_history: bool,
    /// Why it is not used.
    foreign: Option<&'static str>,
}

/// Which of the two files is renamed first. Whenever the program ends, the history has to have the state that the file is in: after an edit the
/// new history has the state before it too, after an undo only the old one has both.
#[derive(Clone, Copy, PartialEq)]
pub enum Order {
    HistoryFirst,
    CodeplugFirst,
}

impl Stored {
    /// Opens a file, and answers what it holds, and the history that belongs to it.
    pub fn open(name: &OsStr, lock: Lock, wait: Duration) -> Result<(Stored, Vec<u8>, History), Fail> {
        let path = real_path(name)?;
        let found = fs::metadata(&path).map_err(|e| io_fail(&path, &e))?;
        if !found.is_file() && !found.is_dir() {
            return Err(Fail::Io(format!("{}: is no regular file", path.display())));
        }
        let options = OpenOptions::new().read(true).write(lock == Lock::Alone).clone();
        let mut locked = open_locked(&options, &path, lock, wait)?;
        let opened = locked.metadata().map_err(|e| io_fail(&path, &e))?;
        let file = read_most(&mut locked, FILE_MAX + 1).map_err(|e| io_fail(&path, &e))?;
        let history = read_history(&beside(&path, ".history"))?;
        let has_history = history.is_some();
        let (history, foreign) = match history.map(|stored| History::parse(&stored)) {
            None => (None, None),
            Some(None) => (None, Some(UNKNOWN)),
            Some(Some(history)) => {
                // A new history has the size of the one that it takes the place of.
                let new = History { size: history.size, ..History::new(&file) };
                history.of_file(&file).map_or((Some(new), Some(NOT_ITS_OWN)), |history| (Some(history), None))
            }
        };
        let history = history.unwrap_or_else(|| History::new(&file));
        Ok((Stored { path, opened, locked, has_history, foreign }, file, history))
    }

    /// Whether there is a history that does not belong to the file.
    pub fn has_foreign_history(&self) -> bool {
        self.foreign.is_some()
    }

    /// Says of a history that it does not belong to the file.
    pub fn say_foreign(&self) {
        say(&self.history_line(self.foreign.unwrap_or(UNKNOWN)));
    }

    /// Says of a history that the migrated file would not have it.
    pub fn say_history_would_go(&self) {
        if self.has_history {
            say(&self.history_line("would be set aside, since a migrated file has no history"));
        }
    }

    fn history_line(&self, words: &str) -> String {
        format!("codeplug: {}: {words}", self.history_path().display())
    }

    fn history_path(&self) -> PathBuf {
        beside(&self.path, ".history")
    }

    /// Renames a history that does not belong to the file, and says so.
    pub fn set_history_aside(&self) -> Done {
        self.rename_history(UNKNOWN).map_err(|e| io_fail(&self.history_path(), &e))
    }

    /// The same; `why` is said of one that belonged to it until now.
    fn rename_history(&self, why: &str) -> io::Result<()> {
        let aside = set_aside(&self.history_path())?;
        say(&format!("{}; set aside as {}", self.history_line(self.foreign.unwrap_or(why)), aside.display()));
        Ok(())
    }

    /// Replaces both files. Until both are in place, they stay locked.
    pub fn replace(&self, codeplug: &[u8], history: &History, order: Order) -> Done {
        let folder = Folder::of(&self.path)?;
        let codeplug = Prepared::replacing(&self.path, codeplug, &self.locked)?;
        let history = Prepared::replacing(&self.history_path(), &history.stored(), &self.locked)?;
        self.is_as_opened()?;
        if self.has_foreign_history() {
            self.set_history_aside()?;
        }
        let codeplug_first = order == Order::CodeplugFirst;
        let (first, second) = if codeplug_first { (codeplug, history) } else { (history, codeplug) };
        let _first = first.rename().map_err(|e| self.failed(e, false))?;
        // The first is on the disk before the second.
        let _second = folder.sync().and_then(|()| second.rename()).map_err(|e| self.failed(e, codeplug_first))?;
        folder.sync().map_err(|e| self.failed(e, true))
    }

    /// Replaces a codeplug by the migrated one, which has no history. One that is there is set aside once the codeplug is in place, so that
    /// until then nothing is changed.
    pub fn replace_migrated(&self, codeplug: &[u8]) -> Done {
        let folder = Folder::of(&self.path)?;
        let codeplug = Prepared::replacing(&self.path, codeplug, &self.locked)?;
        self.is_as_opened()?;
        let _codeplug = codeplug.rename().map_err(|e| self.failed(e, false))?;
        folder.sync().map_err(|e| self.failed(e, true))?;
        if !self.has_history {
            return Ok(());
        }
        let kept = |e: io::Error| format!("{}: is saved, but its history could not be set aside: {}", self.path.display(), io_words(&e));
        self.rename_history(MIGRATED).map_err(|e| Fail::Io(kept(e)))?;
        folder.sync().map_err(|e| self.failed(e, true))
    }

    /// That nothing else has changed the file since it was opened.
    fn is_as_opened(&self) -> Done {
        if unchanged(&self.path, &self.opened) {
            return Ok(());
        }
        Err(Fail::Io(format!("{}: was changed by something else meanwhile; nothing is saved", self.path.display())))
    }

    /// What failed before or after the codeplug was replaced.
    fn failed(&self, error: io::Error, replaced: bool) -> Fail {
        if !replaced {
            return io_fail(&self.path, &error);
        }
        Fail::Io(format!("{}: is saved, but not surely on the disk: {}", self.path.display(), io_words(&error)))
    }
}

/// What a history's file holds; none where there is none. A file that is longer than any history is cut, and so none.
fn read_history(path: &Path) -> Result<Option<Vec<u8>>, Fail> {
    match fs::metadata(path) {
        Err(e) if e.kind() == io::ErrorKind::NotFound => return Ok(None),
        Ok(found) if !found.is_file() => return Err(Fail::Io(format!("{}: is no regular file", path.display()))),
        _ => {}
    }
    let read = File::open(path).and_then(|mut file| read_most(&mut file, 2 * LARGEST_SIZE));
    read.map(Some).map_err(|e| io_fail(path, &e))
}
