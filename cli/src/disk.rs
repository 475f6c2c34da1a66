//! Files as they lie on a disk: read with a limit, locked, and replaced as a whole.
use crate::attributes;
use crate::fail::{io_fail, io_words, Done, Fail};
use codeplug::FILE_MAX;
use std::ffi::{OsStr, OsString};
use std::fs::{self, File, Metadata, OpenOptions, TryLockError};
use std::io::{self, Read, Write};
use std::os::unix::fs::{fchown, MetadataExt, OpenOptionsExt, PermissionsExt};
use std::path::{Path, PathBuf};
use std::time::{Duration, Instant};

/// What a new file's name has behind that of the one that it replaces, until it does.
const NEW: &str = ".codeplug-new";
/// How long to wait for another program that makes the same file.
const WAIT: Duration = Duration::from_secs(10);

/// Bytes of a codeplug: of a longer file one byte more than a codeplug may have, which the library refuses.
pub fn read_codeplug(name: &OsStr) -> Result<Vec<u8>, Fail> {
    if name == "-" {
        return read_most(&mut io::stdin().lock(), FILE_MAX + 1).map_err(|e| Fail::Io(format!("standard input: {}", io_words(&e))));
    }
    let path = Path::new(name);
    let mut file = File::open(path).map_err(|e| io_fail(path, &e))?;
    read_most(&mut file, FILE_MAX + 1).map_err(|e| io_fail(path, &e))
}

pub fn read_most(from: &mut impl Read, most: usize) -> io::Result<Vec<u8>> {
    let mut bytes = Vec::new();
    from.take(most as u64).read_to_end(&mut bytes)?;
    Ok(bytes)
}

/// A path with more behind its name: FILE.history of FILE.
pub fn beside(path: &Path, end: &str) -> PathBuf {
    let mut name = OsString::from(path);
    name.push(end);
    PathBuf::from(name)
}

/// Whether a file is as it was when it was opened: the same one, of the same time.
pub fn unchanged(path: &Path, before: &Metadata) -> bool {
    let now = |now: Metadata| (now.dev(), now.ino(), now.len(), now.mtime(), now.mtime_nsec());
    let then = (before.dev(), before.ino(), before.len(), before.mtime(), before.mtime_nsec());
    fs::metadata(path).is_ok_and(|found| now(found) == then)
}

/// A file's own path: where it leads, if it is a link.
pub fn real_path(name: &OsStr) -> Result<PathBuf, Fail> {
    let path = Path::new(name);
    match fs::symlink_metadata(path).map_err(|e| io_fail(path, &e))?.is_symlink() {
        true if !path.exists() => Err(Fail::Io(format!("{}: there is no such file, only a link that leads nowhere", path.display()))),
        true => fs::canonicalize(path).map_err(|e| io_fail(path, &e)),
        false => Ok(path.into()),
    }
}

fn same_file(file: &File, path: &Path) -> io::Result<bool> {
    let own = file.metadata()?;
    match fs::metadata(path) {
        Ok(found) => Ok((own.dev(), own.ino()) == (found.dev(), found.ino())),
        Err(e) if e.kind() == io::ErrorKind::NotFound => Ok(false),
        Err(e) => Err(e),
    }
}

/// For whoever changes a file, or only reads it with its history.
#[derive(Clone, Copy, PartialEq)]
pub enum Lock {
    Alone,
    Shared,
}

/// Opens a file and locks it against other codeplugs, waiting for them as long as told. While one waits, another may put a new file in the
/// place of the one that it has; then the new one is opened.
pub fn open_locked(options: &OpenOptions, path: &Path, lock: Lock, wait: Duration) -> Result<File, Fail> {
    let end = Instant::now() + wait;
    loop {
        let file = options.open(path).map_err(|e| io_fail(path, &e))?;
        let locked = if lock == Lock::Alone { file.try_lock() } else { file.try_lock_shared() };
        match locked {
            Ok(()) if same_file(&file, path).map_err(|e| io_fail(path, &e))? => return Ok(file),
            Ok(()) => {}
            Err(TryLockError::Error(e)) => return Err(io_fail(path, &e)),
            Err(TryLockError::WouldBlock) if Instant::now() >= end => {
                return Err(Fail::Io(format!("{}: another codeplug is changing it; try again", path.display())));
            }
            Err(TryLockError::WouldBlock) => std::thread::sleep(Duration::from_millis(20)),
        }
    }
}

/// A file written beside the one that it is to replace. Removed again, unless it was renamed.
pub struct Prepared {
    at: PathBuf,
    path: PathBuf,
    file: File,
    /// Whether what is at `at` is this file: it is locked there, and who knows of the lock leaves it.
    own: bool,
}

impl Prepared {
    /// Writes and syncs the new FILE, which the caller has locked, beside it, with the owner, permissions and attributes of `like`.
    pub fn replacing(path: &Path, bytes: &[u8], like: &File) -> Result<Prepared, Fail> {
        // Left by a program that was interrupted. It may be another name of FILE, so it is not written to.
        let left = |at: &Path| fs::remove_file(at).map_err(|e| io_fail(at, &e));
        let mut prepared = Prepared::open(path, 0o600, left)?;
        prepared
            .take_after(like)
            .map_err(|e| Fail::Io(format!("{}: its owner and permissions cannot be kept: {}", path.display(), io_words(&e))))?;
        prepared.fill(bytes).map_err(|e| io_fail(path, &e))?;
        Ok(prepared)
    }

    /// The same for a FILE that is not there yet, and that another program may be making too.
    pub fn creating(path: &Path, bytes: &[u8]) -> Result<Prepared, Fail> {
        let mut prepared = Prepared::open(path, 0o666, remove_unlocked)?;
        prepared.fill(bytes).map_err(|e| io_fail(path, &e))?;
        Ok(prepared)
    }

    /// Makes the file, after removing by `left` what is in its place. It is locked before it takes FILE's place, so that whoever opens it
    /// there waits.
    fn open(path: &Path, mode: u32, left: impl Fn(&Path) -> Done) -> Result<Prepared, Fail> {
        let at = beside(path, NEW);
        let failed = |e: io::Error| Fail::Io(format!("{}: no new file can be made beside it: {}", path.display(), io_words(&e)));
        for _ in 0..100 {
            match OpenOptions::new().write(true).create_new(true).mode(mode).open(&at) {
                Err(e) if e.kind() == io::ErrorKind::AlreadyExists => left(&at)?,
                Err(e) => return Err(failed(e)),
                Ok(file) => {
                    let mut prepared = Prepared { at: at.clone(), path: path.into(), file, own: false };
                    prepared.lock().map_err(failed)?;
                    if prepared.own {
                        return Ok(prepared);
                    }
                }
            }
        }
        Err(Fail::Io(format!("{}: something else is writing it", at.display())))
    }

    /// Locks it, unless somebody took it for left.
    fn lock(&mut self) -> io::Result<()> {
        self.own = match self.file.try_lock() {
            Ok(()) => same_file(&self.file, &self.at)?,
            Err(TryLockError::WouldBlock) => false,
            Err(TryLockError::Error(e)) => return Err(e),
        };
        Ok(())
    }

    fn take_after(&mut self, like: &File) -> io::Result<()> {
        let (own, other) = (self.file.metadata()?, like.metadata()?);
        if (own.uid(), own.gid()) != (other.uid(), other.gid()) {
            fchown(&self.file, Some(other.uid()), Some(other.gid()))?;
        }
        attributes::copy(like, &self.file)?;
        self.file.set_permissions(fs::Permissions::from_mode(other.mode() & 0o7777))
    }

    fn fill(&mut self, bytes: &[u8]) -> io::Result<()> {
        self.file.write_all(bytes)?;
        self.file.sync_all()
    }

    /// Puts it in FILE's place. It stays locked as long as it is held.
    pub fn rename(mut self) -> io::Result<Prepared> {
        fs::rename(&self.at, &self.path)?;
        self.own = false;
        Ok(self)
    }

    /// Makes it FILE, where there is none.
    pub fn create(self) -> Done {
        let path = self.path.clone();
        let made = match fs::hard_link(&self.at, &self.path) {
            // A file system without links.
            Err(e) if e.kind() != io::ErrorKind::AlreadyExists && !self.path.exists() => self.rename().map(|_| ()),
            other => other,
        };
        made.map_err(|e| io_fail(&path, &e))
    }
}

/// Removes a new file that nobody is writing any more: who does so has it locked. Gone meanwhile is as well.
fn remove_unlocked(at: &Path) -> Done {
    let link = fs::symlink_metadata(at).is_ok_and(|found| found.is_symlink());
    let locked = if link { None } else { Some(open_locked(OpenOptions::new().read(true), at, Lock::Alone, WAIT)) };
    match (locked, at.exists()) {
        (Some(Err(_)), false) => Ok(()),
        (Some(Err(fail)), true) => Err(fail),
        _ => fs::remove_file(at).map_err(|e| io_fail(at, &e)),
    }
}

impl Drop for Prepared {
    fn drop(&mut self) {
        if self.own {
            let _ = fs::remove_file(&self.at);
        }
    }
}

/// A file's folder, whose names can be written to the disk.
pub struct Folder(Option<File>);

impl Folder {
    /// Opened before anything is renamed, so that nothing fails for it afterwards. Where it may not be read, it cannot be synced.
    pub fn of(path: &Path) -> Result<Folder, Fail> {
        let folder = path.parent().filter(|p| !p.as_os_str().is_empty()).unwrap_or(Path::new("."));
        match File::open(folder) {
            Ok(file) => Ok(Folder(Some(file))),
            Err(e) if e.kind() == io::ErrorKind::PermissionDenied => Ok(Folder(None)),
            Err(e) => Err(io_fail(folder, &e)),
        }
    }

    pub fn sync(&self) -> io::Result<()> {
        match self.0.as_ref().map_or(Ok(()), File::sync_all) {
            // Not every file system can.
            Err(e) if matches!(e.kind(), io::ErrorKind::Unsupported | io::ErrorKind::InvalidInput) => Ok(()),
            other => other,
        }
    }
}

/// Renames a file to one beside it that is not there yet, and tells which.
pub fn set_aside(path: &Path) -> io::Result<PathBuf> {
    let free = |end: &String| fs::symlink_metadata(beside(path, end)).is_err();
    let ends = std::iter::once(".aside".to_string()).chain((2..).map(|n| format!(".aside-{n}")));
    let aside = beside(path, &ends.into_iter().find(free).expect("there are numbers enough"));
    fs::rename(path, &aside)?;
    Ok(aside)
}
