//! Why a command was not done, and the exit status that says so.
use codeplug::Refused;
use std::io;

pub enum Fail {
    /// What was asked for makes no sense: one line.
    Usage(String),
    /// The library refused: what it refused, the refusal, and words that say which record and field it is about.
    Refused { about: String, refused: Refused, words: String },
    /// A file could not be read or written: one line.
    Io(String),
    /// Whoever read standard output has gone. Nothing is said.
    Closed,
    /// All is said already; only the status is left.
    Told(u8),
}

pub type Done = Result<(), Fail>;

pub fn usage<T>(text: impl Into<String>) -> Result<T, Fail> {
    Err(Fail::Usage(text.into()))
}

impl Fail {
    pub fn status(&self) -> u8 {
        match self {
            Fail::Refused { .. } => 1,
            Fail::Usage(_) | Fail::Io(_) | Fail::Closed => 2,
            Fail::Told(status) => *status,
        }
    }

    /// The line for standard error.
    pub fn line(&self, verb: &str) -> Option<String> {
        match self {
            Fail::Usage(text) => Some(format!("codeplug: {text} (see: codeplug help{}{verb})", if verb.is_empty() { "" } else { " " })),
            Fail::Refused { about, refused, words } => {
                Some(format!("codeplug: {about}: refused {} at {}: {words}", refused.number, refused.place))
            }
            Fail::Io(text) => Some(format!("codeplug: {text}")),
            Fail::Closed | Fail::Told(_) => None,
        }
    }
}

/// An error of the system in plain words.
pub fn io_words(error: &io::Error) -> String {
    use io::ErrorKind::*;
    match error.kind() {
        NotFound => "there is no such file".into(),
        PermissionDenied => "no permission".into(),
        IsADirectory => "is a directory".into(),
        NotADirectory => "a part of the path is no directory".into(),
        AlreadyExists => "is there already".into(),
        StorageFull => "the disk is full".into(),
        QuotaExceeded => "the disk's quota is used up".into(),
        FileTooLarge => "the file would be larger than the system allows".into(),
        ReadOnlyFilesystem => "the disk can only be read".into(),
        InvalidFilename => "the name is too long or holds what no name may hold".into(),
        _ => {
            let text = error.to_string();
            text.split(" (os error").next().unwrap_or(&text).to_lowercase()
        }
    }
}

/// That something could not be done to a path.
pub fn io_fail(path: &std::path::Path, error: &io::Error) -> Fail {
    Fail::Io(format!("{}: {}", path.display(), io_words(error)))
}
