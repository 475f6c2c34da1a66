//! What is printed: standard output without panics, and colours on a terminal alone.
use crate::fail::{io_words, Done, Fail};
use std::io::{self, IsTerminal, Write};

/// The colours that are used.
#[derive(Clone, Copy)]
pub enum Paint {
    Plain,
    Bold,
    Red,
    Green,
    Yellow,
}

/// Standard output, and whether it takes colours.
pub struct Out {
    to: io::BufWriter<io::StdoutLock<'static>>,
    colours: bool,
}

/// Colours are for a terminal that can show them, unless NO_COLOR is set (no-color.org).
fn colours(terminal: bool) -> bool {
    let set = |name: &str| std::env::var_os(name).is_some_and(|value| !value.is_empty());
    terminal && !set("NO_COLOR") && std::env::var_os("TERM").is_none_or(|term| term != "dumb")
}

fn painted(text: &str, paint: Paint, colours: bool) -> String {
    let code = match paint {
        Paint::Plain => return text.into(),
        _ if !colours => return text.into(),
        Paint::Bold => 1,
        Paint::Red => 31,
        Paint::Green => 32,
        Paint::Yellow => 33,
    };
    format!("\x1b[{code}m{text}\x1b[0m")
}

fn failed(error: io::Error) -> Fail {
    match error.kind() {
        io::ErrorKind::BrokenPipe => Fail::Closed,
        _ => Fail::Io(format!("standard output: {}", io_words(&error))),
    }
}

impl Out {
    pub fn new() -> Out {
        let to = io::stdout();
        Out { colours: colours(to.is_terminal()), to: io::BufWriter::new(to.lock()) }
    }

    pub fn line(&mut self, text: &str) -> Done {
        self.painted(text, Paint::Plain)
    }

    pub fn painted(&mut self, text: &str, paint: Paint) -> Done {
        let text = painted(text, paint, self.colours);
        writeln!(self.to, "{text}").map_err(failed)
    }

    /// A codeplug: bytes, which no terminal is to get.
    pub fn bytes(&mut self, bytes: &[u8]) -> Done {
        if io::stdout().is_terminal() {
            return Err(Fail::Io("standard output: a codeplug is not written to a terminal".into()));
        }
        self.to.write_all(bytes).map_err(failed)
    }

    pub fn flush(&mut self) -> Done {
        self.to.flush().map_err(failed)
    }
}

/// A line on standard error. Where that cannot be written, nothing more can be said.
pub fn say(text: &str) {
    let red = colours(io::stderr().is_terminal()) && text.starts_with("codeplug:");
    let _ = writeln!(io::stderr(), "{}", painted(&one_line(text), Paint::Red, red));
}

/// A text that may hold names from elsewhere, without what would break a line or move a terminal's cursor.
pub fn one_line(text: &str) -> String {
    text.chars().map(|c| if c.is_control() { c.escape_default().to_string() } else { c.to_string() }).collect()
}
