//! Why a command did not do what it was asked, in words and as an exit status.

use std::fmt;
use std::io;
use std::path::Path;

use spritbobbin::Refusal;

use crate::report::shown;

/// A command's answer where it was not carried out.
#[derive(Debug)]
pub enum Failure {
    /// Refused with a number of the table: exit status 1.
    Refused { number: u64, text: String },
    /// A wrong call, such as one file named twice: exit status 2.
    Call(String),
    /// A file could not be read or written: exit status 3.
    File(String),
    /// The two engines differ, which no proved build does: exit status 1.
    Differ(String),
    /// Whoever reads what is printed has gone: exit status 0, and nothing is said.
    Unheard,
}

/// What could not be done with a file.
#[derive(Clone, Copy, Debug, PartialEq, Eq)]
pub enum Cannot {
    Open,
    Read,
    Write,
}

impl Failure {
    /// A refusal of this number; the text says the file, the place and what to do.
    pub fn refused(number: u64, text: impl Into<String>) -> Failure {
        Failure::Refused { number, text: text.into() }
    }

    /// A file that could not be opened, read or written, and the system's reason.
    pub fn file(name: &Path, cannot: Cannot, why: &io::Error) -> Failure {
        let done = match cannot {
            Cannot::Open => "opened",
            Cannot::Read => "read",
            Cannot::Write => "written",
        };
        Failure::File(format!("{} cannot be {done}: {}.", shown(name), reason(why)))
    }

    /// An output that could not be written to its end: nothing is kept.
    pub fn not_whole(name: &Path, why: &io::Error) -> Failure {
        Failure::File(format!(
            "{} cannot be written whole, and nothing is kept: {}; make room on its disk, and call \
             again.",
            shown(name),
            reason(why)
        ))
    }

    /// The exit status.
    pub fn status(&self) -> u8 {
        match self {
            Failure::Refused { .. } | Failure::Differ(_) => 1,
            Failure::Call(_) => 2,
            Failure::File(_) => 3,
            Failure::Unheard => 0,
        }
    }
}

/// A refusal of the library that no command foresees: what it says, by its number.
impl From<Refusal> for Failure {
    fn from(refusal: Refusal) -> Failure {
        Failure::refused(refusal.number(), format!("{refusal}."))
    }
}

impl fmt::Display for Failure {
    fn fmt(&self, out: &mut fmt::Formatter<'_>) -> fmt::Result {
        match self {
            Failure::Refused { number, text } => write!(out, "refused {number}: {text}"),
            Failure::Call(text) => write!(out, "wrong call: {text}"),
            Failure::File(text) | Failure::Differ(text) => write!(out, "failed: {text}"),
            Failure::Unheard => Ok(()),
        }
    }
}

/// The system's reason without its number.
fn reason(why: &io::Error) -> String {
    let text = why.to_string();
    match text.find(" (os error ") {
        Some(end) => text.chars().take(end).collect(),
        None => text,
    }
}
