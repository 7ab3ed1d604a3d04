//! What a command says: each makes a value, which is printed as text or as one JSON object.
//!
//! What grows with the recording (the rows of `notes`, the turns of `find`) is said as it comes, by a
//! [`Telling`]; all else is a [`Report`].

use std::fmt::Write as _;
use std::io::{self, BufWriter, Read, Seek, SeekFrom, Write};
use std::path::Path;

use serde::Serialize;
use tempfile::SpooledTempFile;

use crate::failure::Failure;

/// A value that a command says.
pub trait Report: Serialize {
    /// As text: whole lines.
    fn text(&self) -> String;
}

/// How a command is to say what it says.
#[derive(Clone, Copy, Debug, Default)]
pub struct Saying {
    /// One JSON object in place of text.
    pub json: bool,
    /// Nothing but refusals.
    pub quiet: bool,
    /// On standard error, because an output goes to standard output.
    pub aside: bool,
}

impl Saying {
    /// Says a report.
    pub fn say(&self, report: &impl Report) -> Result<(), Failure> {
        if self.quiet {
            return Ok(());
        }
        let mut text = if self.json { json(report)? } else { report.text() };
        if self.json {
            text.push('\n');
        }
        let mut out = self.out();
        out.write_all(text.as_bytes()).and_then(|()| out.flush()).map_err(unheard)
    }

    /// Begins to say what comes piece by piece.
    pub fn telling(&self) -> Telling {
        let out: Box<dyn Write> = match (self.quiet, self.json) {
            (true, _) => Box::new(io::sink()),
            (false, true) => Box::new(io::sink()),
            (false, false) => Box::new(BufWriter::new(self.out())),
        };
        let kept = (self.json && !self.quiet).then(|| SpooledTempFile::new(KEPT));
        Telling { saying: *self, out, kept, fields: 0, items: 0 }
    }

    fn out(&self) -> Box<dyn Write> {
        if self.aside {
            Box::new(io::stderr())
        } else {
            Box::new(io::stdout())
        }
    }
}

/// The bytes of an unfinished JSON object that are kept in memory; more go to an unnamed file.
const KEPT: usize = 1024 * 1024;

/// What is said piece by piece: text at once; a JSON object at the end, so that it is whole or not there.
pub struct Telling {
    saying: Saying,
    out: Box<dyn Write>,
    kept: Option<SpooledTempFile>,
    fields: u64,
    items: u64,
}

impl Telling {
    /// Text, which a JSON object has not.
    pub fn text(&mut self, text: &str) -> Result<(), Failure> {
        self.out.write_all(text.as_bytes()).map_err(unheard)
    }

    /// A field of the JSON object.
    pub fn field(&mut self, name: &str, value: &impl Serialize) -> Result<(), Failure> {
        if self.kept.is_some() {
            let text = json(value)?;
            self.put_name(name)?;
            self.put(&text)?;
        }
        Ok(())
    }

    /// Begins a field that is a list.
    pub fn list(&mut self, name: &str) -> Result<(), Failure> {
        self.items = 0;
        self.put_name(name)?;
        self.put("[")
    }

    /// An item of the list.
    pub fn item(&mut self, value: &impl Serialize) -> Result<(), Failure> {
        if self.kept.is_some() {
            let text = json(value)?;
            if self.items > 0 {
                self.put(",")?;
            }
            self.items = self.items.saturating_add(1);
            self.put(&text)?;
        }
        Ok(())
    }

    /// Ends the list.
    pub fn list_ends(&mut self) -> Result<(), Failure> {
        self.put("]")
    }

    /// Every field of a report, and its text.
    pub fn say(&mut self, report: &impl Report) -> Result<(), Failure> {
        self.text(&report.text())?;
        if self.kept.is_some() {
            let value = serde_json::to_value(report).map_err(unsayable)?;
            for (name, value) in value.as_object().into_iter().flatten() {
                self.field(name, value)?;
            }
        }
        Ok(())
    }

    /// The end: nothing more is said.
    pub fn end(mut self) -> Result<(), Failure> {
        self.out.flush().map_err(unheard)?;
        if self.fields == 0 {
            self.put("{")?;
        }
        self.put("}\n")?;
        let Some(mut kept) = self.kept.take() else { return Ok(()) };
        let mut out = self.saying.out();
        kept.seek(SeekFrom::Start(0)).map_err(unkept)?;
        let mut chunk = vec![0; 64 * 1024];
        loop {
            let count = kept.read(&mut chunk).map_err(unkept)?;
            if count == 0 {
                return out.flush().map_err(unheard);
            }
            out.write_all(chunk.get(..count).unwrap_or_default()).map_err(unheard)?;
        }
    }

    fn put_name(&mut self, name: &str) -> Result<(), Failure> {
        let before = if self.fields == 0 { "{" } else { "," };
        self.fields = self.fields.saturating_add(1);
        let name = json(&name)?;
        self.put(&format!("{before}{name}:"))
    }

    fn put(&mut self, text: &str) -> Result<(), Failure> {
        match &mut self.kept {
            Some(kept) => kept.write_all(text.as_bytes()).map_err(unkept),
            None => Ok(()),
        }
    }
}

fn json(value: &impl Serialize) -> Result<String, Failure> {
    serde_json::to_string(value).map_err(unsayable)
}

fn unsayable(why: serde_json::Error) -> Failure {
    Failure::File(format!("what was found cannot be said as JSON: {why}."))
}

fn unkept(why: io::Error) -> Failure {
    Failure::File(format!("the temporary folder cannot be written: {why}."))
}

/// A reader that has gone, as `head`, is no failure.
fn unheard(why: io::Error) -> Failure {
    if why.kind() == io::ErrorKind::BrokenPipe {
        return Failure::Unheard;
    }
    Failure::File(format!("standard output cannot be written: {why}."))
}

/// A file's name as it is shown: what can be printed as it is, all else as `\x` and two hexadecimal digits
/// for each byte, so that no name acts on a terminal or breaks a line.
pub fn shown(name: &Path) -> String {
    if name == Path::new("-") {
        return "standard input".into();
    }
    use std::os::unix::ffi::OsStrExt;
    printable(name.as_os_str().as_bytes(), false)
}

/// A label as it is shown, between quotation marks; a quotation mark and a backslash in it stand behind a
/// backslash.
pub fn quoted(label: &[u8]) -> String {
    format!("\"{}\"", printable(label, true))
}

fn printable(bytes: &[u8], quoted: bool) -> String {
    let mut text = String::new();
    let mut rest = bytes;
    while !rest.is_empty() {
        let (good, bad) = match std::str::from_utf8(rest) {
            Ok(all) => (all, 0),
            Err(why) => {
                let good = rest.get(..why.valid_up_to()).unwrap_or_default();
                let bad = why.error_len().unwrap_or(rest.len().saturating_sub(good.len()));
                (std::str::from_utf8(good).unwrap_or_default(), bad)
            }
        };
        for character in good.chars() {
            put_character(&mut text, character, quoted);
        }
        let after = rest.get(good.len()..).unwrap_or_default();
        after.iter().take(bad).for_each(|byte| put_byte(&mut text, *byte));
        rest = after.get(bad..).unwrap_or_default();
    }
    text
}

fn put_character(text: &mut String, character: char, quoted: bool) {
    match character {
        '"' | '\\' if quoted => text.extend(['\\', character]),
        _ if is_shown(character) => text.push(character),
        _ => {
            let mut bytes = [0; 4];
            let bytes = character.encode_utf8(&mut bytes).as_bytes();
            bytes.iter().for_each(|byte| put_byte(text, *byte));
        }
    }
}

/// Whether a character may be shown: no control character, and none that turns the direction of what follows or
/// takes no room, so that what is shown is what is there.
fn is_shown(character: char) -> bool {
    let hidden = matches!(character, '\u{ad}' | '\u{61c}' | '\u{115f}' | '\u{1160}' | '\u{17b4}' | '\u{17b5}' | '\u{180b}'..='\u{180f}'
        | '\u{200b}'..='\u{200f}' | '\u{2028}'..='\u{202e}' | '\u{2060}'..='\u{206f}' | '\u{3164}' | '\u{fe00}'..='\u{fe0f}'
        | '\u{feff}' | '\u{ffa0}' | '\u{fff0}'..='\u{ffff}' | '\u{e000}'..='\u{f8ff}' | '\u{e0000}'..='\u{10ffff}');
    !character.is_control() && !hidden
}

fn put_byte(text: &mut String, byte: u8) {
    // Writing to a string does not fail.
    let _ = write!(text, "\\x{byte:02x}");
}

/// A line for each output that was written.
pub fn written(names: &[String]) -> String {
    names.iter().map(|name| format!("written: {name}\n")).collect()
}
