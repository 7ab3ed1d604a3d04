//! One case: commands, the folder before and after, and what is printed.

use std::collections::BTreeMap;
use std::path::Path;
use std::{fs, io};

/// What an output file holds that was there before.
pub const OLD: &[u8] = b"An older file stands here, and it is longer than nothing.\n";

#[derive(Clone)]
enum Entry {
    File(Vec<u8>),
    Folder,
}

/// Paths in a folder, and what stands there.
type Folder = BTreeMap<String, Entry>;

#[derive(Clone, Default)]
pub struct Case {
    pub name: String,
    commands: Vec<Vec<String>>,
    status: Vec<u8>,
    given: Folder,
    after: Folder,
    stdout: String,
    stderr: String,
    /// Patterns where the words are left to the program; then `stdout` and `stderr` say nothing.
    has: Vec<String>,
    last: Option<String>,
    svg: Option<String>,
    page: Option<Page>,
}

/// A page: its name, how often an element of this name or class stands in it, and texts that it has.
#[derive(Clone)]
pub struct Page {
    pub path: String,
    pub counts: Vec<(&'static str, usize)>,
    pub texts: Vec<String>,
}

/// The words of a call for a level and the vote before the first frame, written as `12:5`; for a
/// capture, which has its level, the vote alone, as `:5`.
pub fn at(level_and_vote: &str) -> String {
    let (level, vote) = match level_and_vote.split_once(':') {
        Some((level, vote)) => (level, format!("--earlier {vote}")),
        None => (level_and_vote, String::new()),
    };
    if level.is_empty() {
        return vote;
    }
    format!("-l {level} {vote}")
}

/// The words of a command in which no word has a blank.
pub fn words(command: &str) -> Vec<String> {
    command.split_whitespace().map(String::from).collect()
}

impl Case {
    pub fn new(name: &str) -> Case {
        Case { name: name.into(), ..Case::default() }
    }

    /// A file that is there before and must be the same afterwards.
    pub fn file(mut self, path: &str, bytes: &[u8]) -> Case {
        self.after.insert(path.into(), Entry::File(bytes.into()));
        self.had(path, bytes)
    }

    /// A folder that is there before and afterwards.
    pub fn folder(mut self, path: &str) -> Case {
        self.given.insert(path.into(), Entry::Folder);
        self.after.insert(path.into(), Entry::Folder);
        self
    }

    /// A file that is there before; the commands write it anew.
    pub fn had(mut self, path: &str, bytes: &[u8]) -> Case {
        self.given.insert(path.into(), Entry::File(bytes.into()));
        self
    }

    /// A file that the commands make.
    pub fn makes(mut self, path: &str, bytes: &[u8]) -> Case {
        self.after.insert(path.into(), Entry::File(bytes.into()));
        self
    }

    /// A picture that the command makes. That it is one is all that is asked of its bytes.
    pub fn draws(mut self, path: &str) -> Case {
        self.svg = Some(path.into());
        self.makes(path, b"")
    }

    /// A page that the command makes.
    pub fn shows(mut self, page: Page) -> Case {
        let path = page.path.clone();
        self.page = Some(page);
        self.makes(&path, b"")
    }

    /// A command that is accepted, and all that it prints.
    pub fn accepted(mut self, words: Vec<String>, stdout: &str) -> Case {
        self.stdout += stdout;
        self.command(words, 0)
    }

    /// A command that is accepted and writes an output to standard output: that, and what it says, on standard error.
    pub fn aside(mut self, words: Vec<String>, output: &str, said: &str) -> Case {
        self.stdout += output;
        self.stderr += said;
        self.command(words, 0)
    }

    /// A command that is carried out and whose check does not hold, and all that it prints.
    pub fn checked(mut self, words: Vec<String>, stdout: &str) -> Case {
        self.stdout += stdout;
        self.command(words, 1)
    }

    /// A command that is refused or fails, and the one line that it prints on standard error.
    pub fn fails(mut self, words: Vec<String>, line: &str) -> Case {
        self.stderr += &format!("{line}\n");
        let first = line.split_whitespace().next();
        let status = match first {
            Some("refused") => 1,
            Some("wrong") => 2,
            Some("failed:") => 3,
            _ => panic!("no refusal and no failure: {line}"),
        };
        self.command(words, status)
    }

    /// A command of which only patterns of some lines are known, and of the last line: of standard
    /// output where it is accepted, else of standard error.
    pub fn like(mut self, words: Vec<String>, status: u8, has: &[String], last: &str) -> Case {
        self.has = has.into();
        self.last = Some(last.into());
        self.command(words, status)
    }

    fn command(mut self, words: Vec<String>, status: u8) -> Case {
        self.commands.push(words);
        self.status.push(status);
        self
    }

    /// Writes the folder of the case. There must be none of that name yet.
    pub fn write(&self, folder: &Path) -> io::Result<()> {
        fs::create_dir(folder)?;
        let commands: Vec<String> = self.commands.iter().map(|words| one_each(words)).collect();
        fs::write(folder.join("command"), lines(&[commands.join("\n\n")]))?;
        fs::write(folder.join("expected.status"), lines(&self.status))?;
        match &self.last {
            None => {
                fs::write(folder.join("expected.stdout"), &self.stdout)?;
                fs::write(folder.join("expected.stderr"), &self.stderr)?;
            }
            Some(last) => {
                fs::write(folder.join("expected.has"), lines(&self.has))?;
                fs::write(folder.join("expected.last"), lines(&[last]))?;
            }
        }
        if let Some(path) = &self.svg {
            fs::write(folder.join("expected.svg"), lines(&[path]))?;
        }
        if let Some(page) = &self.page {
            let counts = page.counts.iter().map(|(name, count)| format!("{count} {name}"));
            let all: Vec<String> = counts.chain(page.texts.iter().cloned()).collect();
            fs::write(
                folder.join("expected.page"),
                lines(std::slice::from_ref(&page.path)) + &lines(&all),
            )?;
        }
        write_all(&folder.join("given"), &self.given)?;
        write_all(&folder.join("after"), &self.after)
    }

    /// Older files where the outputs go, which must stay as they are.
    pub fn older(mut self, outputs: &[&str]) -> Case {
        self.name += "-older-outputs";
        outputs.iter().fold(self, |case, path| case.file(path, OLD))
    }

    /// The case without and with older files where the outputs go.
    pub fn twice(self, outputs: &[&str]) -> Vec<Case> {
        vec![self.clone(), self.older(outputs)]
    }
}

/// The cases of a list, every second one with older files where the outputs go.
pub fn in_turn(cases: Vec<Case>, outputs: &[&str]) -> Vec<Case> {
    let older = |(k, case): (usize, Case)| if k % 2 == 1 { case.older(outputs) } else { case };
    cases.into_iter().enumerate().map(older).collect()
}

/// The words of a command, a line each. An empty word is written as two quotation marks.
fn one_each(words: &[String]) -> String {
    let line = |word: &String| if word.is_empty() { "\"\"".into() } else { word.clone() };
    words.iter().map(line).collect::<Vec<String>>().join("\n")
}

/// The items, a line each; nothing where the only line is empty.
fn lines(items: &[impl ToString]) -> String {
    let text: String = items.iter().map(|item| item.to_string() + "\n").collect();
    if text == "\n" {
        return String::new();
    }
    text
}

fn write_all(folder: &Path, entries: &Folder) -> io::Result<()> {
    fs::create_dir(folder)?;
    for (path, entry) in entries {
        let path = folder.join(path);
        match entry {
            Entry::Folder => fs::create_dir_all(path)?,
            Entry::File(bytes) => fs::write(path, bytes)?,
        }
    }
    Ok(())
}
