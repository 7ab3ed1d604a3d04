//! Files: what is read, and what is written whole or not at all.
//!
//! An output is written beside its name, under a name that no other run has, and takes its own only when the whole command is
//! done. What has been begun is removed where a command is refused or fails, and on an interrupt or a termination. An
//! output that is a device or a pipe, or standard output, is poured into it at the end, so that nothing goes out of a
//! command that is refused.

use std::collections::HashSet;
use std::ffi::OsString;
use std::fs::{self, File, Metadata, OpenOptions};
use std::io::{self, ErrorKind, Read, Seek, SeekFrom, Write};
use std::ops::Range;
use std::os::unix::fs::{FileExt, MetadataExt};
use std::path::{Path, PathBuf};
use std::sync::mpsc::{channel, sync_channel, Receiver, SyncSender};
use std::sync::Mutex;
use std::thread::{self, JoinHandle};

use signal_hook::consts::{SIGHUP, SIGINT, SIGTERM};
use signal_hook::iterator::Signals;

use crate::failure::{Cannot, Failure};
use crate::report::shown;

/// Whether a name is standard input or output.
pub fn is_standard(name: &Path) -> bool {
    [Path::new("-"), Path::new("/dev/stdin"), Path::new("/dev/stdout")].contains(&name)
}

/// The word for an output, the path that is written for it, and the file that is there: its device and number.
type Written<'a> = (&'a str, PathBuf, Option<(u64, u64)>);

/// Looks at the names of a call before anything is read: no output may be a file that is read, by whatever name, and no
/// file may be written twice. Each name comes with the word that the call has for it.
pub fn distinct(inputs: &[(&str, &Path)], outputs: &[(&str, &Path)]) -> Result<(), Failure> {
    let standard: Vec<_> = inputs.iter().filter(|(_, name)| is_standard(name)).collect();
    if let [(one, name), (other, _), ..] = standard.as_slice() {
        // A file that stands behind it can be read twice.
        if regular(name, true).is_none() {
            return Err(Failure::Call(format!(
                "{one} and {other} are both standard input, which is read once: give one of them a name."
            )));
        }
    }
    let read: Vec<_> =
        inputs.iter().filter_map(|(word, name)| Some((*word, regular(name, true)?))).collect();
    let mut written: Vec<Written<'_>> = Vec::new();
    for (word, name) in outputs {
        let file = regular(name, false);
        if let Some((other, _)) =
            read.iter().find(|(_, other)| file.is_some() && file == Some(*other))
        {
            return Err(Failure::Call(format!(
                "{word} is {}, which is {other} too, and a file that is read is never written over: give {word} another \
                 name.",
                shown(name)
            )));
        }
        let path = resolved(name);
        let same = |(_, at, of): &&Written<'_>| *at == path || (file.is_some() && *of == file);
        if let Some((other, ..)) = written.iter().find(same) {
            return Err(Failure::Call(format!(
                "{other} and {word} are two files: give two names."
            )));
        }
        written.push((word, path, file));
    }
    Ok(())
}

/// The device and number of a regular file that is there. Standard input may be one too.
fn regular(name: &Path, input: bool) -> Option<(u64, u64)> {
    let name = match is_standard(name) {
        true if input => Path::new("/dev/stdin"),
        true => return None,
        false => name,
    };
    let found = fs::metadata(name).ok().filter(Metadata::is_file)?;
    Some((found.dev(), found.ino()))
}

/// The path that is written for a name: a link's target, in a folder that is named without links.
fn resolved(name: &Path) -> PathBuf {
    if is_standard(name) {
        return "-".into();
    }
    let mut path = name.to_path_buf();
    // As many links as the system follows.
    for _ in 0..40 {
        match fs::read_link(&path) {
            Ok(target) => path = folder(&path).join(target),
            Err(_) => break,
        }
    }
    match (folder(&path).canonicalize(), path.file_name()) {
        (Ok(folder), Some(last)) => folder.join(last),
        _ => path,
    }
}

fn folder(path: &Path) -> PathBuf {
    match path.parent() {
        Some(folder) if folder != Path::new("") => folder.into(),
        _ => ".".into(),
    }
}

/// An input that is read at any place. What cannot be, such as a pipe, is kept in an unnamed file first.
#[derive(Debug)]
pub struct Input {
    name: PathBuf,
    file: File,
    bytes: u64,
}

impl Input {
    pub fn open(name: &Path) -> Result<Input, Failure> {
        let file = opened(name)?;
        let found = file.metadata().map_err(|why| Failure::file(name, Cannot::Read, &why))?;
        if found.is_file() {
            return Ok(Input { name: name.into(), file, bytes: found.len() });
        }
        let (file, bytes) = spooled(name, file)?;
        Ok(Input { name: name.into(), file, bytes })
    }

    pub fn name(&self) -> &Path {
        &self.name
    }

    pub fn bytes(&self) -> u64 {
        self.bytes
    }

    /// Fills the slice from this place on.
    pub fn read_at(&self, at: u64, slice: &mut [u8]) -> Result<(), Failure> {
        self.file.read_exact_at(slice, at).map_err(|why| self.unread(&why))
    }

    /// All of it, where that is at most so many bytes; else so many and one more.
    pub fn all(&self, most: u64) -> Result<Vec<u8>, Failure> {
        let bytes = usize::try_from(self.bytes.min(most.saturating_add(1)));
        let mut all = vec![0; bytes.unwrap_or(usize::MAX)];
        self.read_at(0, &mut all)?;
        Ok(all)
    }

    pub fn unread(&self, why: &io::Error) -> Failure {
        Failure::file(&self.name, Cannot::Read, why)
    }
}

fn opened(name: &Path) -> Result<File, Failure> {
    let path = if is_standard(name) { Path::new("/dev/stdin") } else { name };
    File::open(path).map_err(|why| Failure::file(name, Cannot::Open, &why))
}

fn spooled(name: &Path, mut from: File) -> Result<(File, u64), Failure> {
    let no_room = |why: io::Error| no_room(name, &why);
    let mut to = tempfile::tempfile().map_err(no_room)?;
    let mut chunk = vec![0; CHUNK];
    let mut bytes: u64 = 0;
    loop {
        let count = read_some(&mut from, &mut chunk)
            .map_err(|why| Failure::file(name, Cannot::Read, &why))?;
        if count == 0 {
            return Ok((to, bytes));
        }
        to.write_all(chunk.get(..count).unwrap_or_default()).map_err(no_room)?;
        bytes = bytes.saturating_add(count as u64);
    }
}

/// What comes from an input must be kept for a while, and there is no room for it.
fn no_room(name: &Path, why: &io::Error) -> Failure {
    Failure::File(format!(
        "the temporary folder cannot hold what comes from {}: {why}; set TMPDIR to a folder with room.",
        shown(name)
    ))
}

/// The bytes of an output that are kept until they are written at once: so many that handing them over costs little.
const WAITING: usize = 1024 * 1024;

/// The bytes of an input that are read at once, and those of its end that are read again with the next: as many as are wanted at a time.
const WINDOW: u64 = 1024 * 1024;
const AGAIN: u64 = 8 * 1024;

/// Some bytes of an input that are read on and on: those that come next are read while those at hand are used.
#[derive(Debug)]
pub struct Window<'a> {
    from: &'a Input,
    /// Where its bytes begin in the input, and how many there are.
    start: u64,
    bytes: u64,
    held: Vec<u8>,
    /// The first byte that is held.
    at: u64,
    ahead: Option<Ahead>,
}

impl<'a> Window<'a> {
    /// So many bytes from a place on.
    pub fn new(from: &'a Input, start: u64, bytes: u64) -> Window<'a> {
        Window { from, start, bytes, held: Vec::new(), at: 0, ahead: None }
    }

    pub fn bytes(&self) -> u64 {
        self.bytes
    }

    /// The bytes from one on up to another.
    pub fn get(&mut self, wanted: Range<u64>) -> Result<&[u8], Failure> {
        if !self.holds(&wanted) {
            let used = self.next()?;
            let used = if self.holds(&wanted) { used } else { self.read(&wanted)? };
            self.read_ahead(used)?;
        }
        let within =
            |byte: u64| usize::try_from(byte.saturating_sub(self.at)).unwrap_or(usize::MAX);
        Ok(self.held.get(within(wanted.start)..within(wanted.end)).unwrap_or_default())
    }

    fn end(&self) -> u64 {
        self.at.saturating_add(self.held.len() as u64)
    }

    fn holds(&self, wanted: &Range<u64>) -> bool {
        self.at <= wanted.start && wanted.end <= self.end()
    }

    /// Takes what was read ahead, if anything was, and answers what it held before.
    fn next(&mut self) -> Result<Vec<u8>, Failure> {
        let read = self.ahead.as_mut().and_then(Ahead::next);
        let (at, bytes) = match read {
            Some(read) => read.map_err(|why| self.from.unread(&why))?,
            None => return Ok(Vec::new()),
        };
        self.at = at.saturating_sub(self.start);
        Ok(std::mem::replace(&mut self.held, bytes))
    }

    /// Reads what is wanted and what comes behind it.
    fn read(&mut self, wanted: &Range<u64>) -> Result<Vec<u8>, Failure> {
        let count = WINDOW.max(wanted.end.saturating_sub(wanted.start));
        let count = count.min(self.bytes.saturating_sub(wanted.start));
        self.held.resize(usize::try_from(count).unwrap_or(0), 0);
        self.at = wanted.start;
        self.from.read_at(self.start.saturating_add(self.at), &mut self.held)?;
        Ok(Vec::new())
    }

    /// Has what comes behind the bytes at hand read, into a vector that is no longer used.
    fn read_ahead(&mut self, mut used: Vec<u8>) -> Result<(), Failure> {
        if self.bytes <= self.end() {
            return Ok(());
        }
        let first = self.end().saturating_sub(AGAIN).max(self.at);
        let count = WINDOW.min(self.bytes.saturating_sub(first));
        used.resize(usize::try_from(count).unwrap_or(0), 0);
        let ahead = match self.ahead.take() {
            Some(ahead) => ahead,
            None => Ahead::new(&self.from.file).map_err(|why| self.from.unread(&why))?,
        };
        self.ahead = Some(ahead.ask(self.start.saturating_add(first), used));
        Ok(())
    }
}

/// Where bytes are read, and a vector that is filled with them.
type Reading = (u64, Vec<u8>);

/// A thread that reads; it ends with the sender.
#[derive(Debug)]
struct Ahead {
    to: SyncSender<Reading>,
    back: Receiver<io::Result<Reading>>,
    asked: bool,
}

impl Ahead {
    fn new(file: &File) -> io::Result<Ahead> {
        let file = file.try_clone()?;
        let (to, from) = sync_channel::<Reading>(1);
        let (done, back) = sync_channel(1);
        thread::spawn(move || {
            for (at, mut bytes) in from {
                let read = file.read_exact_at(&mut bytes, at).map(|()| (at, bytes));
                if done.send(read).is_err() {
                    break;
                }
            }
        });
        Ok(Ahead { to, back, asked: false })
    }

    fn ask(mut self, at: u64, bytes: Vec<u8>) -> Ahead {
        self.asked = self.to.send((at, bytes)).is_ok();
        self
    }

    /// What was asked for, if anything was.
    fn next(&mut self) -> Option<io::Result<Reading>> {
        let asked = std::mem::take(&mut self.asked);
        asked.then(|| self.back.recv().unwrap_or_else(|_| Err(ErrorKind::Other.into())))
    }
}

/// The bytes that are read or poured at a time: the most of a piece of a stream.
pub const CHUNK: usize = spritbobbin::MOST_BYTES;

/// Reads until the slice is full or the source ends, and answers how much there is.
fn read_some(from: &mut impl Read, slice: &mut [u8]) -> io::Result<usize> {
    let mut filled = 0;
    while let Some(rest) = slice.get_mut(filled..).filter(|rest| !rest.is_empty()) {
        match from.read(rest) {
            Ok(0) => break,
            Ok(count) => filled = filled.saturating_add(count),
            Err(why) if why.kind() == ErrorKind::Interrupted => {}
            Err(why) => return Err(why),
        }
    }
    Ok(filled)
}

/// An input that is read once from its begin to its end, such as a pipe.
#[derive(Debug)]
pub struct Stream {
    name: PathBuf,
    file: File,
    bytes: Option<u64>,
}

impl Stream {
    pub fn open(name: &Path) -> Result<Stream, Failure> {
        let file = opened(name)?;
        let found = file.metadata().map_err(|why| Failure::file(name, Cannot::Read, &why))?;
        let bytes = found.is_file().then_some(found.len());
        let stream = Stream { name: name.into(), file, bytes };
        if found.is_dir() {
            // The system says why a folder cannot be read, and says it at once.
            (&stream.file).read(&mut [0]).map_err(|why| stream.unread(&why))?;
        }
        Ok(stream)
    }

    pub fn name(&self) -> &Path {
        &self.name
    }

    /// Its length, where it is known before its end.
    pub fn bytes(&self) -> Option<u64> {
        self.bytes
    }

    /// Reads on until the slice is full or the stream ends, and answers how much there is.
    pub fn read(&mut self, slice: &mut [u8]) -> Result<usize, Failure> {
        read_some(&mut self.file, slice).map_err(|why| self.unread(&why))
    }

    fn unread(&self, why: &io::Error) -> Failure {
        Failure::file(&self.name, Cannot::Read, why)
    }
}

/// The temporary files of this run, which a signal removes.
static BEGUN: Mutex<Option<HashSet<PathBuf>>> = Mutex::new(None);

/// From here on an interrupt, a termination and a hang-up remove what was begun, and then end the program as they would.
pub fn watch_signals() {
    let Ok(mut signals) = Signals::new([SIGINT, SIGTERM, SIGHUP]) else { return };
    thread::spawn(move || {
        for signal in signals.forever() {
            if let Ok(mut begun) = BEGUN.lock() {
                for path in begun.take().unwrap_or_default() {
                    let _ = fs::remove_file(path);
                }
                // The lock is held to the end, so that no output takes its name any more.
                let _ = signal_hook::low_level::emulate_default_handler(signal);
            }
        }
    });
}

/// A file that is written.
#[derive(Debug)]
pub struct Output {
    name: PathBuf,
    file: File,
    target: Target,
    /// What is to be written behind the first `at` bytes: so many bytes.
    waiting: Vec<u8>,
    filled: usize,
    at: u64,
    behind: Option<Behind>,
}

/// Bytes to be written: where, the vector, and how many of its first.
type Writing = (u64, Vec<u8>, usize);

/// A thread that writes while the next frames are made.
#[derive(Debug)]
struct Behind {
    to: SyncSender<Writing>,
    /// What was written comes back, to be filled again.
    back: Receiver<Vec<u8>>,
    thread: JoinHandle<io::Result<()>>,
}

impl Behind {
    fn new(file: &File) -> io::Result<Behind> {
        let file = file.try_clone()?;
        let (to, from) = sync_channel::<Writing>(4);
        let (done, back) = channel();
        let thread = thread::spawn(move || {
            for (at, bytes, count) in from {
                file.write_all_at(bytes.get(..count).unwrap_or_default(), at)?;
                // Nobody wants it back at the end.
                let _ = done.send(bytes);
            }
            Ok(())
        });
        Ok(Behind { to, back, thread })
    }

    /// That all is written.
    fn end(self) -> io::Result<()> {
        drop(self.to);
        self.thread.join().unwrap_or_else(|_| Err(ErrorKind::Other.into()))
    }
}

#[derive(Debug)]
enum Target {
    /// A file beside the path, which takes it in the end.
    Beside { temporary: PathBuf, path: PathBuf },
    /// An unnamed file that is poured into standard output, a device or a pipe.
    Poured,
}

impl Output {
    /// Begins an output.
    pub fn create(name: &Path) -> Result<Output, Failure> {
        let unwritten = |why: io::Error| Failure::file(name, Cannot::Write, &why);
        if is_standard(name) {
            let file = tempfile::tempfile().map_err(unwritten)?;
            return Ok(Output::new(name, file, Target::Poured));
        }
        let path = resolved(name);
        match fs::metadata(name) {
            Ok(found) if !found.is_file() && !found.is_dir() => {
                let file = tempfile::tempfile().map_err(unwritten)?;
                return Ok(Output::new(name, file, Target::Poured));
            }
            // A file that may not be written, or a folder, is found out before anything is done.
            Ok(_) => drop(OpenOptions::new().append(true).open(&path).map_err(unwritten)?),
            Err(why) if why.kind() == ErrorKind::NotFound => {}
            Err(why) => return Err(unwritten(why)),
        }
        let (file, temporary) = beside(&path).map_err(unwritten)?;
        Ok(Output::new(name, file, Target::Beside { temporary, path }))
    }

    fn new(name: &Path, file: File, target: Target) -> Output {
        let (waiting, behind) = (Vec::new(), None);
        Output { name: name.into(), file, target, waiting, filled: 0, at: 0, behind }
    }

    /// An output that is never kept: frames that are found and read again.
    pub fn aside(name: &Path) -> Result<Output, Failure> {
        let file = tempfile::tempfile().map_err(|why| no_room(name, &why))?;
        Ok(Output::new(name, file, Target::Poured))
    }

    /// What was written, to be read again.
    pub fn read_again(mut self) -> Result<Input, Failure> {
        self.flush()?;
        let file = self.file.try_clone().map_err(|why| no_room(&self.name, &why))?;
        Ok(Input { name: self.name.clone(), file, bytes: self.at })
    }

    /// Writes the slice behind all that was appended before.
    pub fn append(&mut self, slice: &[u8]) -> Result<(), Failure> {
        for piece in slice.chunks(WAITING) {
            self.room(piece.len())?.copy_from_slice(piece);
        }
        Ok(())
    }

    /// So many bytes behind all that was appended before, to be filled: no other has to be copied for them.
    pub fn room(&mut self, bytes: usize) -> Result<&mut [u8], Failure> {
        if self.waiting.len() < self.filled.saturating_add(bytes) {
            if self.filled > 0 {
                let (waiting, filled) = (std::mem::take(&mut self.waiting), self.filled);
                self.waiting = self.write_behind(self.at, waiting, filled)?;
                self.at = self.at.saturating_add(filled as u64);
                self.filled = 0;
            }
            if self.waiting.len() < bytes.max(WAITING) {
                self.waiting = vec![0; bytes.max(WAITING)];
            }
        }
        let first = self.filled;
        self.filled = first.saturating_add(bytes);
        Ok(self.waiting.get_mut(first..self.filled).unwrap_or_default())
    }

    /// Writes what waits, and ends the writing behind.
    fn flush(&mut self) -> Result<(), Failure> {
        let waiting = std::mem::take(&mut self.waiting);
        self.write_at(self.at, waiting.get(..self.filled).unwrap_or_default())?;
        self.at = self.at.saturating_add(self.filled as u64);
        self.filled = 0;
        match self.behind.take().map_or(Ok(()), Behind::end) {
            Ok(()) => Ok(()),
            Err(why) => Err(Failure::not_whole(&self.name, &why)),
        }
    }

    /// Has the first so many bytes written at this place while the command goes on, and answers a vector to be filled anew, with
    /// whatever is in it.
    pub fn write_behind(
        &mut self,
        at: u64,
        bytes: Vec<u8>,
        count: usize,
    ) -> Result<Vec<u8>, Failure> {
        let not_whole = |name: &Path, why: &io::Error| Failure::not_whole(name, why);
        let behind = match self.behind.take() {
            Some(behind) => behind,
            None => Behind::new(&self.file).map_err(|why| not_whole(&self.name, &why))?,
        };
        if behind.to.send((at, bytes, count)).is_err() {
            // The thread has ended, which it does only where it could not write.
            let why = behind.end().err().unwrap_or_else(|| ErrorKind::Other.into());
            return Err(not_whole(&self.name, &why));
        }
        let again = behind.back.try_recv().unwrap_or_default();
        self.behind = Some(behind);
        Ok(again)
    }

    /// Writes all of a file at this place.
    pub fn pour_at(&mut self, at: u64, from: &mut File) -> Result<(), Failure> {
        let not_whole = |why: io::Error| Failure::not_whole(&self.name, &why);
        from.seek(SeekFrom::Start(0)).map_err(not_whole)?;
        (&self.file).seek(SeekFrom::Start(at)).map_err(not_whole)?;
        io::copy(from, &mut &self.file).map_err(not_whole)?;
        Ok(())
    }

    pub fn name(&self) -> &Path {
        &self.name
    }

    /// An unnamed file on the disk of this output.
    pub fn unnamed(&self) -> Result<File, Failure> {
        let file = match &self.target {
            Target::Beside { path, .. } => tempfile::tempfile_in(folder(path)),
            Target::Poured => tempfile::tempfile(),
        };
        file.map_err(|why| Failure::file(&self.name, Cannot::Write, &why))
    }

    /// Writes the slice at this place.
    pub fn write_at(&self, at: u64, slice: &[u8]) -> Result<(), Failure> {
        self.file.write_all_at(slice, at).map_err(|why| Failure::not_whole(&self.name, &why))
    }

    /// Makes it so long, with zeros where nothing was written.
    pub fn set_length(&self, bytes: u64) -> Result<(), Failure> {
        self.file.set_len(bytes).map_err(|why| Failure::not_whole(&self.name, &why))
    }

    fn synced(&self) -> Result<(), Failure> {
        match &self.target {
            Target::Beside { .. } => {
                self.file.sync_all().map_err(|why| Failure::not_whole(&self.name, &why))
            }
            Target::Poured => Ok(()),
        }
    }

    /// Pours what was written into where it goes.
    fn pour(&mut self) -> Result<(), Failure> {
        let unwritten = |why: io::Error| match why.kind() {
            ErrorKind::BrokenPipe => Failure::Unheard,
            _ => Failure::file(&self.name, Cannot::Write, &why),
        };
        let mut to: Box<dyn Write> = if is_standard(&self.name) {
            Box::new(io::stdout())
        } else {
            Box::new(OpenOptions::new().write(true).open(&self.name).map_err(unwritten)?)
        };
        let mut chunk = vec![0; CHUNK];
        let mut from = &self.file;
        from.seek(SeekFrom::Start(0)).map_err(unwritten)?;
        loop {
            let count = read_some(&mut from, &mut chunk).map_err(unwritten)?;
            if count == 0 {
                return to.flush().map_err(unwritten);
            }
            to.write_all(chunk.get(..count).unwrap_or_default()).map_err(unwritten)?;
        }
    }
}

impl Drop for Output {
    fn drop(&mut self) {
        if let Target::Beside { temporary, .. } = &self.target {
            if let Ok(mut begun) = BEGUN.lock() {
                if begun.as_mut().map_or(false, |begun| begun.remove(temporary)) {
                    let _ = fs::remove_file(temporary);
                }
            }
        }
    }
}

/// A new file in the folder of a path, under a name that no other run has, with the rights that the path has or a new
/// file gets.
fn beside(path: &Path) -> io::Result<(File, PathBuf)> {
    let mut begun = BEGUN.lock().map_err(|_| io::Error::from(ErrorKind::Other))?;
    for number in 0..u64::MAX {
        let mut last = OsString::from(".spritbobbin.");
        last.push(format!("{}.{number}.part", std::process::id()));
        let temporary = folder(path).join(last);
        match OpenOptions::new().read(true).write(true).create_new(true).open(&temporary) {
            Ok(file) => {
                begun.get_or_insert_with(HashSet::new).insert(temporary.clone());
                if let Ok(found) = fs::metadata(path) {
                    file.set_permissions(found.permissions())?;
                }
                return Ok((file, temporary));
            }
            Err(why) if why.kind() == ErrorKind::AlreadyExists => {}
            Err(why) => return Err(why),
        }
    }
    Err(ErrorKind::AlreadyExists.into())
}

/// Gives every output its name, or none; and answers the names as they are said.
pub fn keep(mut outputs: Vec<Output>) -> Result<Vec<String>, Failure> {
    for output in &mut outputs {
        output.flush()?;
        output.synced()?;
    }
    let mut named = Vec::new();
    {
        // A signal waits until all have their names.
        let Ok(mut begun) = BEGUN.lock() else {
            return Err(Failure::File("an earlier fault of the program.".into()));
        };
        for output in &outputs {
            if let Target::Beside { temporary, path } = &output.target {
                fs::rename(temporary, path)
                    .map_err(|why| Failure::file(&output.name, Cannot::Write, &why))?;
                if let Some(begun) = begun.as_mut() {
                    begun.remove(temporary);
                }
            }
            named.push(said(&output.name));
        }
    }
    for output in &mut outputs {
        if matches!(output.target, Target::Poured) {
            output.pour()?;
        }
    }
    Ok(named)
}

fn said(name: &Path) -> String {
    if is_standard(name) {
        return "standard output".into();
    }
    shown(name)
}

/// Whether what is said must go to standard error, because an output goes to standard output.
pub fn any_standard(outputs: &[&Path]) -> bool {
    outputs.iter().any(|name| is_standard(name))
}
