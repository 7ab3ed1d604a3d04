//! The exact words of the program.

use crate::inputs::room;
use crate::worked::{take_after, take_found, Counts, Event, Found, Taken, NONE_BEFORE};
use reference::digits::unpack;
use reference::frame::{self, Action};
use reference::level::{row, Row, MOST_FRAMES};
use reference::read_capture;

/// A line for each tributary: its digits, the frames in which it is stuffed, and where the
/// level has negative places, those in which one carries a digit.
fn table(row: &Row, counts: &Counts) -> String {
    let negative = |text: String| if row.negative_places { text } else { String::new() };
    let mut text = format!("{:>9}{:>14}{:>13}", "tributary", "digits", "stuffed");
    text += &(negative(format!("{:>13}", "negative")) + "\n");
    for j in 0..4 {
        text += &format!("{:>9}{:>14}{:>13}", j + 1, counts.digits[j], counts.stuffed[j]);
        text += &(negative(format!("{:>13}", counts.negative[j])) + "\n");
    }
    text
}

/// The same of frames taken apart, whose votes may have dissenting digits; then the words.
fn table_and_errors(row: &Row, taken: &Taken) -> String {
    let dissent = taken.dissent.map(|digits| format!("{digits:>13}"));
    let columns = ["      dissent".into()].into_iter().chain(dissent);
    let rows = table(row, &taken.counts);
    let mut text: String =
        rows.lines().zip(columns).map(|(row, column)| format!("{row}{column}\n")).collect();
    text += &format!("alignment digits wrong: {}\n", taken.alignment);
    text
}

pub fn written(paths: &[&str]) -> String {
    paths.iter().map(|path| format!("written: {path}\n")).collect()
}

pub fn sent(row: &Row, frames: usize, counts: &Counts) -> String {
    format!("Level {}: {} frames sent.\n", row.level, frames)
        + &table(row, counts)
        + "This line was made here: it is no evidence of what a multiplexer sent.\n"
}

/// What is said of a file that was repaired.
pub const REPAIRED: &str = "What is repaired is no evidence: keep the file that was read.\n";

/// An output with the name of an input.
pub fn written_over(output: &str, path: &str, input: &str) -> String {
    format!(
        "wrong call: {output} is {path}, which is {input} too, and a file that is read is never \
         written over: give {output} another name."
    )
}

pub fn taken(row: &Row, taken: &Taken) -> String {
    let heading = format!("Level {}: {} frames taken apart.\n", row.level, taken.notes.len());
    heading + &table_and_errors(row, taken)
}

/// What agree prints where both engines give the same: the bytes compared after each call.
pub fn agree(row: &Row, compared: [usize; 3]) -> String {
    let [notes, tributaries, line] = compared;
    format!(
        "Level {}: {notes} frames, by the quick engine and by the plain one.\n\
         bytes compared after read_notes: {notes}\n\
         bytes compared after extract:    {tributaries}\n\
         bytes compared after multiplex:  {line}\n\
         The two engines agree, in every byte and in what each call answered.\n",
        row.level
    )
}

pub fn extracted(row: &Row, taken: &Taken) -> String {
    let frames = taken.notes.len();
    format!("Level {}: {frames} frames taken apart by these notes.\n", row.level)
        + &table(row, &taken.counts)
}

/// What notes prints: a row for each frame, and the sums.
pub fn noted(row: &Row, line: &[u8]) -> String {
    noted_after(row, NONE_BEFORE, line)
}

/// The same where these are the votes before the first frame.
pub fn noted_after(row: &Row, earlier: u8, line: &[u8]) -> String {
    noted_each(row, line, &take_after(row, earlier, line), |frame| (frame == 0).then_some(earlier))
}

/// The same of the frames that were found in a recording.
pub fn noted_found(row: &Row, earlier: u8, found: &Found) -> String {
    let stretches = found.stretches(row);
    let before = |frame: usize| {
        let first = stretches.iter().any(|(_, frames)| frames.start == frame);
        first.then_some(if frame == 0 { earlier } else { NONE_BEFORE })
    };
    noted_each(row, &found.line(row), &take_found(row, earlier, found), before)
}

/// The same where `taken` is what the frames say, and these the votes before a frame which follows no other.
fn noted_each(
    row: &Row,
    line: &[u8],
    taken: &Taken,
    fresh: impl Fn(usize) -> Option<u8>,
) -> String {
    let heads = if row.negative_places { "  votes  acts   " } else { "stuffed  service" };
    let mut text = format!("    frame  {heads}  dissent 1 2 3 4  alignment\n");
    let mut before = NONE_BEFORE;
    for (k, bytes) in line.chunks(row.frame_bytes()).enumerate() {
        let one = frame::read(row, &unpack(bytes, row.frame_digits));
        let mark = |j: u8| if one.note >> j & 1 == 1 { format!("{}", j + 1) } else { "-".into() };
        let stuffed: String = (0..4).map(mark).collect();
        let rest = beside_votes(row, fresh(k).unwrap_or(before), one.note);
        before = one.note;
        let dissent = one.dissent.map(|digits| digits.to_string()).join(" ");
        text +=
            &format!("{k:>9}  {stuffed:7}  {rest:7}  {:7} {dissent}  {:>9}\n", "", one.alignment);
    }
    let four = |counts: [String; 4]| counts.join(" ");
    text += &format!("Level {}: {} notes read.\n", row.level, taken.notes.len());
    let stuffed = four(taken.counts.stuffed.map(|count| count.to_string()));
    text += &format!("stuffed frames of tributaries 1 to 4:     {stuffed}\n");
    if row.negative_places {
        let negative = four(taken.counts.negative.map(|count| count.to_string()));
        text += &format!("negative digits of tributaries 1 to 4:    {negative}\n");
    }
    let dissent = four(taken.dissent.map(|count| count.to_string()));
    text += &format!("dissenting digits of tributaries 1 to 4:  {dissent}\n");
    text + &format!("alignment digits wrong: {}\n", taken.alignment)
}

/// What a note says beside its votes: the service digits, or what the frame does for each
/// tributary.
fn beside_votes(row: &Row, before: u8, note: u8) -> String {
    if !row.negative_places {
        return (4..row.note_bits()).map(|bit| (note >> bit & 1).to_string()).collect();
    }
    let sign = |j| match frame::action(row, before, note, j) {
        Action::Stuffed => '+',
        Action::Plain => '0',
        Action::Negative => '-',
    };
    (0..4).map(sign).collect()
}

/// What find prints of a recording of so many bytes; `taken` is what its frames say.
pub fn found(row: &Row, bytes: usize, found: &Found, taken: &Taken) -> String {
    let digits = 8 * bytes;
    let mut text =
        format!("Level {}: {bytes} bytes, {digits} digits, numbered from 0.\n", row.level);
    text += &found.events.iter().map(|one| event(row, one)).collect::<String>();
    if found.alignment().is_empty() {
        text += &not_found(row);
    }
    text += &format!("frames handed over: {}\n", found.frames.len());
    text += &table_and_errors(row, taken);
    text += &format!("words tested: {}\n", found.words);
    text + &format!("at the end: {}\n", mode(found.mode))
}

fn not_found(row: &Row) -> String {
    let apart = row.frame_digits;
    format!(
        "alignment was not found: three good words in a row, {apart} digits apart, \
         did not come\n"
    )
}

fn event(row: &Row, event: &Event) -> String {
    let (what, digit, why) = match event {
        Event::Found(digit) => {
            ("found", digit, "the third good word in a row, and the first frame handed over")
        }
        Event::Lost(digit) => {
            ("lost", digit, "the fourth wrong word in a row, and its frame is not handed over")
        }
        Event::AlarmBegins(digit) => (
            "alarm indication begins",
            digit,
            "the second stretch in a row with few zeros ends there",
        ),
        Event::AlarmEnds(digit) => (
            "alarm indication ends",
            digit,
            "the second stretch in a row with more zeros ends there",
        ),
    };
    format!("{what} at digit {digit} ({}): {why}\n", time(row.rate, *digit))
}

/// When a digit comes at the nominal rate in kbit/s, to the nearest microsecond.
pub fn time(rate: u64, digit: usize) -> String {
    let microseconds = (2000 * digit as u64 + rate) / (2 * rate);
    let seconds = microseconds / 1_000_000;
    if seconds == 0 {
        return format!("{}.{:03} ms", microseconds / 1000, microseconds % 1000);
    }
    let minutes = if seconds < 60 { String::new() } else { format!("{} min ", seconds / 60) };
    format!("{minutes}{}.{:06} s", seconds % 60, microseconds % 1_000_000)
}

/// Where the frames handed over were in the recording, a line for each stretch without a gap.
pub fn stretches(row: &Row, found: &Found) -> String {
    let one = |(digit, frames): (usize, std::ops::Range<usize>)| {
        format!(
            "frames {} to {}: from digit {digit} of the recording on ({})\n",
            frames.start,
            frames.end - 1,
            time(row.rate, digit)
        )
    };
    found.stretches(row).into_iter().map(one).collect()
}

/// What is said where a frame acts on a vote that nobody knows: that before each stretch, but for the
/// first where it is given.
pub fn unknown_votes(row: &Row, found: &Found, given: bool) -> String {
    let stretches = found.stretches(row);
    let unknown = stretches.len() - usize::from(given && !stretches.is_empty());
    if !row.negative_places || unknown == 0 {
        return String::new();
    }
    let which = match (unknown, given) {
        (1, _) => format!("frame {}", stretches[stretches.len() - 1].1.start),
        (_, false) => "the first frame of each stretch".into(),
        (_, true) => "the first frame of each stretch but the first".into(),
    };
    format!(
        "The vote before {which} is not known and taken as 0: there a tributary that voted 1 has a digit \
         too many.\n"
    )
}

fn mode(mode: u64) -> String {
    match mode {
        0 => "hunting".into(),
        1 => "one good word found".into(),
        2 => "two good words found".into(),
        more => format!("aligned, {} words missed", more - 3),
    }
}

pub fn no_level(word: &str) -> String {
    format!(
        "refused 1: no level {word}; LEVEL is 2, 3, 4, 12 or 14, or the rate: 8448, 34368, 139264, \
         8448pzn or 139264pzn."
    )
}

pub fn no_whole_frames(row: &Row, path: &str, bytes: usize) -> String {
    format!(
        "refused 2: {path} has {bytes} bytes, no whole number of frames; a frame of level {} \
         has {} bytes. In a recording begun anywhere find the frames first, with find or --find.",
        row.level,
        row.frame_bytes()
    )
}

/// A capture where a line is asked for.
pub fn no_line_but_a_capture(row: &Row, path: &str, bytes: usize) -> String {
    let line = no_whole_frames(row, path, bytes);
    let (frames, _) = line.split_once(" In a recording").expect("two sentences");
    frames.to_string() + " It is a capture: leave --level out, or write its line with show."
}

/// Notes of so many bytes for a line of so many frames.
pub fn no_note_each(notes: &str, bytes: usize, line: &str, frames: usize) -> String {
    format!(
        "refused 3: {notes} has {bytes} bytes, and {line} has {frames} frames; a note is one \
         byte for each."
    )
}

pub fn no_room(row: &Row, path: &str, bytes: usize, frames: usize) -> String {
    format!(
        "refused 4: {path} has {bytes} bytes, and {frames} frames of level {} want four equal \
         quarters of {} bytes or more.",
        row.level,
        room(row, frames)
    )
}

/// A note with more than votes where the level has no service digits in its notes.
pub fn no_such_bits(path: &str, frame: usize) -> String {
    format!(
        "refused 5: {path}: the note of frame {frame} has a bit over 3 set; a note of level 12 \
         or 14 has votes alone."
    )
}

/// A vote before the first frame that is none.
pub fn no_vote(word: &str) -> String {
    format!(
        "refused 5: {word} is no vote of the frame before the first; it has a bit for each \
         tributary, 0 to 15 or 0 to F."
    )
}

pub fn no_such_digits(path: &str, frame: usize) -> String {
    format!(
        "refused 5: {path}: the note of frame {frame} has bit 6 or 7 set; only level 4 has \
         these national digits."
    )
}

/// A note in which a national digit is 0.
pub fn no_national(path: &str, row: &Row, frame: usize) -> String {
    let bits = if row.national_digits == 1 { "bit 5 is" } else { "bits 5, 6 and 7 are" };
    format!(
        "refused 10: {path}: the note of frame {frame} has a national digit of 0; at level {} {bits} \
         1 in every note.",
        row.level
    )
}

/// What cannot be done with a path, that it be opened, read or written, and the system's reason: it
/// is not there, its folder is not, or it is a folder.
pub fn cannot(path: &str, be: &str) -> String {
    let missing = be == "opened" || path.starts_with("none/");
    let why = if missing { "No such file or directory" } else { "Is a directory" };
    format!("failed: {path} cannot be {be}: {why}.")
}

/// What a capture holds, as keep and show say it.
pub fn capture(row: &Row, line: &[u8], label: Option<&[u8]>) -> String {
    let frames = line.len() / row.frame_bytes();
    let label = label.map_or("none".into(), quoted);
    format!("Level {}, {} kbit/s\nframes: {frames}\nlabel: {label}\n", row.level, row.rate)
}

/// A label between quotation marks: letters of UTF-8 as they are, any other byte that cannot be
/// printed by its number.
fn quoted(label: &[u8]) -> String {
    let mut text = String::new();
    let mut rest = label;
    while let Some(&byte) = rest.first() {
        let letter = (2..=4).filter_map(|long| std::str::from_utf8(rest.get(..long)?).ok()).next();
        match (byte, letter) {
            (b'"' | b'\\', _) => text += &format!("\\{}", char::from(byte)),
            (b' '..=b'~', _) => text.push(char::from(byte)),
            (0x80.., Some(letter)) if !letter.chars().all(char::is_control) => {
                text += letter;
                rest = &rest[letter.len() - 1..];
            }
            _ => text += &format!("\\x{byte:02x}"),
        }
        rest = &rest[1..];
    }
    format!("\"{text}\"")
}

/// A line that no capture can have.
pub fn no_line(row: &Row, path: &str, bytes: usize) -> String {
    let frames = frames(row);
    format!("refused 2: {path}: expected {frames}; found {bytes} bytes.")
}

fn frames(row: &Row) -> String {
    format!("0 to {MOST_FRAMES} frames of level {}, {} bytes each", row.level, row.frame_bytes())
}

/// A label over 32 bytes.
pub fn long_label(path: &str, bytes: usize) -> String {
    format!("refused 9: {path}, byte 0: expected a label of at most 32 bytes; found {bytes} bytes.")
}

/// Why a file is refused that is no capture.
pub fn no_capture(path: &str, file: &[u8]) -> String {
    let read = read_capture(file);
    let (byte, expected, found) = match read.refusal {
        1 => (3, "level 2, 3, 4, 12 or 14".into(), file[3].to_string()),
        2 => {
            let row = row(u64::from(file[3])).expect("a level");
            (4, frames(row), format!("a line of {} bytes", line_bytes(file)))
        }
        9 => (read.byte as usize, field(file, read.byte), stands(&file[read.byte as usize..])),
        other => panic!("the reader gives {other}"),
    };
    format!("refused {}: {path}, byte {byte}: expected {expected}; found {found}.", read.refusal)
}

/// The length that the second field gives.
fn line_bytes(file: &[u8]) -> u64 {
    u64::from(u16::from_be_bytes([file[5], file[6]]))
}

/// What may stand at the byte that refusal 9 names.
fn field(file: &[u8], byte: u64) -> String {
    let field = match byte {
        0 => "the level, 01 00 01 and a byte",
        4 => "the line, 02, its length in two bytes and so many bytes",
        _ if byte == 7 + line_bytes(file) => {
            "the end, or a label, 03, its length up to 00 20 and so many bytes"
        }
        _ => "the end",
    };
    field.into()
}

/// The first three bytes of what stands there, and how many come after them.
fn stands(rest: &[u8]) -> String {
    let shown: Vec<String> = rest.iter().take(3).map(|byte| format!("{byte:02x}")).collect();
    match rest.len() {
        0 => "the end".into(),
        1..=3 => format!("{} and the end", shown.join(" ")),
        all => format!("{}, {} bytes more and the end", shown.join(" "), all - 3),
    }
}
