//! The command line: every command with its words, its options and an example.

use std::path::PathBuf;

use clap::{Args, Parser, Subcommand, ValueEnum};

const VERSION: &str =
    concat!(env!("CARGO_PKG_VERSION"), " (commit ", env!("SPRITBOBBIN_COMMIT"), ")");

const AFTER: &str = "\
LEVEL is 2, 3 or 4 (8448, 34368, 139264 kbit/s), 12 or 14 (8448 and 139264 with positive/zero/negative
justification), or the rate: 8448, 34368, 139264, 8448pzn, 139264pzn. A file without --level is a capture, which
says its own level.

- in place of a file that is read is standard input, in place of one that is written standard output; a file of that
name is ./-. What a command says goes to standard output, or to standard error where an output is -. Refusals,
failures and, on a terminal, how far it is go to standard error.

Exit status: 0 done, 1 refused (with the refusal's number on standard error) or, with --check, an answer that is not
good, 2 wrong call, 3 a file could not be read or written.";

/// What stands below the help of a command: which of its files may be standard input or output, and an example.
macro_rules! below {
    (none, $words:literal) => {
        concat!("Example:\n  spritbobbin ", $words)
    };
    (input, $words:literal) => {
        concat!("- in place of the file is standard input.\n\n", below!(none, $words))
    };
    (svg, $words:literal) => {
        concat!(
            "--svg - draws to standard output; what is said then goes to standard error.\n\n",
            below!(none, $words)
        )
    };
    (both, $words:literal) => {
        concat!(
            "- in place of a file that is read is standard input, in place of one that is written standard\n\
             output; what is said goes to standard error where an output is -.\n\n",
            below!(none, $words)
        )
    };
}

/// Recordings of plesiochronous multiplexers taken apart, judged and compared.
#[derive(Debug, Parser)]
#[command(name = "spritbobbin", version = VERSION, after_help = AFTER, max_term_width = 100)]
#[command(subcommand_required = true, arg_required_else_help = true)]
pub struct Cli {
    /// Says all as one JSON object in place of text
    #[arg(long, global = true)]
    pub json: bool,
    /// Says nothing but refusals and failures
    #[arg(long, short, global = true)]
    pub quiet: bool,
    #[command(subcommand)]
    pub command: Command,
}

#[derive(Debug, Subcommand)]
pub enum Command {
    /// A multiplexer that acts a frame late, on built-in data
    #[command(after_help = below!(none, "demo"))]
    Demo(Demo),
    /// The frame of a level, place by place
    #[command(after_help = below!(svg, "frame -l 2 --note 2D --svg frame.svg"))]
    Frame(Frame),
    /// Makes a line of notes and tributaries
    #[command(after_help = below!(both, "send -l 2 notes tributaries line"))]
    Send(Send),
    /// Takes a line, a capture or a recording apart
    #[command(after_help = below!(both, "take -l 2 line notes tributaries"))]
    Take(Take),
    /// The notes of a line, a capture or a recording as a table
    #[command(after_help = below!(both, "notes -l 3 line notes"))]
    Notes(Notes),
    /// Takes a line apart by the notes of a file
    #[command(after_help = below!(both, "extract -l 3 line notes tributaries"))]
    Extract(Extract),
    /// Takes a line apart and makes it again by both engines, and compares
    #[command(after_help = below!(input, "agree -l 2 line"))]
    Agree(Agree),
    /// Finds the frames in a recording begun anywhere
    #[command(after_help = below!(input, "find -l 2 recording --out seen"))]
    Find(Find),
    /// Up to 64 recordings side by side
    #[command(after_help = below!(input, "watch 2=north 2=south 4=trunk"))]
    Watch(Watch),
    /// Did the clock move, or the frame index?
    #[command(
        after_help = below!(both, "judge -l 2 recording --pattern 15 --find --page verdict.html")
    )]
    Judge(Judge),
    /// Writes one tributary of a line or a capture anew
    #[command(
        after_help = below!(both, "swap -l 2 --tributary 3 line notes digits new")
    )]
    Swap(Swap),
    /// Sets worn digits right, in a new file
    #[command(after_help = below!(both, "repair worn.capture new.capture"))]
    Repair(Repair),
    /// Keeps up to 64 frames as a capture
    #[command(after_help = below!(both, "keep -l 2 line capture --label 'Hop A'"))]
    Keep(Keep),
    /// What a capture holds
    #[command(after_help = below!(both, "show capture line"))]
    Show(Show),
    /// Where two captures, lines or recordings differ
    #[command(
        after_help = below!(both, "compare here.capture there.capture --svg d.svg")
    )]
    Compare(Compare),
    /// Some frames of a line, a capture or a recording, as a line or a capture
    #[command(after_help = below!(both, "cut -l 2 line 100 164 part.capture --capture"))]
    Cut(Cut),
    /// The quarters of a file of tributaries, each in a file of its own
    #[command(after_help = below!(both, "split tributaries one two three four"))]
    Split(Split),
    /// Four files, one to a tributary, as the quarters of one
    #[command(after_help = below!(both, "join one two three four tributaries"))]
    Join(Join),
    /// The multiframe of 2048 kbit/s, place by place
    #[command(after_help = below!(svg, "multiframe --svg multiframe.svg"))]
    Multiframe(Multiframe),
    /// Makes multiframes of channels, signalling and spare digits
    #[command(after_help = below!(both, "build channels signalling spare multiframes"))]
    Build(Build),
    /// Takes multiframes apart
    #[command(after_help = below!(both, "apart multiframes channels signalling spare"))]
    Apart(Apart),
    /// Finds the frames of 2048 kbit/s in a recording
    #[command(after_help = below!(input, "hunt recording"))]
    Hunt(Hunt),
    /// Writes the completions of a shell to standard output
    #[command(after_help = below!(none, "completions bash > spritbobbin.bash"))]
    Completions(Completions),
    /// Writes the manual page to standard output
    #[command(hide = true)]
    Manual,
}

/// The level of a file, where it is no capture.
#[derive(Debug, Args)]
pub struct OfLevel {
    /// The level or the rate of the line; without it the file is a capture
    #[arg(long = "level", short, value_name = "LEVEL")]
    pub level: Option<String>,
}

/// The level, where there must be one.
#[derive(Debug, Args)]
pub struct AtLevel {
    /// The level or the rate of the line
    #[arg(long = "level", short, value_name = "LEVEL")]
    pub level: String,
}

#[derive(Debug, Args)]
pub struct After {
    /// The vote of the frame before the first, at levels 12 and 14: 0 to 15, or 0 to F
    #[arg(long, value_name = "N")]
    pub earlier: Option<String>,
}

#[derive(Clone, Copy, Debug, PartialEq, Eq, ValueEnum)]
pub enum Engine {
    Quick,
    Plain,
}

#[derive(Debug, Args)]
pub struct By {
    /// The engine: the quick one, or the plain one that goes digit by digit
    #[arg(long, value_enum, default_value = "quick", value_name = "ENGINE")]
    pub engine: Engine,
}

#[derive(Debug, Args)]
pub struct Finding {
    /// LINE is a recording begun anywhere, of the level that is said: its frames are found first
    #[arg(long)]
    pub find: bool,
}

#[derive(Debug, Args)]
pub struct Demo {}

#[derive(Debug, Args)]
pub struct Frame {
    #[command(flatten)]
    pub of: AtLevel,
    /// A note as two hexadecimal digits: what its frame holds
    #[arg(long, value_name = "NOTE")]
    pub note: Option<String>,
    #[command(flatten)]
    pub after: After,
    /// Draws the frame
    #[arg(long, value_name = "FILE")]
    pub svg: Option<PathBuf>,
}

#[derive(Debug, Args)]
pub struct Send {
    #[command(flatten)]
    pub of: AtLevel,
    /// A byte to a frame
    pub notes: PathBuf,
    /// Four equal quarters, one to a tributary
    pub tributaries: PathBuf,
    /// The line that is made
    pub line: PathBuf,
    #[command(flatten)]
    pub by: By,
    #[command(flatten)]
    pub after: After,
}

#[derive(Debug, Args)]
pub struct Take {
    #[command(flatten)]
    pub of: OfLevel,
    /// The line, or a capture without --level
    pub line: PathBuf,
    /// The notes that are read
    pub notes: PathBuf,
    /// The tributaries that are taken out
    pub tributaries: PathBuf,
    #[command(flatten)]
    pub by: By,
    #[command(flatten)]
    pub after: After,
    #[command(flatten)]
    pub finding: Finding,
}

#[derive(Debug, Args)]
pub struct Notes {
    #[command(flatten)]
    pub of: OfLevel,
    /// The line, or a capture without --level
    pub line: PathBuf,
    /// A file for the notes, a byte to a frame
    pub notes: Option<PathBuf>,
    #[command(flatten)]
    pub after: After,
    #[command(flatten)]
    pub finding: Finding,
}

#[derive(Debug, Args)]
pub struct Extract {
    #[command(flatten)]
    pub of: AtLevel,
    /// The line
    pub line: PathBuf,
    /// The notes by which it is taken apart
    pub notes: PathBuf,
    /// The tributaries that are taken out
    pub tributaries: PathBuf,
    #[command(flatten)]
    pub after: After,
}

#[derive(Debug, Args)]
pub struct Agree {
    #[command(flatten)]
    pub of: AtLevel,
    /// The line, of any bytes
    pub line: PathBuf,
    #[command(flatten)]
    pub after: After,
}

#[derive(Debug, Args)]
pub struct Find {
    #[command(flatten)]
    pub of: AtLevel,
    /// Digits of a line, begun anywhere
    pub recording: PathBuf,
    /// Writes the frames handed over as they came and taken apart: PREFIX.line, PREFIX.notes, PREFIX.tributaries
    #[arg(long, value_name = "PREFIX")]
    pub out: Option<PathBuf>,
    #[command(flatten)]
    pub after: After,
    /// Status 1 where alignment was not found, or was lost
    #[arg(long)]
    pub check: bool,
}

#[derive(Debug, Args)]
pub struct Watch {
    /// A level and a recording, up to 64 of them; 2=- reads standard input
    #[arg(required = true, value_name = "LEVEL=RECORDING")]
    pub lines: Vec<std::ffi::OsString>,
    /// Status 1 where a line is not aligned at its end
    #[arg(long)]
    pub check: bool,
}

#[derive(Debug, Args)]
pub struct Judge {
    #[command(flatten)]
    pub of: OfLevel,
    /// The line, or a capture without --level
    pub line: PathBuf,
    /// The tributaries as they were sent: four equal quarters
    #[arg(required_unless_present = "pattern", conflicts_with = "pattern")]
    pub sent: Option<PathBuf>,
    /// The test pattern that every tributary carries: 15 or 23 (O.150)
    #[arg(long, value_name = "15|23")]
    pub pattern: Option<String>,
    #[command(flatten)]
    pub after: After,
    #[command(flatten)]
    pub finding: Finding,
    /// Writes the verdict as one page
    #[arg(long, value_name = "FILE.html")]
    pub page: Option<PathBuf>,
    /// The site, said with the verdict and on its page
    #[arg(long, value_name = "TEXT")]
    pub label: Option<String>,
    /// Status 1 where a tributary is late, early or slipped, what was sent is not there, or no frame is found
    #[arg(long)]
    pub check: bool,
}

#[derive(Debug, Args)]
pub struct Swap {
    #[command(flatten)]
    pub of: OfLevel,
    /// The tributary that is written anew: 1, 2, 3 or 4
    #[arg(long, short, value_name = "J")]
    pub tributary: String,
    /// The line, or a capture without --level
    pub line: PathBuf,
    /// Its decisions, in this tributary's bit of each note
    pub notes: PathBuf,
    /// Its digits
    pub digits: PathBuf,
    /// The line or capture that is made
    pub new: PathBuf,
    #[command(flatten)]
    pub after: After,
}

#[derive(Debug, Args)]
pub struct Repair {
    #[command(flatten)]
    pub of: OfLevel,
    /// The line, or a capture without --level
    pub line: PathBuf,
    /// The line or capture that is made
    pub new: PathBuf,
    /// Sets national digits to 1 too
    #[arg(long)]
    pub national: bool,
    #[command(flatten)]
    pub after: After,
}

#[derive(Debug, Args)]
pub struct Keep {
    #[command(flatten)]
    pub of: AtLevel,
    /// The line, of up to 64 frames; with --find the first ones that follow one another are kept
    pub line: PathBuf,
    /// The capture that is made
    pub capture: PathBuf,
    /// A site label of up to 32 bytes
    #[arg(long, value_name = "TEXT")]
    pub label: Option<std::ffi::OsString>,
    #[command(flatten)]
    pub finding: Finding,
}

#[derive(Debug, Args)]
pub struct Show {
    /// The capture
    pub capture: PathBuf,
    /// A file for its line
    pub line: Option<PathBuf>,
}

#[derive(Debug, Args)]
pub struct Compare {
    #[command(flatten)]
    pub of: OfLevel,
    /// A capture, or with --level a line
    pub one: PathBuf,
    /// The other, of the same kind
    pub other: PathBuf,
    /// Draws where they differ
    #[arg(long, value_name = "FILE")]
    pub svg: Option<PathBuf>,
    /// Both are recordings begun anywhere, of the level that is said: their frames are found first
    #[arg(long)]
    pub find: bool,
    /// Status 1 where they differ, or where --find finds no frames that are in both
    #[arg(long)]
    pub check: bool,
}

#[derive(Debug, Args)]
pub struct Cut {
    #[command(flatten)]
    pub of: OfLevel,
    /// The line, or a capture without --level
    pub line: PathBuf,
    /// The first frame, or with s behind it the time of its begin in seconds, as 0.5s
    #[arg(value_name = "FROM")]
    pub from: String,
    /// The frame after the last, or its time
    #[arg(value_name = "TO")]
    pub to: String,
    /// The line or capture that is made
    pub part: PathBuf,
    /// Makes a capture, of up to 64 frames
    #[arg(long)]
    pub capture: bool,
    /// The capture's site label
    #[arg(long, value_name = "TEXT", requires = "capture")]
    pub label: Option<std::ffi::OsString>,
    #[command(flatten)]
    pub finding: Finding,
}

#[derive(Debug, Args)]
pub struct Split {
    /// Four equal quarters
    pub tributaries: PathBuf,
    /// Tributary 1
    pub one: PathBuf,
    /// Tributary 2
    pub two: PathBuf,
    /// Tributary 3
    pub three: PathBuf,
    /// Tributary 4
    pub four: PathBuf,
}

#[derive(Debug, Args)]
pub struct Join {
    /// Tributary 1
    pub one: PathBuf,
    /// Tributary 2
    pub two: PathBuf,
    /// Tributary 3
    pub three: PathBuf,
    /// Tributary 4
    pub four: PathBuf,
    /// Four equal quarters, each as long as the longest of the four, with zeros behind the others
    pub tributaries: PathBuf,
}

#[derive(Debug, Args)]
pub struct Multiframe {
    /// Draws the multiframe
    #[arg(long, value_name = "FILE")]
    pub svg: Option<PathBuf>,
}

#[derive(Debug, Args)]
pub struct Build {
    /// 480 bytes to a multiframe
    pub channels: PathBuf,
    /// 15 bytes to a multiframe
    pub signalling: PathBuf,
    /// 9 bytes to a multiframe
    pub spare: PathBuf,
    /// The multiframes that are made
    pub multiframes: PathBuf,
}

#[derive(Debug, Args)]
pub struct Apart {
    /// Whole multiframes, or with --find a recording
    pub multiframes: PathBuf,
    /// 480 bytes to a multiframe
    pub channels: PathBuf,
    /// 15 bytes to a multiframe
    pub signalling: PathBuf,
    /// 9 bytes to a multiframe
    pub spare: PathBuf,
    /// The file is a recording begun anywhere: its multiframes are found first
    #[arg(long)]
    pub find: bool,
}

#[derive(Debug, Args)]
pub struct Hunt {
    /// Digits of a line of 2048 kbit/s, begun anywhere; where a multiframe begins is not said of a pipe
    pub recording: PathBuf,
    /// Status 1 where frames were not found, or were lost
    #[arg(long)]
    pub check: bool,
}

#[derive(Debug, Args)]
pub struct Completions {
    /// The shell
    pub shell: clap_complete::Shell,
}
