//! Calls that name no command, leave words out, add words, or have a word where it cannot stand; calls
//! for help; and calls that name a file twice.

use crate::case::{words, Case};
use crate::inputs::level;
use crate::texts::{self, written, written_over};
use crate::worked;

/// The commands.
const COMMANDS: [&str; 23] = [
    "demo",
    "frame",
    "send",
    "take",
    "notes",
    "extract",
    "agree",
    "find",
    "watch",
    "judge",
    "swap",
    "repair",
    "keep",
    "show",
    "compare",
    "cut",
    "split",
    "join",
    "multiframe",
    "build",
    "apart",
    "hunt",
    "completions",
];

/// Wrong calls. The files that they name are there.
const WRONG: [&str; 92] = [
    "",
    "bogus",
    "sen -l 2 notes tributaries out",
    "a-command-that-is-a-word-of-many-letters",
    "demo 2",
    "frame",
    "frame 2",
    "frame -l 2 picture.svg",
    "frame -l 2 --note 3",
    "frame -l 2 --note 3FF",
    "frame -l 2 --note GG",
    "frame -l 2 --note +F",
    "frame -l 2 --note 3F --note 3F",
    "frame -l 2 --svg",
    "send",
    "send notes tributaries out",
    "send -l 2 notes tributaries",
    "send -l 2 notes tributaries out more",
    "send -l 2 -l 3 notes tributaries out",
    "send -l 2 --engine slow notes tributaries out",
    "take",
    "take line",
    "take line out",
    "take line out out",
    "take line out more yet-more",
    "take -l 2 line",
    "take -l 2 line out",
    "take -l 2 line out out",
    "take -l 2 line out ./out",
    "take -l 2 line out more yet-more",
    "take --find line out more",
    "take --earlier 5 line out",
    "take --bogus line out more",
    "agree",
    "agree line",
    "agree -l 2",
    "agree -l 2 line more",
    "notes",
    "notes -l 2",
    "notes -l 2 line out more",
    "notes --find line out",
    "extract -l 2 line notes",
    "extract line notes out",
    "extract -l 2 line notes out more",
    "swap",
    "swap -l 2 line notes tributaries out",
    "swap -l 2 --tributary 1 line notes tributaries",
    "swap -l 2 --tributary 1 line notes tributaries out more",
    "repair",
    "repair line",
    "repair -l 2 line",
    "repair --earlier 5 line",
    "repair -l 2 line out more",
    "judge",
    "judge line",
    "judge -l 2 line",
    "judge --earlier 5 line",
    "judge -l 2 line tributaries out",
    "judge -l 2 line tributaries --pattern 15",
    "find",
    "find line",
    "find -l 2",
    "find -l 2 line out",
    "watch",
    "watch 2",
    "watch 2=",
    "watch 2=line 3",
    "keep",
    "keep line out",
    "keep -l 2 line",
    "keep -l 2 line out label",
    "show",
    "show line out more",
    "compare",
    "compare line",
    "compare line line picture.svg",
    "multiframe picture.svg",
    "build",
    "build notes tributaries line",
    "build notes tributaries line out more",
    "apart",
    "apart line out more",
    "apart line out more out",
    "apart line more out ./out",
    "hunt",
    "hunt line more",
    "send -l 2 - - out",
    "compare -l 2 - -",
    "watch 2=- 2=-",
    "judge -l 2 - -",
    "join - - line line out",
    "take -l 2 line - -",
];

/// What the help of a command says of - in place of a file: of those that write files, of those that only draw, of those that
/// only read, and nothing of those that do neither.
fn of_streams(command: &str) -> &'static str {
    match command {
        "demo" | "completions" => "^Example:",
        "agree" | "find" | "watch" | "hunt" => "^- in place of the file is standard input\\.$",
        "frame" | "multiframe" => {
            "^--svg - draws to standard output; what is said then goes to standard error\\.$"
        }
        _ => "^output; what is said goes to standard error where an output is -\\.$",
    }
}

/// An output that is a file which is read, by its name or another, and the words for both.
const OVER: [(&str, &str, &str, &str); 16] = [
    ("take -l 2 line line out", "NOTES", "line", "LINE"),
    ("take -l 2 line out ./line", "TRIBUTARIES", "./line", "LINE"),
    ("take line out line", "TRIBUTARIES", "line", "LINE"),
    ("notes -l 2 line line", "NOTES", "line", "LINE"),
    ("notes -l 2 --find line line", "NOTES", "line", "LINE"),
    ("show line line", "LINE", "line", "CAPTURE"),
    ("show line deep/../line", "LINE", "deep/../line", "CAPTURE"),
    ("send -l 2 notes tributaries notes", "LINE", "notes", "NOTES"),
    ("send -l 2 notes tributaries ./tributaries", "LINE", "./tributaries", "TRIBUTARIES"),
    ("extract -l 2 line notes notes", "TRIBUTARIES", "notes", "NOTES"),
    ("extract -l 2 line notes line", "TRIBUTARIES", "line", "LINE"),
    ("keep -l 2 line line", "CAPTURE", "line", "LINE"),
    ("find -l 2 x.line --out x", "PREFIX.line", "x.line", "RECORDING"),
    ("find -l 2 x.line --out ./x", "PREFIX.line", "./x.line", "RECORDING"),
    ("apart line out line more", "SIGNALLING", "line", "MULTIFRAMES"),
    ("build notes tributaries line line", "MULTIFRAMES", "line", "SPARE"),
];

pub fn cases() -> Vec<Case> {
    let form = |command: &&str| format!("^  {command} ");
    let forms: Vec<String> = COMMANDS.iter().map(form).collect();
    let mut cases = vec![
        Case::new("help").like(words("help"), 0, &forms, "be read or written"),
        Case::new("help-h").like(words("-h"), 0, &forms, "be read or written"),
        Case::new("help-long").like(words("--help"), 0, &forms, "be read or written"),
        Case::new("version").like(words("--version"), 0, &[], r"^spritbobbin [0-9.]+ \(commit "),
    ];
    for command in COMMANDS {
        // Each has an example, which calls it.
        let example = format!("^  spritbobbin {command}( |$)");
        let usage = format!("^Usage: spritbobbin {command}( |$)");
        for (how, call) in
            [("long", format!("{command} --help")), ("help", format!("help {command}"))]
        {
            let name = format!("help-of-{command}-{how}");
            cases.push(Case::new(&name).like(
                words(&call),
                0,
                &[usage.clone(), of_streams(command).into()],
                &example,
            ));
        }
    }
    cases.extend(WRONG.iter().map(|command| wrong(command)));
    cases.extend(streams());
    for (call, output, path, input) in OVER {
        let name = format!("over-an-input {call}").replace([' ', '/'], "-");
        cases.push(given(&name).fails(words(call), &written_over(output, path, input)));
    }
    cases
}

/// Standard input and output in place of files: what is said goes to standard error only where an output is -.
fn streams() -> Vec<Case> {
    let row = level(2);
    let line = worked::send(row, &[0x20], &[0; 104]).line;
    let taken = worked::take(row, &line);
    let nothing = texts::taken(row, &worked::take(row, &[])) + &written(&["notes", "tributaries"]);
    vec![
        Case::new("stream-in-take")
            .accepted(words("take -l 2 - notes tributaries"), &nothing)
            .makes("notes", &[])
            .makes("tributaries", &[]),
        Case::new("stream-out-notes").file("line", &line).aside(
            words("notes -l 2 line -"),
            " ",
            &(texts::noted(row, &line) + "written: standard output\n"),
        ),
        Case::new("stream-out-take").file("line", &line).makes("tributaries", &[0; 104]).aside(
            words("take -l 2 line - tributaries"),
            " ",
            &(texts::taken(row, &taken) + "written: standard output\nwritten: tributaries\n"),
        ),
    ]
}

fn given(name: &str) -> Case {
    Case::new(name)
        .folder("deep")
        .file("notes", &[0])
        .file("tributaries", &[0; 104])
        .file("line", &[0; 106])
        .file("x.line", &[0; 106])
}

fn wrong(command: &str) -> Case {
    let name = format!("wrong-call {command}").trim_end().replace([' ', '/'], "-");
    given(&name).like(words(command), 2, &["^(error|wrong call): |^Usage: ".into()], ".")
}
