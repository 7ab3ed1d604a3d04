//! `completions` and `manual`: what an installation wants beside the program.

use std::io::{self, Write};

use clap::{Command, CommandFactory};

use crate::cli::{Cli, Completions};
use crate::failure::Failure;

pub fn completions(call: Completions) -> Result<u8, Failure> {
    let mut script = Vec::new();
    clap_complete::generate(call.shell, &mut Cli::command(), "spritbobbin", &mut script);
    said(&script)
}

pub fn manual() -> Result<u8, Failure> {
    said(page(&mut Cli::command()).as_bytes())
}

fn said(text: &[u8]) -> Result<u8, Failure> {
    let mut out = io::stdout();
    match out.write_all(text).and_then(|()| out.flush()) {
        Ok(()) => Ok(0),
        Err(why) if why.kind() == io::ErrorKind::BrokenPipe => Err(Failure::Unheard),
        Err(why) => Err(Failure::File(format!("standard output cannot be written: {why}."))),
    }
}

/// The manual page, in the macros of mdoc.
fn page(program: &mut Command) -> String {
    program.build();
    let mut page = String::from(
        ".Dd $Mdocdate$\n.Dt SPRITBOBBIN 1\n.Os\n.Sh NAME\n.Nm spritbobbin\n\
         .Nd recordings of plesiochronous multiplexers taken apart, judged and compared\n\
         .Sh SYNOPSIS\n.Nm\n.Op Fl -json\n.Op Fl -quiet\n.Ar command\n.Op Ar words ...\n.Sh DESCRIPTION\n\
         Frames of 8448, 34368 and 139264 kbit/s (G.742, G.751), the older frames\n\
         of 8448 and 139264 kbit/s with positive/zero/negative justification, and\n\
         the multiframe of 2048 kbit/s.\n\
         No digit is read, moved or judged outside a library\n\
         whose every answer is proved.\n.Pp\n\
         A file without\n.Fl -level\nis a capture, which says its own level.\n.Pp\n\
         .Sq \\-\nin place of a file that is read is standard input, in place of one that is\nwritten standard output.\n\
         What a command says goes to standard output, or to standard error where an\noutput is\n.Sq \\- .\n\
         Refusals, failures and, on a terminal, how far it is go to standard error.\n.Sh COMMANDS\n",
    );
    page = page.replace("$Mdocdate$", "November 17, 2026");
    for command in program.get_subcommands().filter(|one| !one.is_hide_set()) {
        if command.get_name() != "help" {
            page += &section(command);
        }
    }
    page + ".Sh EXIT STATUS\n.Bl -tag -width 3n\n.It 0\ndone\n.It 1\nrefused, with the refusal's number on standard error; with\n\
            .Fl -check ,\nan answer that is not good\n.It 2\nwrong call\n.It 3\na file could not be read or written\n.El\n"
}

fn section(command: &Command) -> String {
    let mut text = format!(".Ss {}\n", escaped(command.get_name()));
    if let Some(about) = command.get_about() {
        let about = about.to_string();
        let end = if about.ends_with('?') { "" } else { "." };
        text += &wrapped(&escaped(&format!("{about}{end}")));
    }
    let words: Vec<_> = command.get_positionals().collect();
    let options: Vec<_> = command
        .get_opts()
        .chain(
            command
                .get_arguments()
                .filter(|one| !one.is_positional() && !one.get_action().takes_values()),
        )
        .collect();
    let own = |id: &str| !["json", "quiet", "help", "version"].contains(&id);
    let entries = words.iter().chain(&options).filter(|one| own(one.get_id().as_str()));
    let mut items = String::new();
    for one in entries {
        let value =
            one.get_value_names().and_then(|names| names.first()).map(|name| name.to_string());
        items += &match one.get_long() {
            Some(long) if one.get_action().takes_values() => {
                format!(".It Fl -{long} Ar {}\n", escaped(&value.unwrap_or_default()))
            }
            Some(long) => format!(".It Fl -{long}\n"),
            None => format!(".It Ar {}\n", escaped(&value.unwrap_or_default())),
        };
        let help = one.get_help().map(ToString::to_string).unwrap_or_default();
        items += &wrapped(&escaped(&help));
    }
    if !items.is_empty() {
        text += &format!(".Bl -tag -width Ds\n{items}.El\n");
    }
    text
}

/// The text in lines of at most 76 characters; nothing where there is none.
fn wrapped(text: &str) -> String {
    let mut lines = String::new();
    let mut length: usize = 0;
    for word in text.split_whitespace() {
        let before = match length {
            0 => "",
            _ if length.saturating_add(word.len()) < 76 => " ",
            _ => "\n",
        };
        length = if before == " " { length.saturating_add(1) } else { 0 };
        length = length.saturating_add(word.len());
        lines += &format!("{before}{word}");
    }
    if lines.is_empty() {
        return lines;
    }
    lines + "\n"
}

/// A text in which no character acts on the page.
fn escaped(text: &str) -> String {
    text.replace('\\', "\\e").replace('-', "\\-").replace('|', "\\(ba")
}
