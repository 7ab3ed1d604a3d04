//! `command_cases DIR` writes into DIR the cases on which the commands of the program are tried. What the
//! program must print and write is worked out by this package alone.
//!
//! A case is a folder, and the file `list` in DIR names every one of them, a line each:
//!
//! - `command`: the words of the command, a line each, an empty word as two quotation marks;
//!   an empty line stands between two commands that are run one after the other;
//! - `given`: the folder in which the commands are run, as it is before;
//! - `after`: the same folder as it must be afterwards, with nothing more in it;
//! - `expected.status`: the exit status of each command, a line each;
//! - `expected.stdout` and `expected.stderr`: all that the commands must print, one after the
//!   other. Where the words are left to the program, there are instead `expected.has`, patterns
//!   each of which some line must match, and `expected.last`, the pattern of the last line; of
//!   standard output where the status is 0, else of standard error;
//! - `expected.svg`, where a picture is made: its name. Its bytes are left to the program;
//! - `expected.page`, where a page is made: its name; then how many elements of a name or of
//!   a class it has, as `8 svg`, six lines; then texts that stand in it, a line each.
//!
//! `case` writes such a folder. `inputs` and `stream` make what is read, `worked` says
//! what comes of it and `texts` in which words. The others list the cases.

// Tributaries are numbered, and what is theirs stands in arrays by that number.
#![allow(clippy::needless_range_loop)]

mod approving;
mod calling;
mod case;
mod comparing;
mod finding;
mod hunting;
mod inputs;
mod judging;
mod keeping;
mod multiframes;
mod noting;
mod paging;
mod pictures;
mod repairing;
mod sending;
mod showing;
mod stream;
mod swapping;
mod taking;
mod texts;
mod trips;
mod voting;
mod watching;
mod worked;

use std::path::Path;
use std::{env, fs, io, process};

fn main() -> io::Result<()> {
    let folder = match env::args().nth(1) {
        Some(folder) => folder,
        None => {
            eprintln!("command_cases DIR: the folder to write the cases into is missing");
            process::exit(2);
        }
    };
    let folder = Path::new(&folder);
    fs::create_dir_all(folder)?;
    let mut cases = pictures::cases();
    cases.extend(sending::cases());
    cases.extend(taking::cases());
    cases.extend(noting::cases());
    cases.extend(finding::cases());
    cases.extend(watching::cases());
    cases.extend(keeping::cases());
    cases.extend(showing::cases());
    cases.extend(comparing::cases());
    cases.extend(multiframes::cases());
    cases.extend(hunting::cases());
    cases.extend(approving::cases());
    cases.extend(trips::cases());
    cases.extend(voting::cases());
    cases.extend(swapping::cases());
    cases.extend(judging::cases());
    cases.extend(paging::cases());
    cases.extend(repairing::cases());
    cases.extend(calling::cases());
    let mut list = String::new();
    for (k, case) in cases.iter().enumerate() {
        let name = format!("{:03}-{}", k + 1, case.name);
        case.write(&folder.join(&name))?;
        list += &(name + "\n");
    }
    fs::write(folder.join("list"), list)
}
