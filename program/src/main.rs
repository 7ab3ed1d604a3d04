//! `spritbobbin`: recordings of plesiochronous multiplexers, over the proved library.
//!
//! No digit is read, moved or judged here. The program opens files, parses words, calls the library, counts up what its
//! calls answer, and prints. `cli` has the words of every command, `commands` a file for each, `files` what is read and
//! written, `runs` the walk over a line 64 frames at a time, `report` how something is said.

#![forbid(unsafe_code)]
#![cfg_attr(
    not(test),
    deny(clippy::unwrap_used, clippy::expect_used, clippy::indexing_slicing, clippy::panic)
)]

mod acts;
mod apart;
mod captures;
mod cli;
mod commands;
mod engine;
mod failure;
mod files;
mod level;
mod listening;
mod made;
mod overlaps;
mod page;
mod pictures;
mod places;
mod progress;
mod quarters;
mod report;
mod runs;
mod stretches;
mod times;
mod totals;
mod verdict;

use std::io::Write;
use std::process::ExitCode;

use clap::Parser;

use crate::cli::Cli;
use crate::failure::Failure;
use crate::report::Saying;

fn main() -> ExitCode {
    // Ends with status 2 and the right form where the call is wrong, and with 0 after --help and --version.
    let cli = Cli::parse();
    files::watch_signals();
    let saying = Saying { json: cli.json, quiet: cli.quiet, aside: false };
    match commands::run(cli.command, saying) {
        Ok(status) => ExitCode::from(status),
        Err(failure) => {
            if !matches!(failure, Failure::Unheard) {
                // Where standard error is closed too, the status alone says it.
                let _ = writeln!(std::io::stderr(), "{failure}");
            }
            ExitCode::from(failure.status())
        }
    }
}
