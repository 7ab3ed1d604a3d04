//! A file for each command. Each answers the exit status, or why it was not carried out.

mod agree;
mod compare;
mod demo;
mod extract;
mod find;
mod frame;
mod hunt;
mod judge;
mod keep;
mod multiframe;
mod multiframes;
mod notes;
mod parts;
mod repair;
mod send;
mod shells;
mod show;
mod swap;
mod take;
mod watch;

use crate::cli::Command;
use crate::failure::Failure;
use crate::report::Saying;

pub fn run(command: Command, saying: Saying) -> Result<u8, Failure> {
    match command {
        Command::Demo(call) => demo::run(call, saying),
        Command::Send(call) => send::run(call, saying),
        Command::Take(call) => take::run(call, saying),
        Command::Notes(call) => notes::run(call, saying),
        Command::Extract(call) => extract::run(call, saying),
        Command::Agree(call) => agree::run(call, saying),
        Command::Find(call) => find::run(call, saying),
        Command::Watch(call) => watch::run(call, saying),
        Command::Judge(call) => judge::run(call, saying),
        Command::Swap(call) => swap::run(call, saying),
        Command::Repair(call) => repair::run(call, saying),
        Command::Keep(call) => keep::run(call, saying),
        Command::Build(call) => multiframes::build(call, saying),
        Command::Apart(call) => multiframes::apart(call, saying),
        Command::Hunt(call) => hunt::run(call, saying),
        Command::Show(call) => show::run(call, saying),
        Command::Frame(call) => frame::run(call, saying),
        Command::Compare(call) => compare::run(call, saying),
        Command::Cut(call) => parts::cut(call, saying),
        Command::Split(call) => parts::split(call, saying),
        Command::Join(call) => parts::join(call, saying),
        Command::Multiframe(call) => multiframe::run(call, saying),
        Command::Completions(call) => shells::completions(call),
        Command::Manual => shells::manual(),
    }
}
