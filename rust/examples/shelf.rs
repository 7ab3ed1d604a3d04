//! A shelf controller: watches up to 64 lines in one rack, and says of each, when its recording has
//! ended, what it is doing, how many frames came and whether alarm indication stands.
//!
//!     shelf LEVEL=RECORDING ..

use std::env;
use std::error::Error;
use std::fs;

use spritbobbin::{Level, Rack};

fn main() -> Result<(), Box<dyn Error>> {
    let (mut levels, mut names) = (Vec::new(), Vec::new());
    for word in env::args().skip(1) {
        let (level, name) = word.split_once('=').ok_or("say: shelf LEVEL=RECORDING ..")?;
        levels.push(Level::try_from(level.parse::<u64>()?)?);
        names.push(name.to_string());
    }
    let mut rack = Rack::new(&levels)?;
    for (line, name) in names.iter().enumerate() {
        let frames = rack.feed(line, &fs::read(name)?)?.count();
        let (mode, alarm) = (rack.mode(line), rack.has_alarm(line) == Some(true));
        let alarm = if alarm { ", alarm indication" } else { "" };
        println!("{name}: {frames} frames, now {}{alarm}", said(mode));
    }
    println!("{} of {} lines aligned", rack.aligned(), rack.len());
    Ok(())
}

fn said(mode: Option<spritbobbin::Mode>) -> &'static str {
    match mode {
        Some(spritbobbin::Mode::Aligned { missed: 0 }) => "aligned",
        Some(spritbobbin::Mode::Aligned { .. }) => "aligned, with words missed",
        Some(spritbobbin::Mode::Hunting) => "hunting",
        _ => "finding",
    }
}
