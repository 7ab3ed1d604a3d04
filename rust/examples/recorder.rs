//! A recorder: finds frames in what comes on standard input and keeps them as captures of up to 64
//! frames, PREFIX.0, PREFIX.1 and so on, with a site label.
//!
//!     recorder LEVEL LABEL PREFIX < RECORDING

use std::env;
use std::error::Error;
use std::fs;
use std::io;

use spritbobbin::{capture_bytes, write_capture, FrameStream, Level, MOST_FRAMES};

fn main() -> Result<(), Box<dyn Error>> {
    let words: Vec<String> = env::args().skip(1).collect();
    let [level, label, prefix] = &words[..] else {
        return Err("say: recorder LEVEL LABEL PREFIX < RECORDING".into());
    };
    let level = Level::try_from(level.parse::<u64>()?)?;
    let (mut line, mut captures) = (Vec::new(), 0);
    for frame in FrameStream::new(level, io::stdin().lock()) {
        line.extend_from_slice(frame?.bytes());
        if line.len() == MOST_FRAMES * level.frame_bytes() {
            keep(level, &line, label, &format!("{prefix}.{captures}"))?;
            (line, captures) = (Vec::new(), captures + 1);
        }
    }
    if !line.is_empty() {
        keep(level, &line, label, &format!("{prefix}.{captures}"))?;
    }
    Ok(())
}

fn keep(level: Level, line: &[u8], label: &str, name: &str) -> Result<(), Box<dyn Error>> {
    let mut file = vec![0; capture_bytes(line.len(), Some(label.len()))];
    write_capture(level, line, Some(label.as_bytes()), &mut file)?;
    fs::write(name, file)?;
    println!("{name}: {} frames", line.len() / level.frame_bytes());
    Ok(())
}
