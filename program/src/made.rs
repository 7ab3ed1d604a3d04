//! A line that is made of another: a line again, or a capture again of the same level and with the same label.

use std::path::Path;

use spritbobbin::{capture_bytes, write_capture, Level, MOST_FRAMES};

use crate::captures;
use crate::failure::Failure;
use crate::files::{self, Output};
use crate::runs::Line;

/// The new file, and the frames of a capture until they are all there.
#[derive(Debug)]
pub struct Made {
    output: Output,
    captured: Option<Captured>,
}

#[derive(Debug)]
struct Captured {
    level: Level,
    label: Option<Vec<u8>>,
    line: Vec<u8>,
}

impl Made {
    /// A file like the one that this line is from.
    pub fn create(name: &Path, line: &Line) -> Result<Made, Failure> {
        let output = Output::create(name)?;
        let captured = line.captured.then(|| Captured {
            level: line.level,
            label: line.label.clone(),
            line: Vec::new(),
        });
        Ok(Made { output, captured })
    }

    /// A capture of this level and label.
    pub fn capture(name: &Path, level: Level, label: Option<Vec<u8>>) -> Result<Made, Failure> {
        let output = Output::create(name)?;
        Ok(Made { output, captured: Some(Captured { level, label, line: Vec::new() }) })
    }

    /// A bare line.
    pub fn line(name: &Path) -> Result<Made, Failure> {
        Ok(Made { output: Output::create(name)?, captured: None })
    }

    pub fn append(&mut self, frames: &[u8]) -> Result<(), Failure> {
        match &mut self.captured {
            // A capture has at most 64 frames; more are refused in the end, and not kept until then.
            Some(one) if one.line.len() <= one.level.frame_bytes().saturating_mul(MOST_FRAMES) => {
                one.line.extend_from_slice(frames);
                Ok(())
            }
            Some(_) => Ok(()),
            None => self.output.append(frames),
        }
    }

    /// Gives the file its name, and answers it as it is said.
    pub fn keep(mut self) -> Result<Vec<String>, Failure> {
        if let Some(Captured { level, label, line }) = self.captured {
            let label = label.as_deref();
            let mut file = vec![0; capture_bytes(line.len(), label.map(<[u8]>::len))];
            let bytes =
                write_capture(level, &line, label, &mut file).map_err(|refusal| match refusal {
                    spritbobbin::Refusal::Label { bytes } => {
                        captures::long_label(self.output.name(), bytes)
                    }
                    other => other.into(),
                })?;
            self.output.append(file.get(..bytes).unwrap_or_default())?;
        }
        files::keep(vec![self.output])
    }
}
