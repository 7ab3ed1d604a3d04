//! The two engines, by the word of the call.

use spritbobbin::{plain, Extracted, Level, Noted, Refusal, Sent};

use crate::cli::Engine;

impl Engine {
    pub fn multiplex(
        self,
        level: Level,
        earlier: u8,
        line: &mut [u8],
        notes: &[u8],
        buffer: &[u8],
    ) -> Result<Sent, Refusal> {
        match self {
            Engine::Quick => spritbobbin::multiplex(level, earlier, line, notes, buffer),
            Engine::Plain => plain::multiplex(level, earlier, line, notes, buffer),
        }
    }

    pub fn read_notes(self, level: Level, line: &[u8], notes: &mut [u8]) -> Result<Noted, Refusal> {
        match self {
            Engine::Quick => spritbobbin::read_notes(level, line, notes),
            Engine::Plain => plain::read_notes(level, line, notes),
        }
    }

    pub fn extract(
        self,
        level: Level,
        earlier: u8,
        line: &[u8],
        notes: &[u8],
        buffer: &mut [u8],
    ) -> Result<Extracted, Refusal> {
        match self {
            Engine::Quick => spritbobbin::extract(level, earlier, line, notes, buffer),
            Engine::Plain => plain::extract(level, earlier, line, notes, buffer),
        }
    }
}
