//! Holds the splitting of a text that comes in chunks, cut anyhow, into lines.

use crate::frame::Frame;
use crate::gridconnect::{parse_line, LONGEST_LINE};

/// What a line is: a frame, or `None` for any other line.
pub type Line = Option<Frame>;

/// The start of a line whose newline has not come yet.
#[derive(Clone, Debug)]
pub struct Splitter {
    begun: [u8; LONGEST_LINE],
    /// How many bytes of that line have come; those past the longest line are only counted.
    length: usize,
}

impl Default for Splitter {
    fn default() -> Self {
        Self::new()
    }
}

impl Splitter {
    /// Before any input.
    #[must_use]
    pub const fn new() -> Self {
        Self {
            begun: [0; LONGEST_LINE],
            length: 0,
        }
    }

    /// Reads a chunk, or the rest of one, up to and with its first newline: gives the line that
    /// ends there and what is left of the chunk. `None` where there is no newline; then the start
    /// of a line is kept, and nothing is left.
    pub fn next<'c>(&mut self, chunk: &'c [u8]) -> Option<(Line, &'c [u8])> {
        let Some(end) = chunk.iter().position(|&byte| byte == b'\n') else {
            self.begin(chunk);
            return None;
        };
        let line = if self.length == 0 {
            parse_line(&chunk[..end])
        } else {
            self.begin(&chunk[..end]);
            self.complete()
        };
        Some((line, &chunk[end + 1..]))
    }

    /// Takes the end of the input: a last line may lack its newline.
    pub fn last(&mut self) -> Option<Line> {
        (self.length != 0).then(|| self.complete())
    }

    /// Keeps more of a line that has begun.
    fn begin(&mut self, part: &[u8]) {
        let start = self.length.min(LONGEST_LINE);
        let kept = part.len().min(LONGEST_LINE - start);
        self.begun[start..start + kept].copy_from_slice(&part[..kept]);
        self.length = self.length.saturating_add(part.len());
    }

    /// The line that has begun, which ends here.
    fn complete(&mut self) -> Line {
        // A line that is too long is no frame, whatever it begins with.
        let line = self.begun.get(..self.length).and_then(parse_line);
        self.length = 0;
        line
    }
}
