//! Holds a text that is split into lines, and the splitting on either side.
//!
//! The chunk holds whole lines, so that nothing is kept from one run to the next. The library is
//! lent what it carries from one line to the next with each call, 32 bytes, and room of 24 bytes for
//! the line that it has read. The model keeps the start of a line in a struct of its own, reads a
//! line that lies in the chunk where it lies, and may be put into its caller by the compiler, which
//! stores the line in room of its own. Both find the newline and read the line; what is read is
//! added up, so that it is not left out.

use std::hint::black_box;

use compare::ffi::{self, Carry};
use model::Splitter;

/// What there was in a chunk.
#[derive(Clone, Copy, Debug, Default, PartialEq, Eq)]
pub struct Lines {
    /// How many lines.
    pub lines: usize,
    /// How many of them are frames.
    pub frames: usize,
    /// The bytes of data of all frames.
    pub data: usize,
}

/// As many whole lines as a chunk of this size holds: frames with 0 to 8 bytes of data, and one
/// line in ten that is none.
#[must_use]
pub fn chunk(size: usize) -> Vec<u8> {
    const LINES: [&[u8]; 10] = [
        b":X1A22B123N200100000002ABCD;\n",
        b":X1B22B123N200800000002FD0F;\n",
        b":X1A22B456N20410000000202;\n",
        b":X1D22B123N5A;\n",
        b":X1C22B789N0001020304050607;\n",
        b":X1A22B123N20030000000001;\n",
        b":X1A300123N2080;\n",
        b":X19490123N;\n",
        b":X195B4456N0102030405060708;\n",
        b"hello\n",
    ];
    let mut text = Vec::with_capacity(size);
    for line in LINES.iter().cycle() {
        if text.len() + line.len() > size {
            break;
        }
        text.extend_from_slice(line);
    }
    text
}

/// Splits a chunk by the library.
#[must_use]
pub fn split_by_library(chunk: &[u8]) -> Lines {
    let mut found = Lines::default();
    let (mut carry, mut from) = (Carry::EMPTY, 0);
    let mut line = [0; ffi::LINE_SIZE];
    loop {
        from = ffi::next_line(chunk, from, &mut carry, &mut line);
        let line = black_box(&line);
        // Whether a line has ended, whether it is a frame, and the least byte of its length.
        let [complete, good, length] = [line[0], line[4], line[12]];
        if complete == 0 {
            return found;
        }
        found.lines += 1;
        if good != 0 {
            found.frames += 1;
            found.data += usize::from(length);
        }
    }
}

/// Splits a chunk by the model.
#[must_use]
pub fn split_by_model(chunk: &[u8]) -> Lines {
    let mut found = Lines::default();
    let (mut splitter, mut left) = (Splitter::new(), chunk);
    let mut room = None;
    while let Some((line, behind)) = splitter.next(left) {
        left = behind;
        room = line;
        found.lines += 1;
        if let Some(frame) = black_box(&room) {
            found.frames += 1;
            found.data += frame.data().len();
        }
    }
    black_box(&room);
    found
}
