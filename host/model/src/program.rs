//! Holds the demonstration program: GridConnect lines in, the board's answers out.

use std::io::{self, ErrorKind, Read, Write};

use crate::datagram::LONGEST_DATAGRAM;
use crate::demonstration::{demo_board, Board};
use crate::frame::Frame;
use crate::gridconnect::{parse_line, print_line, LONGEST_LINE};
use crate::sending::{frames_to_send, MOST_SENT};
use crate::splitting::{Line, Splitter};

/// The time that every frame comes with: the program has no tick but 0.
const TIME: u64 = 0;

/// The demonstration board behind lines, with the room for what it answers.
struct Lines {
    board: Board,
    reply: [u8; LONGEST_DATAGRAM],
    frames: [Frame; MOST_SENT],
}

impl Lines {
    /// A fresh board.
    fn new() -> Self {
        Self {
            board: demo_board(),
            reply: [0; LONGEST_DATAGRAM],
            frames: [Frame::EMPTY; MOST_SENT],
        }
    }

    /// Prints what a line is answered with.
    fn line(&mut self, line: Line, out: &mut Vec<u8>) {
        match line {
            Some(frame) => self.frame(&frame, out),
            None => out.extend_from_slice(b"?\n"),
        }
    }

    fn frame(&mut self, frame: &Frame, out: &mut Vec<u8>) {
        let answer = self
            .board
            .frame(TIME, frame.header(), frame.data(), &mut self.reply)
            .expect("the demonstration board and its state are sound");
        let alias = self.board.description.alias;
        let count = frames_to_send(
            alias,
            frame.header(),
            Ok(answer),
            &self.reply,
            &mut self.frames,
        );
        for sent in &self.frames[..count] {
            print_frame(sent, out);
        }
    }
}

/// What the program prints in all where its whole input is this text, on a fresh board. It knows
/// nothing of reads: a line is what stands before a newline, and what is left behind the last
/// newline, if anything, is a line as well.
#[must_use]
pub fn session(input: &[u8]) -> Vec<u8> {
    let mut lines = Lines::new();
    let mut out = Vec::new();
    let mut left = input;
    while !left.is_empty() {
        let mut parts = left.splitn(2, |&byte| byte == b'\n');
        lines.line(parts.next().and_then(parse_line), &mut out);
        left = parts.next().unwrap_or_default();
    }
    out
}

/// The demonstration board, fed with blocks of text.
pub struct Program {
    lines: Lines,
    splitter: Splitter,
}

impl Default for Program {
    fn default() -> Self {
        Self::new()
    }
}

impl Program {
    /// The program at its start, with a fresh board.
    #[must_use]
    pub fn new() -> Self {
        Self {
            lines: Lines::new(),
            splitter: Splitter::new(),
        }
    }

    /// Takes a block of any size and prints the answers to the lines that it completes.
    pub fn feed(&mut self, block: &[u8], out: &mut Vec<u8>) {
        let mut left = block;
        while let Some((line, behind)) = self.splitter.next(left) {
            self.lines.line(line, out);
            left = behind;
        }
    }

    /// Takes the end of the input: a last line may lack its newline.
    pub fn finish(&mut self, out: &mut Vec<u8>) {
        if let Some(line) = self.splitter.last() {
            self.lines.line(line, out);
        }
    }
}

fn print_frame(frame: &Frame, out: &mut Vec<u8>) {
    out.extend_from_slice(print_line(frame, &mut [0; LONGEST_LINE]));
    out.push(b'\n');
}

/// Runs the program from the input's start to its end. All answers to the lines that one read
/// completes are written before the next read.
pub fn run(mut input: impl Read, mut output: impl Write, block_size: usize) -> io::Result<()> {
    let mut program = Program::new();
    let mut block = vec![0; block_size.max(1)];
    let mut out = Vec::with_capacity(block.len());
    loop {
        let count = match input.read(&mut block) {
            Ok(count) => count,
            Err(error) if error.kind() == ErrorKind::Interrupted => continue,
            Err(error) => return Err(error),
        };
        if count == 0 {
            program.finish(&mut out);
        } else {
            program.feed(&block[..count], &mut out);
        }
        if !out.is_empty() {
            output.write_all(&out)?;
            output.flush()?;
            out.clear();
        }
        if count == 0 {
            return Ok(());
        }
    }
}
