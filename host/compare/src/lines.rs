//! Holds the comparison of the line splitter: reads of a chunk, the end of the input, and whole
//! sessions on the demonstration board in chunks cut anyhow.

use crate::demonstration::{self, Demonstration};
use crate::ffi::room::Room;
use crate::ffi::{Carry, Line, CARRY_SIZE};
use crate::generate::{line, Board, Tool};
use crate::layout::line_in;
use crate::random::Random;
use crate::setup::{hex, Handler};
use crate::small::is_parsed;
use crate::tally::{Case, Tally};

/// What a call of the line splitter has come to.
#[derive(Debug)]
struct Step {
    line: Line,
    carry: Carry,
    /// The index up to which the chunk was read; 0 at the end of the input.
    at: usize,
}

impl Step {
    /// Reads a chunk from an index on. What is carried is lent to the call, and changed in place.
    fn next(handler: &impl Handler, chunk: &[u8], from: usize, mut carry: Carry) -> Self {
        let mut room = Room::new();
        let at = handler.next_line(chunk, from, &mut carry, room.lent());
        Self {
            line: line_in(room.bytes()),
            carry,
            at,
        }
    }

    /// Takes the end of the input.
    fn last(handler: &impl Handler, mut carry: Carry) -> Self {
        let mut room = Room::new();
        handler.last_line(&mut carry, room.lent());
        Self {
            line: line_in(room.bytes()),
            carry,
            at: 0,
        }
    }
}

/// What a call of the line splitter has to come to. It is worked out here from what the edge says,
/// and a line is the model's to read.
#[derive(Debug)]
struct Expected {
    /// The frame, if it is a frame line, of the line that has ended, if one has.
    line: Option<Option<model::Frame>>,
    /// The start of the next line: at most the 29 bytes that tell that it is too long.
    carried: Vec<u8>,
    /// The index up to which the chunk was read.
    at: usize,
}

impl Expected {
    /// Of a chunk that is read from an index on; one past the end is like the end.
    fn next(chunk: &[u8], from: usize, carry: &Carry) -> Self {
        let unread = chunk.get(from..).unwrap_or_default();
        let mut begun = carry.bytes().to_vec();
        if let Some(end) = unread.iter().position(|&byte| byte == b'\n') {
            begun.extend_from_slice(&unread[..end]);
            return Self {
                line: Some(model::parse_line(&begun)),
                carried: Vec::new(),
                at: from + end + 1,
            };
        }
        begun.extend_from_slice(unread);
        begun.truncate(CARRY_SIZE);
        Self {
            line: None,
            carried: begun,
            at: chunk.len(),
        }
    }

    /// Of the end of the input.
    fn last(carry: &Carry) -> Self {
        let begun = carry.bytes();
        Self {
            line: (!begun.is_empty()).then(|| model::parse_line(begun)),
            carried: Vec::new(),
            at: 0,
        }
    }

    /// Whether the library has come to the same. What is carried counts by what it stands for; a
    /// length over 29 only where it was handed in so.
    fn is(&self, library: &Step, before: &Carry) -> bool {
        library.line.complete.get() == self.line.is_some()
            && is_parsed(library.line.parsed, self.line.flatten())
            && library.carry.bytes() == self.carried
            && library.carry.spare == Carry::EMPTY.spare
            && usize::from(library.carry.len) <= CARRY_SIZE.max(usize::from(before.len))
            && library.at == self.at
    }
}

/// What is carried: nothing, the start of a line, or something that no text leads to. The bytes
/// behind it are anything.
fn carry(random: &mut Random, begun: &[u8]) -> Carry {
    let mut carry = Carry::EMPTY;
    random.fill(&mut carry.text);
    random.fill(&mut carry.spare);
    let begun = &begun[..begun.len().min(CARRY_SIZE)];
    carry.text[..begun.len()].copy_from_slice(begun);
    carry.len = match random.below(16) {
        0 => random.byte(),
        1 | 2 => random.between(CARRY_SIZE + 1, 255) as u8,
        _ => begun.len() as u8,
    };
    carry
}

/// A line, cut in two anywhere.
fn line_in_two(random: &mut Random) -> (Vec<u8>, Vec<u8>) {
    let mut begun = line(random);
    let at = match random.below(4) {
        0 => 0,
        1 => random.pick(&[27, 28, 29, 30]).min(begun.len()),
        _ => random.between(0, begun.len()),
    };
    let rest = begun.split_off(at);
    (begun, rest)
}

/// Reads a chunk from an index on, up to the next newline or to its end.
pub fn next(handler: &impl Handler, random: &mut Random, tally: &mut Tally) -> Result<(), String> {
    let (begun, rest) = line_in_two(random);
    let carry = carry(random, &begun);
    // What was read of the chunk already, the rest of the line, and more.
    let mut from = random.pick(&[0, 0, 0, 1, 5, 40]);
    let mut chunk = random.bytes(from);
    chunk.extend_from_slice(&rest);
    if !random.once_in(4) {
        chunk.push(b'\n');
        if random.once_in(2) {
            chunk.extend(line(random));
            chunk.push(b'\n');
        }
    }
    match random.below(24) {
        0 | 1 => from = chunk.len(),
        2 => from = chunk.len() + random.pick(&[1, 2, 64, 1 << 32]),
        3 => from = usize::MAX - random.below(2),
        _ => {}
    }
    let library = Step::next(handler, &chunk, from, carry);
    let expected = Expected::next(&chunk, from, &carry);
    count_next(tally, &chunk, from, &carry, &expected);
    if expected.is(&library, &carry) {
        return Ok(());
    }
    Err(format!(
        "reading a chunk of lines\nchunk    {}\n         {}\nfrom     {from}\n\
         carry    {carry:X?}\nlibrary  {library:X?}\nexpected {expected:X?}\n",
        chunk.escape_ascii(),
        hex(&chunk)
    ))
}

fn count_next(tally: &mut Tally, chunk: &[u8], from: usize, carry: &Carry, expected: &Expected) {
    let begun = carry.bytes();
    let too_long = begun.len() == CARRY_SIZE;
    tally.count(match (expected.line, begun) {
        (Some(Some(_)), []) => Case::NextGood,
        (Some(Some(_)), _) => Case::NextGoodCarried,
        (Some(None), _) if too_long => Case::NextTooLong,
        (Some(None), _) => Case::NextBad,
        (None, _) if from > chunk.len() => Case::NextBehind,
        (None, _) if from == chunk.len() => Case::NextNothing,
        (None, _) if expected.carried.len() == CARRY_SIZE => Case::NextOpenTooLong,
        (None, _) => Case::NextOpen,
    });
    if usize::from(carry.len) > CARRY_SIZE {
        tally.count(Case::NextOverfull);
    }
}

/// Takes the end of the input.
pub fn last(handler: &impl Handler, random: &mut Random, tally: &mut Tally) -> Result<(), String> {
    let begun = match random.below(4) {
        0 => Vec::new(),
        1 => line_in_two(random).0,
        _ => line(random),
    };
    let carry = carry(random, &begun);
    let library = Step::last(handler, carry);
    let expected = Expected::last(&carry);
    tally.count(match expected.line {
        None => Case::LastNone,
        Some(Some(_)) => Case::LastGood,
        Some(None) => Case::LastBad,
    });
    if usize::from(carry.len) > CARRY_SIZE {
        tally.count(Case::LastOverfull);
    }
    // There is nothing to be read behind the end: what is carried then is as before any input.
    if expected.is(&library, &carry) && library.carry == Carry::EMPTY {
        return Ok(());
    }
    Err(format!(
        "the end of the input\ncarry    {carry:X?}\nlibrary  {library:X?}\n\
         expected {expected:X?}\n"
    ))
}

/// Bytes as digits, behind a text.
fn digits(bytes: &[u8], text: &mut Vec<u8>) {
    const DIGITS: &[u8; 16] = b"0123456789ABCDEF";
    for byte in bytes {
        text.push(DIGITS[usize::from(byte >> 4)]);
        text.push(DIGITS[usize::from(byte & 0x0F)]);
    }
}

/// The text of a session: lines of some tools, among them lines that are no frame.
fn text(random: &mut Random) -> Vec<u8> {
    let board = Board::new(
        demonstration::ALIAS,
        demonstration::WRITE_LENGTHS,
        demonstration::TABLE.to_vec(),
        demonstration::FLASH.len(),
        demonstration::MEMORY_LEN,
    );
    let mut tools = [0x123, 0x456, 0xFFF].map(Tool::new);
    let mut text = Vec::new();
    for _ in 0..random.between(0, 10) {
        if random.once_in(4) {
            text.extend(line(random));
        } else {
            let tool = random.below(tools.len());
            let frame = tools[tool].frame(random, &board);
            // A frame of over 8 bytes is a line that is too long.
            text.extend_from_slice(b":X");
            digits(&frame.header.to_be_bytes(), &mut text);
            text.push(b'N');
            digits(&frame.data, &mut text);
            text.push(b';');
        }
        text.push(b'\n');
    }
    if random.once_in(2) {
        text.pop();
    }
    text
}

/// Runs a session on the demonstration board on both sides: the library reads the text in chunks,
/// the model as a whole.
pub fn session(
    handler: &impl Handler,
    random: &mut Random,
    tally: &mut Tally,
) -> Result<(), String> {
    let text = text(random);
    let (mut board, mut out) = (Demonstration::new(), Vec::new());
    let (mut carry, mut rest) = (Carry::EMPTY, &text[..]);
    let mut sizes = Vec::new();
    while !rest.is_empty() {
        let size = match random.below(4) {
            0 => random.between(0, 3),
            1 => random.between(0, 40),
            _ => random.between(0, 400),
        };
        let (chunk, behind) = rest.split_at(size.min(rest.len()));
        carry = read_chunk(handler, &mut board, chunk, carry, &mut out);
        sizes.push(chunk.len());
        rest = behind;
    }
    let last = Step::last(handler, carry).line;
    if last.complete.get() {
        board.line(last.parsed, &mut out);
    }
    tally.count(Case::Session);
    if text.last().is_some_and(|&byte| byte != b'\n') {
        tally.count(Case::SessionOpen);
    }
    let expected = model::session(&text);
    if out == expected {
        return Ok(());
    }
    Err(format!(
        "a session\n{}\nin chunks of {sizes:?}\nlibrary\n{}\nmodel\n{}\n",
        text.escape_ascii(),
        out.escape_ascii(),
        expected.escape_ascii()
    ))
}

/// Has the library read a chunk line by line, answers each line, and gives what is carried then.
fn read_chunk(
    handler: &impl Handler,
    board: &mut Demonstration,
    chunk: &[u8],
    mut carry: Carry,
    out: &mut Vec<u8>,
) -> Carry {
    let mut from = 0;
    loop {
        let step = Step::next(handler, chunk, from, carry);
        carry = step.carry;
        // A line that has ended has a newline of its own: else this would not come to an end.
        if !step.line.complete.get() || step.at <= from {
            return carry;
        }
        board.line(step.line.parsed, out);
        from = step.at;
    }
}

#[cfg(test)]
mod tests {
    use super::*;

    fn carried(text: &[u8], len: u8) -> Carry {
        let mut carry = Carry::EMPTY;
        carry.text[..text.len()].copy_from_slice(text);
        carry.len = len;
        carry
    }

    #[test]
    fn what_the_edge_says_of_the_line_splitter() {
        let good = b":X1A22B123N2080;";
        let frame = model::parse_line(good);
        let next = |chunk: &[u8], from, carry: Carry| {
            let Expected { line, carried, at } = Expected::next(chunk, from, &carry);
            (line, carried, at)
        };
        let nothing = Carry::EMPTY;
        assert_eq!(
            next(b"xy:X1A22B123N2080;\nz\n", 2, nothing),
            (Some(frame), vec![], 19)
        );
        assert_eq!(next(b"\n", 0, nothing), (Some(None), vec![], 1));
        assert_eq!(next(b"", 0, nothing), (None, vec![], 0));
        assert_eq!(next(b"a\n", 2, nothing), (None, vec![], 2));
        assert_eq!(next(b"a\n", usize::MAX, nothing), (None, vec![], 2));
        assert_eq!(next(b"ab", 0, nothing), (None, b"ab".to_vec(), 2));
        let begun = carried(&good[..9], 9);
        assert_eq!(next(&good[9..], 0, begun), (None, good.to_vec(), 7));
        assert_eq!(next(b"23N2080;\n", 0, begun).0, Some(None));
        assert_eq!(next(b"23N2080;\n", 1, begun).0, Some(frame));
        assert_eq!(next(b"3N2080;\n", 0, begun), (Some(frame), vec![], 8));
        // A length over 29 is that of a line that is too long, whatever the text.
        for len in [29, 30, 255] {
            let overfull = carried(good, len);
            assert_eq!(next(b"\n", 0, overfull), (Some(None), vec![], 1));
            assert_eq!(next(b"ab", 0, overfull).1, overfull.text);
            assert_eq!(Expected::last(&overfull).line, Some(None));
        }
        assert_eq!(Expected::last(&carried(good, 16)).line, Some(frame));
        assert_eq!(Expected::last(&carried(good, 15)).line, Some(None));
        assert_eq!(Expected::last(&carried(good, 0)).line, None);
    }
}
