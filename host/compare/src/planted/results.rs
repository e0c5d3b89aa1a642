//! Holds differences that are planted in what a call leaves in the room for its result, and in what
//! the line splitter carries, one at a time: bytes that are left as they were before the call. The
//! comparison finds each of them.

use super::found;
use crate::ffi::{Carry, LineBytes, Numbers, Places, ResultBytes};
use crate::generate::{Board, Incoming};
use crate::layout::numbers_in;
use crate::setup::{Handler, Lent};
use crate::tool::Library;

/// A difference.
#[derive(Clone, Copy, Debug, PartialEq, Eq)]
enum Fault {
    None,
    // Of a result.
    ChangedLenInOneByte,
    ChangedLenInTwoBytes,
    ChangedAtWhereWritten,
    CodeWhereRejected,
    StaleWhereRefused,
    PositionWhereRefused,
    FrameCountWhereNothingSent,
    UnusedLeft,
    NothingWritten,
    // Of the line splitter.
    CarryLeft,
    CarryLeftBehindLine,
    CarryLeftAtEnd,
    CarryLenAlone,
    FrameLeftWhereNoLine,
    FrameLeftWhereBad,
}

/// The call that a difference is planted in.
#[derive(Clone, Copy, Debug, PartialEq, Eq)]
enum At {
    Frame,
    Tick,
    Datagram,
    Line,
}

/// All of them. A call that says nothing of changes still has a length of them, which is 0.
const FAULTS: [(Fault, At); 25] = [
    (Fault::ChangedLenInOneByte, At::Frame),
    (Fault::ChangedLenInOneByte, At::Tick),
    (Fault::ChangedLenInOneByte, At::Datagram),
    (Fault::ChangedLenInTwoBytes, At::Frame),
    (Fault::ChangedLenInTwoBytes, At::Datagram),
    (Fault::ChangedAtWhereWritten, At::Frame),
    (Fault::ChangedAtWhereWritten, At::Tick),
    (Fault::CodeWhereRejected, At::Frame),
    (Fault::CodeWhereRejected, At::Datagram),
    (Fault::StaleWhereRefused, At::Frame),
    (Fault::StaleWhereRefused, At::Tick),
    (Fault::StaleWhereRefused, At::Datagram),
    (Fault::PositionWhereRefused, At::Frame),
    (Fault::PositionWhereRefused, At::Tick),
    (Fault::FrameCountWhereNothingSent, At::Frame),
    (Fault::FrameCountWhereNothingSent, At::Tick),
    (Fault::FrameCountWhereNothingSent, At::Datagram),
    (Fault::UnusedLeft, At::Frame),
    (Fault::NothingWritten, At::Tick),
    (Fault::CarryLeft, At::Line),
    (Fault::CarryLeftBehindLine, At::Line),
    (Fault::CarryLeftAtEnd, At::Line),
    (Fault::CarryLenAlone, At::Line),
    (Fault::FrameLeftWhereNoLine, At::Line),
    (Fault::FrameLeftWhereBad, At::Line),
];

/// The library with a difference in one of its calls.
struct Planted(Fault, At);

impl Planted {
    /// What is found in a room that held this before the call, and this after it.
    fn left(&self, at: At, before: Numbers, mut numbers: Numbers) -> Numbers {
        if self.1 != at {
            return numbers;
        }
        let kind = numbers.kind;
        let low = |bytes: u32| before.changed_len & !bytes | numbers.changed_len & bytes;
        match self.0 {
            Fault::ChangedLenInOneByte => numbers.changed_len = low(0xFF),
            Fault::ChangedLenInTwoBytes => numbers.changed_len = low(0xFFFF),
            Fault::ChangedAtWhereWritten if kind != 5 => numbers.changed_at = before.changed_at,
            Fault::CodeWhereRejected if kind != 3 && kind != 4 => numbers.code = before.code,
            Fault::StaleWhereRefused if kind == 0 => {
                let Numbers {
                    error, position, ..
                } = numbers;
                numbers = Numbers {
                    kind,
                    error,
                    position,
                    ..before
                };
            }
            Fault::PositionWhereRefused if kind == 0 && numbers.error > 5 => {
                numbers.position = before.position;
            }
            Fault::FrameCountWhereNothingSent if numbers.frame_count == 0 => {
                numbers.frame_count = before.frame_count;
            }
            Fault::UnusedLeft => numbers.unused = before.unused,
            Fault::NothingWritten => numbers = before,
            _ => {}
        }
        numbers
    }
}

impl Handler for Planted {
    fn handle_frame(&self, board: &Board, lent: &mut Lent, tick: u16, frame: &Incoming) -> Numbers {
        let before = numbers_in(lent.result.array());
        let numbers = Library.handle_frame(board, lent, tick, frame);
        self.left(At::Frame, before, numbers)
    }

    fn handle_tick(&self, places: &mut Places, tick: u16, result: &mut ResultBytes) -> Numbers {
        let before = numbers_in(result);
        let numbers = Library.handle_tick(places, tick, result);
        self.left(At::Tick, before, numbers)
    }

    fn handle_datagram(&self, board: &Board, lent: &mut Lent, datagram: &[u8]) -> Numbers {
        let before = numbers_in(lent.result.array());
        let numbers = Library.handle_datagram(board, lent, datagram);
        self.left(At::Datagram, before, numbers)
    }

    fn next_line(
        &self,
        chunk: &[u8],
        from: usize,
        carry: &mut Carry,
        line: &mut LineBytes,
    ) -> usize {
        let (before, room) = (*carry, *line);
        let at = Library.next_line(chunk, from, carry, line);
        let (complete, good) = (line[0] != 0, line[4] != 0);
        match self.0 {
            Fault::CarryLeft if !complete => *carry = before,
            Fault::CarryLeftBehindLine if complete => *carry = before,
            Fault::CarryLenAlone => carry.text = before.text,
            Fault::FrameLeftWhereNoLine if !complete => line[8..].copy_from_slice(&room[8..]),
            Fault::FrameLeftWhereBad if complete && !good => {
                line[8..].copy_from_slice(&room[8..]);
            }
            _ => {}
        }
        at
    }

    fn last_line(&self, carry: &mut Carry, line: &mut LineBytes) {
        let before = *carry;
        Library.last_line(carry, line);
        if self.0 == Fault::CarryLeftAtEnd {
            *carry = before;
        }
    }
}

#[test]
fn nothing_is_found_where_nothing_is_planted() {
    for at in [At::Frame, At::Tick, At::Datagram, At::Line] {
        assert_eq!(found(&Planted(Fault::None, at), 5), None);
    }
}

/// What a report may begin with. A whole datagram is also handed over in lists of writes, and by a
/// tool.
fn begins(at: At) -> &'static [&'static str] {
    match at {
        At::Frame => &["call for a frame: "],
        At::Tick => &["lone tick: "],
        At::Datagram => &[
            "call for a whole datagram: ",
            "two writes: ",
            "a list of writes: ",
            "two tools: ",
        ],
        At::Line => &[
            "reading a chunk of lines",
            "the end of the input",
            "a session",
        ],
    }
}

#[test]
fn each_difference_is_found() {
    for (fault, at) in FAULTS {
        let report = found(&Planted(fault, at), 1_000).unwrap_or_default();
        let line = report.lines().next().unwrap_or_default();
        assert!(
            begins(at).iter().any(|begins| line.starts_with(begins)),
            "{fault:?}, {at:?}: {report:?}"
        );
    }
}
