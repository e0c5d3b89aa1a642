//! Holds differences that are planted in what the library does with writes, one at a time. The
//! comparison finds each of them, and nothing where there is none.

use core::ops::Range;
use std::cell::RefCell;

use crate::ffi::{Numbers, NO_POSITION, SPACE_SIZE};
use crate::generate::Board;
use crate::random::Random;
use crate::setup::{Handler, Lent};
use crate::tally::Tally;
use crate::tool::request::Request;
use crate::tool::Library;
use crate::writes::boards::{bytes_of, overlapping_board, writable};
use crate::writes::{call, interleaving, lists, pairs, Runner};
use model::Space;

/// A difference.
#[derive(Clone, Copy, Debug, PartialEq, Eq)]
enum Fault {
    None,
    // Of writes that come one after the other.
    EarlierWins,
    StaleByte,
    DroppedAtOneAddress,
    DroppedInOneByte,
    // Of masks.
    PlainMask7F,
    ZeroMaskAsPlain,
    DataOutsideMask,
    AnyMaskAsPlain,
    // Of where a write goes.
    WithoutOffset,
    AddressAsIndex,
    SpaceByAddress,
    ShortAtHighest,
    ShortAtLastByte,
    AsFarAsItFits,
    GuardByte,
    // Of what is accepted.
    RejectedWhereEqual,
    RejectedWhereNothingTouched,
    RejectedWhileLocked,
    ReadOnlyTaken,
    // Of the answer, and of what a write leaves as it is.
    SaidWithoutOffset,
    SaidTouchedOnly,
    SaidOfTheEarlier,
    WithFrames,
    ReplyChanged,
    LockChanged,
    FlashChanged,
    TableChanged,
    // Of what is no write.
    UpdateCompleteWrites,
    LockWrites,
    ReadWrites,
}

/// The parts of the comparison.
#[derive(Clone, Copy, Debug, PartialEq, Eq)]
enum Part {
    Pairs,
    List,
    Tools,
    /// All three.
    Whole,
}

/// All of them, the parts that find each by themselves, and what the report may say is different.
const FAULTS: [(Fault, &[Part], &[&str]); 30] = [
    (Fault::EarlierWins, ALL, MEMORY),
    (Fault::StaleByte, ALL, MEMORY),
    (Fault::DroppedAtOneAddress, ALL, MEMORY),
    (Fault::DroppedInOneByte, ALL, MEMORY),
    (Fault::PlainMask7F, ALL, MEMORY),
    (Fault::ZeroMaskAsPlain, ALL, MEMORY),
    (Fault::DataOutsideMask, ALL, MEMORY),
    (Fault::AnyMaskAsPlain, ALL, MEMORY),
    (Fault::WithoutOffset, ALL, MEMORY),
    (Fault::AddressAsIndex, ALL, MEMORY),
    (Fault::SpaceByAddress, ALL, MEMORY),
    (Fault::ShortAtHighest, ALL, MEMORY),
    (Fault::ShortAtLastByte, ALL, MEMORY),
    (Fault::AsFarAsItFits, LIST, MEMORY),
    (Fault::GuardByte, ALL, &[GUARDS]),
    (Fault::RejectedWhereEqual, ALL, DEPENDS),
    (Fault::RejectedWhereNothingTouched, ALL, &[ACCEPTED]),
    (Fault::RejectedWhileLocked, ALL, &[ACCEPTED]),
    (Fault::ReadOnlyTaken, LIST, &[ACCEPTED]),
    (Fault::SaidWithoutOffset, ALL, &[NAMED]),
    (Fault::SaidTouchedOnly, ALL, &[NAMED]),
    (Fault::SaidOfTheEarlier, ALL, DEPENDS),
    (Fault::WithFrames, ALL, &[FRAMES]),
    (Fault::ReplyChanged, ALL, &[REPLY]),
    (Fault::LockChanged, ALL, &[LOCK]),
    (Fault::FlashChanged, ALL, &[FLASH]),
    (Fault::TableChanged, ALL, &[TABLE]),
    (Fault::UpdateCompleteWrites, LIST, MEMORY),
    (Fault::LockWrites, LIST, MEMORY),
    (Fault::ReadWrites, LIST, MEMORY),
];
const ALL: &[Part] = &[Part::Pairs, Part::List, Part::Tools];
const LIST: &[Part] = &[Part::List];
const MEMORY: &[&str] = &[
    "they share no bit, and memory depends on the order",
    "memory is not what the two do in that order",
    "memory is not what the list does",
    "memory is not what one mask and one data byte for each byte do",
    "memory is not what the two lists do",
    "memory depends on how the writes come in between one another",
];
const DEPENDS: &[&str] = &[
    "the answers depend on the order",
    "answers or lock depend on what memory holds",
    "a tool has other answers than where it is alone",
    ACCEPTED,
    NAMED,
];
const ACCEPTED: &str = "it is an accepted write for one side alone";
const NAMED: &str = "a write is not answered with the bytes that it names";
const FRAMES: &str = "there are frames to be sent";
const REPLY: &str = "an accepted write has changed the reply buffer";
const LOCK: &str = "an accepted write has changed the lock";
const FLASH: &str = "flash is changed";
const TABLE: &str = "the table is changed";
const GUARDS: &str = "a byte outside what was lent is changed";

/// What happened since a memory came that is not as the last call left it.
#[derive(Debug, Default)]
struct Past {
    /// Memory at first.
    first: Vec<u8>,
    /// Memory as the last call left it.
    left: Vec<u8>,
    /// The bits that were written.
    touched: Vec<u8>,
    /// The last accepted write.
    last: Option<Last>,
}

/// What is kept of an accepted write.
#[derive(Clone, Debug)]
struct Last {
    number: u8,
    address: u32,
    bytes: Range<usize>,
}

/// The library with a difference.
struct Planted(Fault, RefCell<Past>);

/// A write or masked write, as a list of masks and data.
struct Coming<'b> {
    space: &'b Space,
    address: u32,
    masked: bool,
    pairs: Vec<(u8, u8)>,
}

impl<'b> Coming<'b> {
    /// `None` where the datagram is no write to a space that is described.
    fn of(board: &'b Board, datagram: &[u8]) -> Option<Self> {
        let (number, address, masked, pairs) = match Request::in_datagram(datagram)? {
            Request::Write {
                space,
                address,
                bytes,
            } => {
                let pairs = bytes.iter().map(|&byte| (0xFF, byte));
                (space, address, false, pairs.collect())
            }
            Request::WriteMasked {
                space,
                address,
                pairs,
            } => {
                let pairs = pairs.chunks_exact(2).map(|pair| (pair[0], pair[1]));
                (space, address, true, pairs.collect())
            }
            _ => return None,
        };
        let mut spaces = board.spaces().iter();
        Some(Self {
            space: spaces.find(|space| space.number == number)?,
            address,
            masked,
            pairs,
        })
    }

    /// The index into memory of its first byte, by this space.
    fn start_in(&self, space: &Space) -> Option<usize> {
        let from_lowest = self.address.checked_sub(space.lowest)?;
        Some(space.offset as usize + from_lowest as usize)
    }

    /// Whether all its bytes are in this space.
    fn is_in(&self, space: &Space) -> bool {
        self.start_in(space)
            .is_some_and(|start| start + self.pairs.len() <= bytes_of(space).end)
    }
}

/// Stores pairs from an index on, as far as there is memory.
fn store(memory: &mut [u8], start: usize, pairs: &[(u8, u8)]) {
    let bytes = memory.get_mut(start..).unwrap_or_default();
    for (byte, (mask, data)) in bytes.iter_mut().zip(pairs) {
        *byte = *byte & !mask | data & mask;
    }
}

/// The answer to what is rejected.
const REJECTED: Numbers = Numbers {
    kind: 4,
    code: 0x1080,
    error: 0,
    flags: 0,
    changed_at: 0,
    changed_len: 0,
    reply_len: 0,
    frame_count: 0,
    position: NO_POSITION,
    unused: 0,
};

impl Planted {
    fn new(fault: Fault) -> Self {
        Self(fault, RefCell::default())
    }

    /// The masks and data that are stored for an accepted write.
    fn pairs(&self, coming: &Coming, start: usize, past: &Past) -> Vec<(u8, u8)> {
        let other = |(place, &(mask, data)): (usize, &(u8, u8))| match self.0 {
            Fault::EarlierWins => (mask & !past.touched[start + place], data),
            // What the mask keeps is taken from a copy that is old.
            Fault::StaleByte => (0xFF, past.first[start + place] & !mask | data & mask),
            Fault::PlainMask7F if !coming.masked => (0x7F, data),
            Fault::ZeroMaskAsPlain if mask == 0 => (0xFF, data),
            Fault::AnyMaskAsPlain if mask != 0 => (0xFF, data),
            Fault::DataOutsideMask => (mask | data, data),
            _ => (mask, data),
        };
        coming.pairs.iter().enumerate().map(other).collect()
    }

    /// Does an accepted write in another way to a memory that is as before it.
    fn store(&self, board: &Board, coming: &Coming, start: usize, past: &Past, memory: &mut [u8]) {
        let mut pairs = self.pairs(coming, start, past);
        let (space, end) = (coming.space, start + pairs.len());
        let after = |is: &dyn Fn(&Last) -> bool| {
            let others = past
                .last
                .as_ref()
                .filter(|last| last.number != space.number);
            others.is_some_and(is)
        };
        let start = match self.0 {
            Fault::DroppedAtOneAddress if after(&|last| last.address == coming.address) => return,
            Fault::DroppedInOneByte
                if after(&|last| last.bytes.start < end && start < last.bytes.end) =>
            {
                return;
            }
            Fault::WithoutOffset => start - space.offset as usize,
            Fault::AddressAsIndex if coming.address < memory.len() as u32 => {
                coming.address as usize
            }
            Fault::SpaceByAddress => writable(board)
                .find(|space| coming.is_in(space))
                .and_then(|space| coming.start_in(space))
                .unwrap_or(start),
            Fault::ShortAtHighest if end == bytes_of(space).end => {
                pairs.pop();
                start
            }
            Fault::ShortAtLastByte if end == memory.len() => {
                pairs.pop();
                start
            }
            _ => start,
        };
        store(memory, start, &pairs);
    }

    /// The answer to an accepted write, which has left memory in another way than it was before, or
    /// not.
    fn answer(
        &self,
        coming: &Coming,
        numbers: Numbers,
        past: &Past,
        changed: bool,
        locked: bool,
    ) -> Numbers {
        let touched = coming.pairs.iter().filter(|(mask, _)| *mask != 0).count();
        let mut numbers = numbers;
        match self.0 {
            Fault::RejectedWhereEqual if !changed && touched != 0 => return REJECTED,
            Fault::RejectedWhereNothingTouched if touched == 0 => return REJECTED,
            Fault::RejectedWhileLocked if locked => return REJECTED,
            Fault::SaidWithoutOffset => numbers.changed_at -= coming.space.offset,
            Fault::SaidTouchedOnly if touched != 0 => numbers.changed_len = touched as u32,
            Fault::SaidOfTheEarlier => {
                if let Some(last) = &past.last {
                    numbers.changed_at = last.bytes.start as u32;
                }
            }
            Fault::WithFrames => numbers.frame_count = 1,
            _ => {}
        }
        numbers
    }

    /// What the library answers, and does to memory; at times it is shown another table.
    fn shown(&self, board: &Board, lent: &mut Lent, datagram: &[u8]) -> Numbers {
        if self.0 != Fault::ReadOnlyTaken {
            return Library.handle_datagram(board, lent, datagram);
        }
        let spaces = lent.table.bytes_mut().chunks_exact_mut(SPACE_SIZE);
        for (bytes, space) in spaces.zip(board.spaces()) {
            if !space.in_flash && space.number != 0xFF {
                bytes[1] = 0;
            }
        }
        let numbers = Library.handle_datagram(board, lent, datagram);
        lent.table.set(board.table());
        numbers
    }

    /// Writes to memory where the datagram is no accepted write.
    fn spoil_other(&self, board: &Board, datagram: &[u8], numbers: Numbers, memory: &mut [u8]) {
        let command = datagram.get(1).copied().unwrap_or(0);
        match (self.0, numbers.kind, command) {
            (Fault::UpdateCompleteWrites, 7, _)
            | (Fault::LockWrites, 6, 0x88)
            | (Fault::ReadWrites, 6, 0x40..=0x43) => memory[0] ^= 1,
            (Fault::AsFarAsItFits, 6, 0x00..=0x0B) => {
                let coming = Coming::of(board, datagram);
                let Some(coming) = coming.filter(|coming| !coming.space.read_only) else {
                    return;
                };
                if let Some(start) = coming.start_in(coming.space) {
                    let end = bytes_of(coming.space).end;
                    store(&mut memory[..end], start, &coming.pairs);
                }
            }
            _ => {}
        }
    }

    /// What else an accepted write changes.
    fn spoil_beside(&self, end: usize, lent: &mut Lent) {
        let changed = match self.0 {
            Fault::GuardByte if end == lent.memory.bytes().len() => {
                lent.memory.overrun();
                return;
            }
            Fault::ReplyChanged => &mut lent.reply,
            Fault::LockChanged => &mut lent.registers,
            Fault::FlashChanged => &mut lent.flash,
            Fault::TableChanged => &mut lent.table,
            _ => return,
        };
        if let Some(last) = changed.bytes_mut().last_mut() {
            *last = last.wrapping_add(1);
        }
    }
}

impl Handler for Planted {
    fn handle_datagram(&self, board: &Board, lent: &mut Lent, datagram: &[u8]) -> Numbers {
        let before = lent.memory.bytes().to_vec();
        let mut past = self.1.borrow_mut();
        if past.left != before {
            *past = Past {
                touched: vec![0; before.len()],
                first: before.clone(),
                ..Past::default()
            };
        }
        let mut numbers = self.shown(board, lent, datagram);
        if let Some(coming) = Coming::of(board, datagram).filter(|_| numbers.kind == 5) {
            let start = numbers.changed_at as usize;
            let mut memory = before.clone();
            self.store(board, &coming, start, &past, &mut memory);
            let locked = lent.registers.bytes() != [0; 6];
            numbers = self.answer(&coming, numbers, &past, memory != before, locked);
            lent.memory.bytes_mut().copy_from_slice(&memory);
            let bytes = start..start + coming.pairs.len();
            self.spoil_beside(bytes.end, lent);
            for (touched, (mask, _)) in past.touched[start..].iter_mut().zip(&coming.pairs) {
                *touched |= mask;
            }
            past.last = Some(Last {
                number: coming.space.number,
                address: coming.address,
                bytes,
            });
        } else {
            self.spoil_other(board, datagram, numbers, lent.memory.bytes_mut());
        }
        past.left = lent.memory.bytes().to_vec();
        numbers
    }
}

/// The boards that are made until a difference is found, at most.
const BOARDS: usize = 1_000;

/// The report on a difference, if this part finds it on so many boards.
fn found(fault: Fault, part: Part, boards: usize, seed: u64) -> Option<String> {
    let planted = Planted::new(fault);
    let mut random = Random::new(seed);
    let mut tally = Tally::default();
    (0..boards).find_map(|_| {
        let random = &mut random;
        if part == Part::Whole {
            return call(&planted, random, &mut tally).err();
        }
        let board = overlapping_board(random);
        let mut runner = Runner::new(random, board);
        let (runner, tally) = (&mut runner, &mut tally.writes);
        let compared = match part {
            Part::Pairs => pairs::call(&planted, runner, random, tally),
            Part::List => lists::call(&planted, runner, random, tally),
            _ => interleaving::call(&planted, runner, random, tally),
        };
        compared.err()
    })
}

/// What the report of this part says is different, which is one of these things.
fn difference(fault: Fault, part: Part, differences: &[&'static str], seed: u64) -> &'static str {
    let report = found(fault, part, BOARDS, seed).unwrap_or_default();
    let begins: &[&str] = match part {
        Part::Pairs => &["two writes"],
        Part::List => &["a list of writes"],
        Part::Tools => &["two tools"],
        Part::Whole => &["two writes", "a list of writes", "two tools"],
    };
    let line = report.lines().next().and_then(|line| line.split_once(": "));
    let what = line.filter(|(part, _)| begins.contains(part));
    let what = what.and_then(|(_, what)| differences.iter().find(|&&known| known == what));
    what.unwrap_or_else(|| panic!("{fault:?}, {part:?}: {report:?}"))
}

#[test]
fn nothing_is_found_where_nothing_is_planted() {
    for part in [Part::Pairs, Part::List, Part::Tools, Part::Whole] {
        assert_eq!(found(Fault::None, part, 400, 16), None, "{part:?}");
    }
}

#[test]
fn each_difference_is_found() {
    for (fault, _, differences) in FAULTS {
        difference(fault, Part::Whole, differences, 16);
    }
}

#[test]
fn each_part_finds_them_and_each_comparison_finds_one() {
    let mut seen = Vec::new();
    for (fault, parts, differences) in FAULTS {
        for &part in parts {
            let each = |seed| difference(fault, part, differences, seed);
            seen.extend((0..8).map(each));
        }
    }
    for (_, _, differences) in FAULTS {
        for what in differences {
            assert!(seen.contains(what), "{what}");
        }
    }
}
