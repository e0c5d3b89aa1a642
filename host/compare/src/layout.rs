//! Holds what the bytes at the library's edge stand for: the spaces of a table, the places of a
//! reception state, a frame, a line, what comes of a call. It is written from the description of
//! the edge and shares nothing with the library; the model knows no bytes of this kind.

use crate::ffi::room::blank;
use crate::ffi::{
    Flag, Frame, Line, LineBytes, Numbers, Parsed, ParsedBytes, Places, ResultBytes, FRAME_SIZE,
    MOST_SPACES, PLACES, PLACE_BYTES, PLACE_SIZE, SPACE_SIZE,
};
use crate::random::Random;
use model::{Space, Unfinished};

/// The spaces of a table: sixteen bytes each, and what is behind the last whole one is none.
/// Number, read-only, in flash, a byte that means nothing; lowest, highest and offset, the least
/// significant byte first. A byte that says yes or no says yes where it is not 0.
#[must_use]
pub fn spaces_in(table: &[u8]) -> Vec<Space> {
    table
        .chunks_exact(SPACE_SIZE)
        .map(|bytes| Space {
            number: bytes[0],
            read_only: bytes[1] != 0,
            in_flash: bytes[2] != 0,
            lowest: word(&bytes[4..]),
            highest: word(&bytes[8..]),
            offset: word(&bytes[12..]),
        })
        .collect()
}

fn word(bytes: &[u8]) -> u32 {
    u32::from_le_bytes([bytes[0], bytes[1], bytes[2], bytes[3]])
}

/// A table with these spaces, one of many: yes is any byte but 0, what means nothing is anything,
/// and often there are bytes behind the last space.
pub fn table_of(random: &mut Random, spaces: &[Space]) -> Vec<u8> {
    let mut table = Vec::with_capacity(SPACE_SIZE * (spaces.len() + 1));
    for space in spaces {
        table.push(space.number);
        table.push(flag(random, space.read_only));
        table.push(flag(random, space.in_flash));
        table.push(random.byte());
        table.extend(space.lowest.to_le_bytes());
        table.extend(space.highest.to_le_bytes());
        table.extend(space.offset.to_le_bytes());
    }
    if random.once_in(3) {
        let length = random.between(1, SPACE_SIZE - 1);
        table.extend(random.bytes(length));
    }
    table
}

/// A byte that says yes or no; yes in any way.
pub fn flag(random: &mut Random, yes: bool) -> u8 {
    if !yes {
        return 0;
    }
    match random.below(3) {
        0 => 1,
        1 => random.pick(&[2, 3, 0x10, 0x7F, 0x80, 0xAA, 0xFE, 0xFF]),
        _ => random.between(1, 0xFF) as u8,
    }
}

/// What a table has that a comparison must have seen.
#[derive(Clone, Copy, Debug, Default)]
pub struct TableKind {
    /// A byte that says yes and is not 1.
    pub other_flags: bool,
    /// Bytes behind the last whole space.
    pub bytes_behind: bool,
    /// Sixteen spaces.
    pub full: bool,
}

impl TableKind {
    /// Of this table.
    #[must_use]
    pub fn of(table: &[u8]) -> Self {
        Self {
            other_flags: table
                .chunks_exact(SPACE_SIZE)
                .any(|bytes| bytes[1] > 1 || bytes[2] > 1),
            bytes_behind: !table.len().is_multiple_of(SPACE_SIZE),
            full: table.len() / SPACE_SIZE == MOST_SPACES,
        }
    }
}

/// What a place is held for: a datagram of that source, of which so many bytes have come, or that
/// source alone, while it is being swallowed.
#[derive(Clone, Copy, Debug, PartialEq, Eq)]
pub struct Held {
    /// How many bytes are joined so far. It means nothing while the source is being swallowed, but
    /// a call that makes another number of it has changed the place.
    pub len: u8,
    /// The alias of the tool.
    pub source: u16,
    /// The tick of its last accepted frame.
    pub tick: u16,
    /// Whether the source is being swallowed.
    pub swallowing: bool,
}

/// An unfinished datagram or a source that is being swallowed, whichever side has it.
#[derive(Clone, Copy, Debug, PartialEq, Eq, PartialOrd, Ord)]
pub struct Entry<'p> {
    /// The alias of the tool.
    pub source: u16,
    /// How many bytes are joined so far; 0 while the source is being swallowed.
    pub length: usize,
    /// These bytes, but never over 72.
    pub bytes: &'p [u8],
    /// The tick of its source's last accepted frame.
    pub tick: u16,
    /// Whether the source is being swallowed.
    pub swallowing: bool,
}

impl<'p> Entry<'p> {
    /// As the model has it at this time, to which the tick is the latest of its kind. A time before
    /// the first, which only a state that is refused can have, is one at the end of all times.
    #[must_use]
    pub const fn for_model(self, time: u64) -> Unfinished<'p> {
        let age = (time as u16).wrapping_sub(self.tick);
        Unfinished {
            source: self.source,
            length: self.length,
            bytes: self.bytes,
            last_accepted: time.wrapping_sub(age as u64),
            swallowed: self.swallowing,
        }
    }
}

impl<'p> From<Unfinished<'p>> for Entry<'p> {
    fn from(unfinished: Unfinished<'p>) -> Self {
        Self {
            source: unfinished.source,
            length: unfinished.length,
            bytes: unfinished.bytes,
            tick: unfinished.last_accepted as u16,
            swallowing: unfinished.swallowed,
        }
    }
}

/// The bytes of a place.
#[must_use]
pub fn place(places: &Places, index: usize) -> [u8; PLACE_SIZE] {
    let mut bytes = [0; PLACE_SIZE];
    bytes.copy_from_slice(&places[PLACE_SIZE * index..][..PLACE_SIZE]);
    bytes
}

/// Puts the bytes of a place.
pub fn set_place(places: &mut Places, index: usize, bytes: [u8; PLACE_SIZE]) {
    places[PLACE_SIZE * index..][..PLACE_SIZE].copy_from_slice(&bytes);
}

/// What the place with these bytes is held for, if for anything: held where its first byte is not
/// 0, then the length, then the source and the tick, each with its least significant byte first;
/// its source is being swallowed where the byte behind them is not 0. The last byte means nothing.
#[must_use]
pub fn held(bytes: [u8; PLACE_SIZE]) -> Option<Held> {
    let [held, len, low, high, tick_low, tick_high, swallowing, _] = bytes;
    (held != 0).then_some(Held {
        len,
        source: u16::from_le_bytes([low, high]),
        tick: u16::from_le_bytes([tick_low, tick_high]),
        swallowing: swallowing != 0,
    })
}

/// The bytes that a place has after a call that changed it. Where its source is being swallowed,
/// the length is 0.
#[must_use]
pub fn canonical(held: Option<Held>) -> [u8; PLACE_SIZE] {
    held.map_or([0; PLACE_SIZE], |held| {
        let [low, high] = held.source.to_le_bytes();
        let [tick_low, tick_high] = held.tick.to_le_bytes();
        let len = if held.swallowing { 0 } else { held.len };
        let swallowing = u8::from(held.swallowing);
        [1, len, low, high, tick_low, tick_high, swallowing, 0]
    })
}

/// A place that is held for this, one of many: yes is any byte but 0, and anything is in the bytes
/// that mean nothing.
pub fn any_place(random: &mut Random, held: Option<Held>) -> [u8; PLACE_SIZE] {
    let mut bytes = random.number().to_le_bytes();
    bytes[0] = flag(random, held.is_some());
    if let Some(held) = held {
        bytes[1] = held.len;
        [bytes[2], bytes[3]] = held.source.to_le_bytes();
        [bytes[4], bytes[5]] = held.tick.to_le_bytes();
        bytes[6] = flag(random, held.swallowing);
    }
    bytes
}

/// What the places are held for, in their order. Nothing is left of a datagram whose source is
/// being swallowed.
pub fn unfinished<'p>(places: &'p Places, pool: &'p [u8]) -> impl Iterator<Item = Entry<'p>> + 'p {
    (0..PLACES).filter_map(move |index| {
        let held = held(place(places, index))?;
        let length = if held.swallowing { 0 } else { held.len.into() };
        Some(Entry {
            source: held.source,
            length,
            bytes: &pool[PLACE_BYTES * index..][..length.min(PLACE_BYTES)],
            tick: held.tick,
            swallowing: held.swallowing,
        })
    })
}

/// What comes of a call: the kind in four bytes, the code in two, the error and the flags; index
/// and number of the bytes that are written, in four each; the length of the reply, the number of
/// frames, the position, and a byte that is always 0.
#[must_use]
pub fn numbers_in(bytes: &ResultBytes) -> Numbers {
    Numbers {
        kind: word(bytes),
        code: u16::from_le_bytes([bytes[4], bytes[5]]),
        error: bytes[6],
        flags: bytes[7],
        changed_at: word(&bytes[8..]),
        changed_len: word(&bytes[12..]),
        reply_len: bytes[16],
        frame_count: bytes[17],
        position: bytes[18],
        unused: bytes[19],
    }
}

/// The line in these bytes: whether it is one, three bytes that are 0, and the frame.
///
/// # Panics
///
/// Where one of the three is not 0.
#[must_use]
pub fn parsed_in(bytes: &ParsedBytes) -> Parsed {
    blank(&bytes[1..4]);
    Parsed {
        good: Flag::in_byte(bytes[0]),
        frame: Frame {
            header: word(&bytes[4..]),
            len: word(&bytes[8..]),
            bytes: std::array::from_fn(|index| bytes[12 + index]),
        },
    }
}

/// What reading a chunk has come to: whether a line has ended, three bytes that are 0, and the line.
///
/// # Panics
///
/// Where one of the three is not 0.
#[must_use]
pub fn line_in(bytes: &LineBytes) -> Line {
    blank(&bytes[1..4]);
    Line {
        complete: Flag::in_byte(bytes[0]),
        parsed: parsed_in(&std::array::from_fn(|index| bytes[4 + index])),
    }
}

/// The bytes of a frame that the library makes: header and length, each of four bytes with the
/// least significant first, then the data, then zeros.
#[must_use]
pub fn frame_bytes(frame: &model::Frame) -> [u8; FRAME_SIZE] {
    let data = frame.data();
    let mut bytes = [0; FRAME_SIZE];
    bytes[..4].copy_from_slice(&frame.header().to_le_bytes());
    bytes[4] = data.len() as u8;
    bytes[8..8 + data.len()].copy_from_slice(data);
    bytes
}

/// The frame in these bytes.
///
/// # Panics
///
/// Never: there are eight bytes of data.
#[must_use]
pub fn frame_in(bytes: &[u8; FRAME_SIZE]) -> Frame {
    Frame {
        header: word(&bytes[..4]),
        len: word(&bytes[4..]),
        bytes: bytes[8..].try_into().expect("eight bytes"),
    }
}

#[cfg(test)]
mod tests {
    use super::*;

    #[test]
    fn a_table_says_what_it_was_made_of() {
        let mut random = Random::new(5);
        for _ in 0..2_000 {
            let count = random.below(20);
            let spaces: Vec<Space> = (0..count)
                .map(|_| Space {
                    number: random.byte(),
                    lowest: random.word(),
                    highest: random.word(),
                    read_only: random.once_in(2),
                    in_flash: random.once_in(2),
                    offset: random.word(),
                })
                .collect();
            assert_eq!(spaces_in(&table_of(&mut random, &spaces)), spaces);
        }
    }

    #[test]
    fn the_bytes_of_a_space_are_these() {
        let mut table = vec![0xFD, 0, 0xAA, 7, 1, 2, 3, 4, 5, 6, 7, 8, 9, 10, 11, 12];
        let space = Space {
            number: 0xFD,
            read_only: false,
            in_flash: true,
            lowest: 0x0403_0201,
            highest: 0x0807_0605,
            offset: 0x0C0B_0A09,
        };
        assert_eq!(spaces_in(&table), [space]);
        table.extend([1; 15]);
        assert_eq!(spaces_in(&table), [space]);
        table.push(1);
        assert_eq!(spaces_in(&table).len(), 2);
    }

    #[test]
    fn a_place_says_what_it_was_made_of() {
        let mut random = Random::new(6);
        for _ in 0..2_000 {
            let mut what = random.once_in(2).then(|| Held {
                len: random.byte(),
                source: random.half(),
                tick: random.half(),
                swallowing: random.once_in(2),
            });
            assert_eq!(held(any_place(&mut random, what)), what);
            // The library writes no length where there is none.
            if let Some(what) = what.as_mut().filter(|what| what.swallowing) {
                what.len = 0;
            }
            assert_eq!(held(canonical(what)), what);
        }
    }

    #[test]
    fn the_bytes_of_a_place_are_these() {
        let bytes = [0xFF, 72, 0x34, 0x12, 1, 2, 0, 4];
        let mut what = Held {
            len: 72,
            source: 0x1234,
            tick: 0x0201,
            swallowing: false,
        };
        assert_eq!(held(bytes), Some(what));
        assert_eq!(canonical(Some(what)), [1, 72, 0x34, 0x12, 1, 2, 0, 0]);
        what.swallowing = true;
        assert_eq!(canonical(Some(what)), [1, 0, 0x34, 0x12, 1, 2, 1, 0]);
        for swallowing in [1, 2, 0x80, 0xFF] {
            let bytes = [2, 72, 0x34, 0x12, 1, 2, swallowing, 4];
            assert_eq!(held(bytes), Some(what));
            // A free place is nobody's.
            assert_eq!(held([0, 72, 0x34, 0x12, 1, 2, swallowing, 4]), None);
        }
    }

    #[test]
    fn nothing_is_left_of_a_datagram_that_is_swallowed() {
        let pool = [7; PLACE_BYTES * PLACES];
        let mut places: Places = [0; PLACE_SIZE * PLACES];
        set_place(&mut places, 1, [1, 2, 5, 0, 9, 0, 0, 3]);
        set_place(&mut places, 6, [3, 200, 6, 0, 8, 0, 5, 3]);
        let begun = Entry {
            source: 5,
            length: 2,
            bytes: &[7, 7],
            tick: 9,
            swallowing: false,
        };
        let swallowed = Entry {
            source: 6,
            length: 0,
            bytes: &[],
            tick: 8,
            swallowing: true,
        };
        let entries: Vec<Entry> = unfinished(&places, &pool).collect();
        assert_eq!(entries, [begun, swallowed]);
    }

    #[test]
    fn the_bytes_of_what_comes_of_a_call_are_these() {
        let numbers = Numbers {
            kind: 0x0403_0201,
            code: 0x0605,
            error: 7,
            flags: 8,
            changed_at: 0x0C0B_0A09,
            changed_len: 0x100F_0E0D,
            reply_len: 17,
            frame_count: 18,
            position: 19,
            unused: 20,
        };
        assert_eq!(numbers_in(&std::array::from_fn(|at| at as u8 + 1)), numbers);
    }

    #[test]
    fn the_bytes_of_a_line_are_these() {
        let frame = Frame {
            header: 0x0807_0605,
            len: 0x0C0B_0A09,
            bytes: [13, 14, 15, 16, 17, 18, 19, 20],
        };
        let mut bytes: ParsedBytes = std::array::from_fn(|at| at as u8 + 1);
        bytes[1..4].fill(0);
        let good = Flag::in_byte(1);
        let parsed = Parsed { good, frame };
        assert_eq!(parsed_in(&bytes), parsed);
        let mut line: LineBytes = [0; 24];
        line[0] = 7;
        line[4..].copy_from_slice(&bytes);
        let complete = Flag::in_byte(7);
        assert_eq!(line_in(&line), Line { complete, parsed });
    }

    #[test]
    fn a_byte_between_the_fields_of_a_line_is_seen() {
        for at in [1, 2, 3, 5, 6, 7] {
            let mut line: LineBytes = [0; 24];
            line[at] = 1;
            let seen = std::panic::catch_unwind(|| line_in(&line));
            assert!(seen.is_err(), "{at}");
        }
    }

    #[test]
    fn the_time_of_an_entry_is_the_latest_with_its_tick() {
        let at = |tick, time| {
            let entry = Entry {
                source: 1,
                length: 0,
                bytes: &[],
                tick,
                swallowing: false,
            };
            let unfinished = entry.for_model(time);
            assert_eq!(Entry::from(unfinished), entry);
            unfinished.last_accepted
        };
        assert_eq!(at(7, 7), 7);
        assert_eq!(at(5, 7), 5);
        assert_eq!(at(65_535, 65_536 + 7), 65_535);
        assert_eq!(at(8, 65_536 + 7), 8);
        assert_eq!(at(1, (1 << 32) + 1), (1 << 32) + 1);
        assert_eq!(at(2, (1 << 32) + 1), (1 << 32) - 65_534);
        assert_eq!(at(8, 7), u64::MAX - 65_527);
    }
}
