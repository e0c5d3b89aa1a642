//! Holds the random input: boards good and bad, datagrams, the frames of tools, reception states
//! and lines. It leans to the edges, where two readings of document 01 would part.

use crate::ffi::{Places, MOST_SPACES, PLACES, PLACES_SIZE, PLACE_BYTES, SPACE_SIZE};
use crate::joining::{FIRST, LAST, MIDDLE, SINGLE};
use crate::layout::{any_place, held, place, set_place, spaces_in, table_of, Held};
use crate::random::Random;
use crate::times::{any_age, GREATEST_AGE};
use model::Space;

// The limits of document 01. They are not taken from the model: one that had them wrong would get
// input that hides it.

/// The most bytes that flash, and that memory, may have.
pub const LARGEST_STORE: usize = 65_536;
/// The last alias.
pub const LAST_ALIAS: u16 = 4_095;

/// A board description that neither side has seen yet.
#[derive(Clone, Debug)]
pub struct Board {
    /// The board's alias.
    pub alias: u16,
    /// The Write Lengths byte.
    pub write_lengths: u8,
    table: Vec<u8>,
    spaces: Vec<Space>,
    /// How many bytes flash has.
    pub flash_len: usize,
    /// How many bytes memory has.
    pub memory_len: usize,
}

impl Board {
    /// A board with this table of spaces.
    #[must_use]
    pub fn new(
        alias: u16,
        write_lengths: u8,
        table: Vec<u8>,
        flash_len: usize,
        memory_len: usize,
    ) -> Self {
        Self {
            alias,
            write_lengths,
            spaces: spaces_in(&table),
            table,
            flash_len,
            memory_len,
        }
    }

    /// The table of spaces as the library is lent it.
    #[must_use]
    pub fn table(&self) -> &[u8] {
        &self.table
    }

    /// The spaces that the table stands for.
    #[must_use]
    pub fn spaces(&self) -> &[Space] {
        &self.spaces
    }

    fn set_table(&mut self, table: Vec<u8>) {
        self.spaces = spaces_in(&table);
        self.table = table;
    }

    /// The description as the model takes it.
    #[must_use]
    pub fn for_model(&self) -> model::Description<'_> {
        model::Description {
            alias: self.alias,
            write_lengths: self.write_lengths,
            spaces: &self.spaces,
        }
    }
}

/// A space of which nothing is right but by accident.
fn any_space(random: &mut Random) -> Space {
    Space {
        number: any_number(random),
        lowest: any_address(random),
        highest: any_address(random),
        read_only: random.once_in(2),
        in_flash: random.once_in(2),
        offset: if random.once_in(2) {
            random.below(128) as u32
        } else {
            any_address(random)
        },
    }
}

fn any_number(random: &mut Random) -> u8 {
    match random.below(4) {
        0 => random.pick(&[0xFD, 0xFE, 0xFF]),
        1 => random.pick(&[0x00, 0x01, 0x10, 0x7F, 0x80, 0xFB, 0xFC]),
        _ => random.byte(),
    }
}

fn any_address(random: &mut Random) -> u32 {
    match random.below(4) {
        0 => random.pick(&[0, 1, 0x7FFF_FFFF, 0x8000_0000, 0xFFFF_FFFE, 0xFFFF_FFFF]),
        1 => random.below(0x200) as u32,
        2 => u32::MAX - random.below(0x200) as u32,
        _ => random.word(),
    }
}

pub(crate) fn any_alias(random: &mut Random) -> u16 {
    if random.once_in(2) {
        random.pick(&[1, 2, 0x22B, 0x7FF, 0x800, 0xFFE, 0xFFF])
    } else {
        random_alias(random)
    }
}

fn random_alias(random: &mut Random) -> u16 {
    random.between(1, usize::from(LAST_ALIAS)) as u16
}

/// How many bytes flash or memory has. Mostly few, so that what is compared after each call is
/// not mostly that.
fn store_len(random: &mut Random) -> usize {
    match random.below(64) {
        0..=7 => 0,
        8..=11 => 1,
        12..=40 => random.between(2, 128),
        41..=62 => random.between(64, 600),
        _ => random.pick(&[LARGEST_STORE, LARGEST_STORE - 1, 40_000]),
    }
}

/// A board that no call refuses.
pub fn good_board(random: &mut Random) -> Board {
    let flash_len = store_len(random);
    let memory_len = store_len(random);
    let wanted = match random.below(8) {
        0 => 0,
        1 => 1,
        2 => 16,
        3 => 15,
        _ => random.between(1, 8),
    };
    let mut spaces = Vec::with_capacity(wanted);
    while spaces.len() < wanted && flash_len + memory_len > 0 {
        let space = good_space(random, &spaces, flash_len, memory_len);
        spaces.push(space);
    }
    Board {
        alias: any_alias(random),
        write_lengths: random.byte(),
        table: table_of(random, &spaces),
        spaces,
        flash_len,
        memory_len,
    }
}

/// A count over 16, some among them whose low bits alone would do.
fn excess(random: &mut Random) -> usize {
    if random.once_in(200) {
        return 65_540;
    }
    random.pick(&[17, 17, 17, 18, 31, 32, 33, 256, 260])
}

/// A good space behind these; at least one of the two stores has a byte.
pub(crate) fn good_space(
    random: &mut Random,
    earlier: &[Space],
    flash_len: usize,
    memory_len: usize,
) -> Space {
    let number = free_number(random, earlier);
    let in_flash = memory_len == 0 || (flash_len != 0 && random.once_in(4));
    let store = if in_flash { flash_len } else { memory_len };
    let size = match random.below(6) {
        0 => store,
        1 => random.pick(&[1, 2, 16, 63, 64, 65]).min(store),
        _ => random.between(1, store),
    };
    let offset = match random.below(4) {
        0 => 0,
        1 => store - size,
        _ => random.between(0, store - size),
    };
    let lowest = any_lowest(random, size);
    Space {
        number,
        lowest,
        highest: lowest + (size as u32 - 1),
        read_only: in_flash || number == 0xFF || random.once_in(4),
        in_flash,
        offset: offset as u32,
    }
}

/// A number that none of these spaces has.
pub(crate) fn free_number(random: &mut Random, earlier: &[Space]) -> u8 {
    loop {
        let number = any_number(random);
        if earlier.iter().all(|space| space.number != number) {
            return number;
        }
    }
}

/// A lowest address for a space of so many bytes, 1 at least.
pub(crate) fn any_lowest(random: &mut Random, size: usize) -> u32 {
    let highest_start = u32::MAX - (size as u32 - 1);
    match random.below(6) {
        0..=2 => 0,
        3 => highest_start,
        4 => highest_start.min(random.pick(&[1, 0x100, 0xFFFF, 0x7FFF_FFF0, 0x8000_0000])),
        _ => highest_start.min(random.word()),
    }
}

/// Spoils a board in one way, so that mostly one of B11 to B14 or of B2 to B5 refuses it.
pub fn spoil_board(random: &mut Random, board: &mut Board) {
    match random.below(120) {
        0..=13 => board.alias = bad_alias(random, board.alias),
        // A call with a store that is too large takes as long as some tens of the others, so that
        // there are few.
        14 => {
            if random.once_in(2) {
                board.memory_len = excess_store(random);
            } else {
                board.flash_len = excess_store(random);
            }
        }
        15 => break_limits(random, board),
        16..=39 => spoil_table(random, board),
        40..=99 => spoil_spaces(random, board, 1),
        _ => {
            let times = random.between(2, 4);
            spoil_spaces(random, board, times);
        }
    }
}

/// An alias that no board may have, some of them with low bits that alone would do.
fn bad_alias(random: &mut Random, alias: u16) -> u16 {
    if random.once_in(2) {
        random.pick(&[0, 0x1000, 0x1001, 0xFFFF, 0x1000 | alias])
    } else {
        0x1000 + random.below(0xF000) as u16
    }
}

/// A number of bytes that no store may have, mostly the first.
fn excess_store(random: &mut Random) -> usize {
    if random.once_in(16) {
        random.pick(&[LARGEST_STORE + 2, 70_000, 2 * LARGEST_STORE])
    } else {
        LARGEST_STORE + 1
    }
}

/// Breaks two, three or all four of the limits, so that it shows which of them decides; often with
/// bad spaces too.
fn break_limits(random: &mut Random, board: &mut Board) {
    // A bit for each limit, in the order of their numbers.
    let limits = random.pick(&[3, 5, 6, 7, 9, 10, 11, 12, 13, 14, 15]);
    if limits & 2 != 0 {
        board.memory_len = excess_store(random);
    }
    if limits & 4 != 0 {
        board.flash_len = excess_store(random);
    }
    if limits & 8 != 0 {
        board.alias = bad_alias(random, board.alias);
    }
    if random.once_in(2) {
        spoil_spaces(random, board, 1);
    }
    if limits & 1 != 0 {
        crowd_table(random, board);
    }
}

/// Puts more spaces behind those of a board than it may have; good ones but for their number, or
/// anything.
fn crowd_table(random: &mut Random, board: &mut Board) {
    if random.once_in(2) {
        let mut spaces = board.spaces.clone();
        fill_up(random, board, &mut spaces, MOST_SPACES + 1);
        board.set_table(table_of(random, &spaces));
    } else {
        let mut table = core::mem::take(&mut board.table);
        let length = SPACE_SIZE * excess(random) + random.below(SPACE_SIZE);
        let more = random.bytes(length.saturating_sub(table.len()));
        table.extend(more);
        board.set_table(table);
    }
}

/// Puts good spaces behind these until there are so many; any, where no space can be good.
fn fill_up(random: &mut Random, board: &Board, spaces: &mut Vec<Space>, count: usize) {
    while spaces.len() < count {
        let space = if board.flash_len + board.memory_len == 0 {
            any_space(random)
        } else {
            good_space(random, spaces, board.flash_len, board.memory_len)
        };
        spaces.push(space);
    }
}

/// Spoils the table as bytes: too many spaces, one byte other than it was, an end that is cut off
/// or put on, or nothing but random bytes.
fn spoil_table(random: &mut Random, board: &mut Board) {
    let which = random.below(6);
    if which < 2 {
        crowd_table(random, board);
        return;
    }
    let mut table = core::mem::take(&mut board.table);
    match which {
        2 if !table.is_empty() => {
            let index = random.below(table.len());
            table[index] = random.byte();
        }
        3 => table.truncate(random.below(table.len() + 1)),
        4 => {
            let length = random.between(1, 2 * SPACE_SIZE);
            table.extend(random.bytes(length));
        }
        _ => {
            let length = random.between(0, SPACE_SIZE * (MOST_SPACES + 2));
            table = random.bytes(length);
        }
    }
    board.set_table(table);
}

/// Spoils spaces so many times, at any position; often of a board with as many as there may be, so
/// that the last position is among them.
fn spoil_spaces(random: &mut Random, board: &mut Board, times: usize) {
    let mut spaces = board.spaces.clone();
    if random.once_in(4) {
        fill_up(random, board, &mut spaces, MOST_SPACES);
    }
    for _ in 0..times {
        spoil_space(random, board, &mut spaces);
    }
    board.set_table(table_of(random, &spaces));
}

/// Spoils one of the spaces.
fn spoil_space(random: &mut Random, board: &Board, spaces: &mut Vec<Space>) {
    if spaces.is_empty() {
        spaces.push(any_space(random));
        return;
    }
    let index = random.below(spaces.len());
    let space = &mut spaces[index];
    match random.below(9) {
        0 | 1 => {
            if space.highest == u32::MAX {
                space.highest -= 1;
            }
            space.lowest = space.highest + 1;
        }
        2 | 3 => {
            let store = if space.in_flash {
                board.flash_len
            } else {
                board.memory_len
            };
            let size = u64::from(space.highest.saturating_sub(space.lowest)) + 1;
            match random.below(4) {
                // One byte too far.
                0 | 1 => {
                    space.offset = (store as u64 + 1)
                        .saturating_sub(size)
                        .min(u64::from(u32::MAX)) as u32;
                }
                // So far that the end does not fit 32 bits.
                2 => space.offset = u32::MAX - random.below(4) as u32,
                _ => (space.lowest, space.highest) = (0, u32::MAX),
            }
        }
        4 | 5 => {
            space.read_only = false;
            if random.once_in(2) {
                space.in_flash = true;
            } else {
                space.number = 0xFF;
            }
        }
        6 | 7 => {
            let mut twin = *space;
            twin.number = spaces[random.below(spaces.len())].number;
            if spaces.len() < MOST_SPACES {
                spaces.insert(random.between(0, spaces.len()), twin);
            } else {
                spaces[index] = twin;
            }
        }
        _ => *space = any_space(random),
    }
}

/// A datagram for this board, mostly a good command.
pub fn datagram(random: &mut Random, board: &Board) -> Vec<u8> {
    let mut datagram = match random.below(40) {
        0..=11 => read(random, board),
        12..=19 => write(random, board),
        20..=27 => masked_write(random, board),
        28 => vec![0x20, 0x80],
        29..=31 => vec![0x20, 0x84, space_number(random, board)],
        32..=34 => lock(random),
        35 => vec![0x20, 0xA8],
        36 | 37 => {
            let mut unknown = vec![0x20, random.byte()];
            let length = random.below(12);
            unknown.extend(random.bytes(length));
            unknown
        }
        38 => {
            let length = random.between(0, 80);
            random.bytes(length)
        }
        _ => {
            let length = random.between(0, 80);
            let mut bytes = random.bytes(length);
            if let Some(first) = bytes.first_mut() {
                *first = 0x20;
            }
            if let Some(command) = bytes.get_mut(1) {
                *command = random.pick(&COMMANDS);
            }
            bytes
        }
    };
    if random.once_in(8) {
        spoil_datagram(random, &mut datagram);
    }
    datagram
}

/// The commands that are not unknown.
pub const COMMANDS: [u8; 16] = [
    0x00, 0x01, 0x02, 0x03, 0x08, 0x09, 0x0A, 0x0B, 0x40, 0x41, 0x42, 0x43, 0x80, 0x84, 0x88, 0xA8,
];

fn spoil_datagram(random: &mut Random, datagram: &mut Vec<u8>) {
    match random.below(8) {
        0 => datagram.truncate(random.below(10)),
        1 => {
            datagram.pop();
        }
        2 => datagram.push(random.byte()),
        3 => {
            let length = random.between(60, 80);
            while datagram.len() < length {
                datagram.push(random.byte());
            }
        }
        4 => {
            if let Some(first) = datagram.first_mut() {
                *first = random.pick(&[0x00, 0x21, 0x30, 0xA0, 0x02, 0xFF]);
            }
        }
        5 => {
            if let Some(command) = datagram.get_mut(1) {
                *command ^= 1 << random.below(8);
            }
        }
        _ => {
            if !datagram.is_empty() {
                let index = random.below(datagram.len());
                datagram[index] = random.byte();
            }
        }
    }
}

/// A space number, mostly one that is described.
fn space_number(random: &mut Random, board: &Board) -> u8 {
    if board.spaces.is_empty() || random.once_in(5) {
        any_number(random)
    } else {
        board.spaces[random.below(board.spaces.len())].number
    }
}

/// A space number for a write, mostly one that is described and writable.
fn writable_number(random: &mut Random, board: &Board) -> u8 {
    let writable = |space: &&Space| !space.read_only;
    let count = board.spaces.iter().filter(writable).count();
    if count == 0 || random.once_in(3) {
        return space_number(random, board);
    }
    let index = random.below(count);
    board
        .spaces
        .iter()
        .filter(writable)
        .nth(index)
        .map_or(0xFD, |space| space.number)
}

/// The start of a read, write or masked write of so many bytes.
fn addressed(random: &mut Random, board: &Board, base: u8, number: u8, count: usize) -> Vec<u8> {
    let in_command = number >= 0xFD && !random.once_in(3);
    let low_bits = if in_command { number - 0xFC } else { 0 };
    let mut start = vec![0x20, base + low_bits];
    start.extend(address(random, board, number, count).to_be_bytes());
    if !in_command {
        start.push(number);
    }
    start
}

/// An address for a command on that space, mostly inside or next to an edge.
fn address(random: &mut Random, board: &Board, number: u8, count: usize) -> u32 {
    let Some(space) = board.spaces.iter().find(|space| space.number == number) else {
        return any_address(random);
    };
    // The last address from which so many bytes are inside.
    let last = space.highest.wrapping_sub((count as u32).wrapping_sub(1));
    let size = u64::from(space.highest.saturating_sub(space.lowest)) + 1;
    match random.below(14) {
        0 => space.lowest,
        1 => space.lowest.wrapping_sub(1),
        2 => space.highest,
        3 => space.highest.wrapping_add(1),
        4 => last,
        5 => last.wrapping_add(1),
        6 => any_address(random),
        7 => space.lowest.wrapping_sub(count as u32),
        8 => space.highest.wrapping_sub(random.below(70) as u32),
        _ => {
            let inside = size
                .saturating_sub(count as u64 - u64::from(count != 0))
                .max(1);
            space
                .lowest
                .wrapping_add(random.below(inside as usize) as u32)
        }
    }
}

/// How many bytes of that space a command is to have, often more than it has.
fn size_for(random: &mut Random, board: &Board, number: u8, most: usize) -> usize {
    match board.spaces.iter().find(|space| space.number == number) {
        Some(space) if !random.once_in(4) => {
            let size = space.highest.saturating_sub(space.lowest) as usize + 1;
            random.between(1, size.min(most))
        }
        _ => random.between(1, most),
    }
}

fn read(random: &mut Random, board: &Board) -> Vec<u8> {
    let number = space_number(random, board);
    let count = match random.below(6) {
        0 => random.pick(&[
            0x00, 0x01, 0x3F, 0x40, 0x41, 0x7F, 0x80, 0x81, 0xC0, 0xC1, 0xFF,
        ]),
        1 => random.byte(),
        _ => {
            let size = size_for(random, board, number, 64) as u8;
            if random.once_in(4) {
                size | 0x80
            } else {
                size
            }
        }
    };
    let mut datagram = addressed(random, board, 0x40, number, usize::from(count & 0x7F));
    datagram.push(count);
    datagram
}

fn write(random: &mut Random, board: &Board) -> Vec<u8> {
    let number = writable_number(random, board);
    let count = match random.below(5) {
        0 => random.pick(&[0, 1, 2, 63, 64, 65]),
        _ => size_for(random, board, number, 64),
    };
    let mut datagram = addressed(random, board, 0x00, number, count);
    datagram.extend(random.bytes(count));
    datagram
}

fn masked_write(random: &mut Random, board: &Board) -> Vec<u8> {
    let number = writable_number(random, board);
    let length = match random.below(5) {
        0 => random.pick(&[0, 1, 2, 3, 62, 63, 64, 65, 66]),
        _ => 2 * size_for(random, board, number, 32),
    };
    let mut datagram = addressed(random, board, 0x08, number, length / 2);
    for index in 0..length {
        let byte = if index % 2 == 0 && random.once_in(2) {
            random.pick(&[0x00, 0x0F, 0x80, 0xFF])
        } else {
            random.byte()
        };
        datagram.push(byte);
    }
    datagram
}

fn lock(random: &mut Random) -> Vec<u8> {
    let mut datagram = vec![0x20, 0x88];
    let id = match random.below(8) {
        0..=2 => [0; 6],
        3 => [0, 0, 0, 0, 0, 1],
        4 => [1, 0, 0, 0, 0, 0],
        5 => [0, 0, 0x80, 0, 0, 0],
        _ => {
            let mut id = [0; 6];
            random.fill(&mut id);
            id
        }
    };
    datagram.extend(id);
    datagram
}

/// A tool that sends datagrams in frames.
#[derive(Clone, Debug)]
pub struct Tool {
    source: u16,
    datagram: Vec<u8>,
    /// How many bytes of it have been sent; `None` where not even its First has been.
    sent: Option<usize>,
}

/// A frame as it comes from the bus.
#[derive(Clone, Debug)]
pub struct Incoming {
    /// The header, over 29 bits at times.
    pub header: u32,
    /// The data, over 8 bytes at times.
    pub data: Vec<u8>,
}

impl Tool {
    /// A tool with this alias.
    #[must_use]
    pub const fn new(source: u16) -> Self {
        Self {
            source,
            datagram: Vec::new(),
            sent: None,
        }
    }

    /// Its alias.
    #[must_use]
    pub const fn source(&self) -> u16 {
        self.source
    }

    /// The kind and data of the frame that is next by the rules.
    fn regular(&mut self, random: &mut Random, board: &Board) -> (u32, Vec<u8>) {
        let Some(sent) = self.sent else {
            self.datagram = datagram(random, board);
            if self.datagram.len() <= 8 && !random.once_in(6) {
                return (SINGLE, self.datagram.clone());
            }
            let size = piece(random).min(self.datagram.len());
            self.sent = Some(size);
            return (FIRST, self.datagram[..size].to_vec());
        };
        let left = &self.datagram[sent..];
        let size = piece(random).min(left.len());
        let data = left[..size].to_vec();
        // An empty Middle is against the rules: an empty piece goes in a Last, with more to come
        // or not.
        if size == left.len() && !random.once_in(16) || size == 0 {
            self.sent = None;
            (LAST, data)
        } else {
            self.sent = Some(sent + size);
            (MIDDLE, data)
        }
    }

    /// Gives up the datagram that is being sent, as a tool does that was refused.
    pub fn give_up(&mut self) {
        self.sent = None;
    }

    /// The next frame, at times one that is against the rules.
    pub fn frame(&mut self, random: &mut Random, board: &Board) -> Incoming {
        if random.once_in(200) {
            return Incoming {
                header: random.word(),
                data: any_data(random),
            };
        }
        let before = self.sent;
        let (mut kind, mut data) = self.regular(random, board);
        let mut destination = board.alias;
        let mut source = self.source;
        if random.once_in(6) {
            match random.below(14) {
                0 | 1 => kind = random.pick(&[SINGLE, FIRST, MIDDLE, LAST]),
                2 => kind = random.pick(&[0x19, 0x1E, 0x1F, 0x00, 0x0A, 0x3A, 0x5B, 0x9C, 0xFD]),
                3 => destination = random.pick(&[0, 0xFFF, board.alias ^ 1, board.alias ^ 0x800]),
                4 => source = board.alias,
                5 => data = any_data(random),
                6 => data.clear(),
                // The frame before is lost, or this one is sent again.
                7 | 8 => (kind, data) = self.regular(random, board),
                9 => self.sent = before,
                10 | 11 => self.sent = None,
                12 => source ^= 1 << random.below(12),
                _ => kind ^= 1 << random.below(8),
            }
        }
        Incoming {
            header: kind << 24 | u32::from(destination & 0xFFF) << 12 | u32::from(source),
            data,
        }
    }
}

/// How many bytes go in a frame: mostly as many as fit.
fn piece(random: &mut Random) -> usize {
    if random.once_in(5) {
        random.below(9)
    } else {
        8
    }
}

/// Data of 0 to 80 bytes, mostly near 8.
fn any_data(random: &mut Random) -> Vec<u8> {
    let length = match random.below(3) {
        0 => random.between(0, 80),
        1 => random.between(7, 10),
        _ => random.between(0, 8),
    };
    random.bytes(length)
}

/// The tools of a world, some of them more than the board has places for.
pub fn tools(random: &mut Random, board: &Board) -> Vec<Tool> {
    let count = random.pick(&[1, 2, 3, 4, 7, 8, 9, 10, 12]);
    let mut tools: Vec<Tool> = Vec::with_capacity(count);
    while tools.len() < count {
        let source = match random.below(4) {
            0 => random.pick(&[0, 1, 0xFFE, 0xFFF]),
            1 => (board.alias ^ 1 << random.below(12)) & 0xFFF,
            _ => random_alias(random),
        };
        if source != board.alias && tools.iter().all(|tool| tool.source != source) {
            tools.push(Tool::new(source));
        }
    }
    tools
}

/// Places with some of these tools in them, so that B7 lets them pass, at most so old at this tick;
/// the free ones hold anything.
pub fn sound_places(random: &mut Random, tools: &[Tool], tick: u16, oldest: u16) -> Places {
    let mut places = [0; PLACES_SIZE];
    let mut next = 0;
    for index in 0..PLACES {
        let mut what = None;
        if next < tools.len() && random.once_in(3) {
            let age = any_age(random, oldest);
            what = Some(any_held(random, tools[next].source, tick, age));
            next += 1;
        }
        set_place(&mut places, index, any_place(random, what));
    }
    places
}

/// Something of this source that a place may be held for, so old at this tick.
pub fn any_held(random: &mut Random, source: u16, tick: u16, age: u16) -> Held {
    let swallowing = random.once_in(3);
    held_for(random, swallowing, source, tick, age)
}

/// What a place is held for whose source is being swallowed, or else has a datagram of any length
/// unfinished; so old at this tick.
pub fn held_for(random: &mut Random, swallowing: bool, source: u16, tick: u16, age: u16) -> Held {
    let len = match (swallowing, random.below(4)) {
        (true, _) => no_len(random),
        (false, 0) => random.pick(&[0, 1, 64, 71, 72]),
        (false, _) => random.between(0, PLACE_BYTES) as u8,
    };
    Held {
        len,
        source,
        tick: tick.wrapping_sub(age),
        swallowing,
    }
}

/// A length that means nothing: often 0, as the library writes it, and often one that no datagram
/// may have.
fn no_len(random: &mut Random) -> u8 {
    match random.below(4) {
        0 | 1 => 0,
        2 => random.pick(&[1, 72, 73, 128, 255]),
        _ => random.byte(),
    }
}

/// Places that B7 lets pass, of any age at this tick, as only a caller with a long pause has them:
/// often eight, of these tools and of others, and at times all of them due.
pub fn old_places(random: &mut Random, tools: &[Tool], tick: u16) -> Places {
    let youngest = random.pick(&[0, 0, 0, GREATEST_AGE + 1]);
    let often = random.between(1, 3);
    let first = random.below(tools.len());
    let sources = sources_from(random, tools, first);
    let mut places = [0; PLACES_SIZE];
    for (index, source) in sources.into_iter().enumerate() {
        let what = (often == 3 || !random.once_in(often + 1)).then(|| {
            let age = any_age(random, u16::MAX).max(youngest);
            any_held(random, source, tick, age)
        });
        set_place(&mut places, index, any_place(random, what));
    }
    places
}

/// Eight places that B7 lets pass, all of them held and due at this tick: with datagrams, with
/// sources that are being swallowed, or with both. Often all ticks are of an earlier count: at the
/// call the count has gone round, or has begun anew, so that each of them is greater than the
/// call's.
pub fn eight_old_places(random: &mut Random, tools: &[Tool], tick: u16) -> Places {
    let swallowing = random.pick(&[None, None, Some(false), Some(true)]);
    // Of an age over this one the tick is of the count before.
    let earlier = random.once_in(2) && tick < u16::MAX;
    let youngest = (GREATEST_AGE + 1).max(if earlier { tick + 1 } else { 0 });
    let first = random.below(tools.len());
    let mut places = [0; PLACES_SIZE];
    for (index, source) in sources_from(random, tools, first).into_iter().enumerate() {
        let swallowing = swallowing.unwrap_or_else(|| random.once_in(2));
        let age = any_age(random, u16::MAX).max(youngest);
        let what = held_for(random, swallowing, source, tick, age);
        set_place(&mut places, index, any_place(random, Some(what)));
    }
    places
}

/// Eight sources: those of the tools from one on, and others where there are too few.
fn sources_from(random: &mut Random, tools: &[Tool], first: usize) -> [u16; PLACES] {
    let mut sources = [0; PLACES];
    for index in 0..PLACES {
        let mut source = tools[(first + index) % tools.len()].source;
        while sources[..index].contains(&source) {
            source = random.below(usize::from(LAST_ALIAS) + 1) as u16;
        }
        sources[index] = source;
    }
    sources
}

/// A datagram frame to this board from this source, of any kind.
pub fn any_frame(random: &mut Random, board: &Board, source: u16) -> Incoming {
    let kind = random.pick(&[SINGLE, FIRST, MIDDLE, LAST]);
    let length = piece(random);
    Incoming {
        header: kind << 24 | u32::from(board.alias & 0xFFF) << 12 | u32::from(source),
        data: random.bytes(length),
    }
}

/// Other bytes for places that are held for the same, as a caller may leave them between two calls.
pub fn rewrite_places(random: &mut Random, places: &mut Places) {
    for index in 0..PLACES {
        if random.once_in(2) {
            let mut what = held(place(places, index));
            if let Some(what) = what.as_mut().filter(|what| what.swallowing) {
                what.len = no_len(random);
            }
            set_place(places, index, any_place(random, what));
        }
    }
}

/// Damages places, so that B7 refuses them.
pub fn damage_places(random: &mut Random, places: &mut Places) {
    let index = random.below(PLACES);
    let other = (index + random.between(1, PLACES - 1)) % PLACES;
    let (source, tick) = (random.below(0x1000) as u16, random.half());
    let free = any_held(random, source, tick, 0);
    let mut damaged = held(place(places, index)).unwrap_or(free);
    let twin = held(place(places, other)).unwrap_or(free);
    match random.below(4) {
        // Where a source is being swallowed there is no length.
        0 => {
            damaged.len = random.pick(&[73, 74, 80, 128, 200, 255]);
            damaged.swallowing = false;
        }
        1 => damaged.source = random.pick(&[0x1000, 0x1001, 0x8000, 0xFFFF, 0x1000 | source]),
        // Either of the two with a datagram or being swallowed.
        2 => {
            damaged = any_held(random, twin.source, damaged.tick, 0);
            let twin = any_held(random, twin.source, twin.tick, 0);
            set_place(places, other, any_place(random, Some(twin)));
        }
        // Nothing but random bytes, of which one place at least is too long.
        _ => {
            random.fill(places);
            damaged.len |= 0x80;
            damaged.swallowing = false;
        }
    }
    set_place(places, index, any_place(random, Some(damaged)));
}

/// An alias that is good, or one of 16 bits.
pub fn wide_alias(random: &mut Random) -> u16 {
    match random.below(8) {
        0 => random.pick(&[0, 0xFFF, 0x1000, 0x8000, 0xFFFF]),
        1 => random.half(),
        _ => random.below(0x1000) as u16,
    }
}

/// A line without its newline, mostly a good one or one with a single fault.
pub fn line(random: &mut Random) -> Vec<u8> {
    if random.once_in(12) {
        let length = match random.below(4) {
            0 => 0,
            _ => random.between(1, 80),
        };
        return random.bytes(length);
    }
    let digits: &[u8] = b"0123456789ABCDEF";
    let mut line = b":X".to_vec();
    for _ in 0..8 {
        line.push(random.pick(digits));
    }
    line.push(b'N');
    let count = match random.below(10) {
        0 => random.between(0, 40),
        1 => 2 * random.between(8, 10),
        _ => 2 * random.between(0, 8),
    };
    for _ in 0..count {
        line.push(random.pick(digits));
    }
    line.push(b';');
    if random.once_in(2) {
        let index = random.below(line.len());
        match random.below(7) {
            0 => {
                line.remove(index);
            }
            // As lines end in other systems, or one sign too many.
            6 => line.push(random.pick(b"\r \0;0")),
            1 => line.insert(index, random.pick(b"0A;N:X \r\n")),
            2 => line[index] = random.byte(),
            3 => line[index] = line[index].to_ascii_lowercase(),
            4 => line[index] = random.pick(b"/:@G`ag;NX\0"),
            _ => line.truncate(index),
        }
    }
    line
}

#[cfg(test)]
mod tests {
    use super::*;
    use crate::faults::Damage;
    use crate::layout::unfinished;
    use crate::setup::for_model;
    use crate::times::age;

    #[test]
    fn a_good_board_is_good_and_damaged_places_are_not() {
        let mut random = Random::new(3);
        for _ in 0..2_000 {
            let mut board = good_board(&mut random);
            let checked =
                model::check_description(&board.for_model(), board.flash_len, board.memory_len);
            assert_eq!(checked, Ok(()), "{board:?}");
            assert_eq!(board.spaces, spaces_in(&board.table));
            let tools = tools(&mut random, &board);
            let (tick, oldest) = (random.half(), random.half());
            let mut places = sound_places(&mut random, &tools, tick, oldest);
            let before = places;
            assert!((0..PLACES)
                .filter_map(|at| held(place(&before, at)))
                .all(|held| age(held, tick) <= oldest));
            rewrite_places(&mut random, &mut places);
            assert!(unfinished(&before, &[0; 576]).eq(unfinished(&places, &[0; 576])));
            assert_eq!(for_model(&places, &[0; 576], 70_000).check(), Ok(()));
            damage_places(&mut random, &mut places);
            assert!(for_model(&places, &[0; 576], 70_000).check().is_err());
            spoil_board(&mut random, &mut board);
            assert_eq!(board.spaces, spaces_in(&board.table));
        }
    }

    #[test]
    fn old_places_are_sound_and_of_any_age() {
        let mut random = Random::new(4);
        let (mut full, mut all_due) = (0, 0);
        for _ in 0..2_000 {
            let board = good_board(&mut random);
            let tools = tools(&mut random, &board);
            let tick = random.half();
            let places = old_places(&mut random, &tools, tick);
            assert_eq!(for_model(&places, &[0; 576], 70_000).check(), Ok(()));
            let due = |at| held(place(&places, at)).map(|held| age(held, tick) > 3_000);
            let dues: Vec<_> = (0..PLACES).filter_map(due).collect();
            full += usize::from(dues.len() == PLACES);
            all_due += usize::from(dues == [true; PLACES]);
        }
        assert!(full > all_due && all_due > 100, "{full}, {all_due}");
    }

    #[test]
    fn eight_old_places_are_sound_and_all_due() {
        let mut random = Random::new(8);
        let (mut datagrams, mut swallowed, mut earlier) = (0, 0, 0);
        for _ in 0..2_000 {
            let board = good_board(&mut random);
            let tools = tools(&mut random, &board);
            let tick = random.half();
            let places = eight_old_places(&mut random, &tools, tick);
            assert_eq!(for_model(&places, &[0; 576], 70_000).check(), Ok(()));
            let all: Vec<_> = (0..PLACES)
                .filter_map(|at| held(place(&places, at)))
                .collect();
            assert_eq!(all.len(), PLACES);
            assert!(all.iter().all(|&held| age(held, tick) > 3_000));
            datagrams += usize::from(all.iter().all(|held| !held.swallowing));
            swallowed += usize::from(all.iter().all(|held| held.swallowing));
            earlier += usize::from(all.iter().all(|held| held.tick > tick));
        }
        let counts = [datagrams, swallowed, earlier];
        assert!(counts.iter().all(|&count| count > 100), "{counts:?}");
        assert!(
            datagrams + swallowed < 1_900 && earlier < 1_900,
            "{counts:?}"
        );
    }

    #[test]
    fn places_are_damaged_in_every_way() {
        let mut random = Random::new(15);
        let mut alone = [0; 7];
        for _ in 0..4_000 {
            let tools = [Tool::new(1), Tool::new(2), Tool::new(3)];
            let mut places = sound_places(&mut random, &tools, 0, 0);
            damage_places(&mut random, &mut places);
            let damage = Damage::of(&places);
            if damage.is_single() {
                for (count, is) in alone.iter_mut().zip(damage.each()) {
                    *count += usize::from(is);
                }
            }
        }
        assert!(alone.iter().all(|&count| count > 50), "{alone:?}");
    }
}
