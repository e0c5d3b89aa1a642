//! Holds random writes and masked writes that a board accepts, each with the bits of memory that it
//! is to touch. Which these are is worked out from document 01 and shares nothing with either side.

use core::ops::Range;

use crate::generate::Board;
use crate::random::Random;
use crate::writes::boards::{bytes_of, writable};
use model::Space;

/// The most bytes of a write.
pub const MOST_BYTES: usize = 64;
/// The most pairs of a masked write.
pub const MOST_PAIRS: usize = 32;

/// A write or masked write to a writable space, with no byte outside of it.
#[derive(Clone, Debug, PartialEq, Eq)]
pub struct Write {
    /// The number of the space.
    pub number: u8,
    /// The address of the first byte.
    pub address: u32,
    /// The index into memory of that byte.
    pub start: usize,
    /// Whether it is a masked write.
    pub masked: bool,
    /// For each byte the bits that are touched: all of them by a plain write.
    pub masks: Vec<u8>,
    /// The datagram.
    pub datagram: Vec<u8>,
}

impl Write {
    /// A write to this space from this index into memory on, with random data; a masked write, or
    /// else all masks are 0xFF.
    fn new(random: &mut Random, space: &Space, start: usize, masked: bool, masks: Vec<u8>) -> Self {
        let number = space.number;
        let address = space.lowest + (start as u32 - space.offset);
        let by_bits = number >= 0xFD && !random.once_in(3);
        let low_bits = if by_bits { number - 0xFC } else { 0 };
        let mut datagram = vec![0x20, if masked { 0x08 } else { 0x00 } + low_bits];
        datagram.extend(address.to_be_bytes());
        if !by_bits {
            datagram.push(number);
        }
        for &mask in &masks {
            if masked {
                datagram.push(mask);
            }
            // Also outside the mask.
            datagram.push(random.byte());
        }
        Self {
            number,
            address,
            start,
            masked,
            masks,
            datagram,
        }
    }

    /// The bytes of memory that it names.
    #[must_use]
    pub fn range(&self) -> Range<usize> {
        self.start..self.start + self.masks.len()
    }

    /// The bits of a byte of memory that it touches.
    #[must_use]
    pub fn mask_of(&self, index: usize) -> u8 {
        let place = index.checked_sub(self.start);
        place
            .and_then(|place| self.masks.get(place).copied())
            .unwrap_or(0)
    }

    /// The data byte for a byte of memory that it names.
    #[must_use]
    pub fn data_of(&self, index: usize) -> u8 {
        let size = 1 + usize::from(self.masked);
        let behind = self.range().end - index;
        // The data byte is the last of its pair.
        self.datagram[self.datagram.len() - size * behind + size - 1]
    }

    /// Does it to a memory.
    pub fn apply(&self, memory: &mut [u8]) {
        for index in self.range() {
            let mask = self.mask_of(index);
            memory[index] = memory[index] & !mask | self.data_of(index) & mask;
        }
    }

    /// Whether a byte of memory has the same address in the spaces of both, if it has one there.
    #[must_use]
    pub const fn has_the_addresses_of(&self, other: &Self) -> bool {
        let one = self.address as i64 - self.start as i64;
        one == other.address as i64 - other.start as i64
    }

    /// The bytes of memory that both name.
    #[must_use]
    pub fn common(&self, other: &Self) -> Range<usize> {
        let (one, other) = (self.range(), other.range());
        one.start.max(other.start)..one.end.min(other.end)
    }

    /// Whether there is a byte of memory of which both touch bits, be they others.
    #[must_use]
    pub fn shares_a_byte_with(&self, other: &Self) -> bool {
        self.common(other)
            .any(|index| self.mask_of(index) != 0 && other.mask_of(index) != 0)
    }

    /// Whether there is a bit of memory that both touch.
    #[must_use]
    pub fn shares_a_bit_with(&self, other: &Self) -> bool {
        self.common(other)
            .any(|index| self.mask_of(index) & other.mask_of(index) != 0)
    }
}

/// One of the writable spaces of which this is true, if there is one.
fn one_of<'b>(
    random: &mut Random,
    board: &'b Board,
    is: impl Fn(&Space) -> bool,
) -> Option<&'b Space> {
    let those = || writable(board).filter(|space| is(space));
    match those().count() {
        0 => None,
        count => those().nth(random.below(count)),
    }
}

/// Some of the bytes of a writable space, no more than so many; often one, or as many as there are,
/// and often from its lowest address on or up to its highest.
fn any_range<'b>(random: &mut Random, board: &'b Board, most: usize) -> (&'b Space, Range<usize>) {
    let space = one_of(random, board, |_| true).expect("a writable space");
    let bytes = bytes_of(space);
    let most = most.min(bytes.len());
    let count = match random.below(6) {
        0 => 1,
        1 => most,
        2 => random.between(1, most),
        _ => random.between(1, most.min(4)),
    };
    let last = bytes.end - count;
    let start = match random.below(5) {
        0 => bytes.start,
        1 => last,
        _ => random.between(bytes.start, last),
    };
    (space, start..start + count)
}

/// A mask: of no bit, of one, of all or of some.
pub fn any_mask(random: &mut Random) -> u8 {
    match random.below(6) {
        0 => 0x00,
        1 => 1 << random.below(8),
        2 => 0xFF,
        _ => random.byte(),
    }
}

/// A write, or a masked write with any masks, to these bytes of a space.
fn any_to(random: &mut Random, space: &Space, range: Range<usize>, masked: bool) -> Write {
    let mask = |random: &mut Random| if masked { any_mask(random) } else { 0xFF };
    let masks = range.clone().map(|_| mask(random)).collect();
    Write::new(random, space, range.start, masked, masks)
}

/// A write, or a masked write with any masks.
///
/// # Panics
///
/// Where the board has no writable space.
pub fn any_write(random: &mut Random, board: &Board) -> Write {
    let masked = random.once_in(2);
    let most = if masked { MOST_PAIRS } else { MOST_BYTES };
    let (space, range) = any_range(random, board, most);
    any_to(random, space, range, masked)
}

/// A write that has to do with this one, which is to the same board: the same, one to an equal
/// address of another space, or one that names one of its bytes, through the same space or another.
///
/// # Panics
///
/// Where the board has no writable space.
pub fn partner(random: &mut Random, board: &Board, write: &Write) -> Write {
    match random.below(10) {
        0 => write.clone(),
        1 => any_write(random, board),
        2 | 3 => at_the_address(random, board, write).unwrap_or_else(|| over(random, board, write)),
        _ => over(random, board, write),
    }
}

/// A write to the same address of another space, if another has it.
fn at_the_address(random: &mut Random, board: &Board, write: &Write) -> Option<Write> {
    let space = one_of(random, board, |space| {
        space.number != write.number && (space.lowest..=space.highest).contains(&write.address)
    })?;
    let bytes = bytes_of(space);
    let start = bytes.start + (write.address - space.lowest) as usize;
    let count = random.between(1, (bytes.end - start).min(4));
    let masked = random.once_in(2);
    Some(any_to(random, space, start..start + count, masked))
}

/// A write that names a byte of this one, through any space that has it: plain, with any masks, or
/// with masks that touch no bit that this one touches.
fn over(random: &mut Random, board: &Board, write: &Write) -> Write {
    let byte = write.start + random.below(write.masks.len());
    let has = |space: &Space| bytes_of(space).contains(&byte);
    let space = one_of(random, board, has).expect("the space of the write has it");
    let bytes = bytes_of(space);
    let most = if random.once_in(8) { MOST_PAIRS } else { 4 };
    let count = random.between(1, bytes.len().min(most));
    let first = (byte + 1).saturating_sub(count).max(bytes.start);
    let start = random.between(first, byte.min(bytes.end - count));
    let range = start..start + count;
    // Beside a plain write only masks of no bit are apart.
    let way = random.below(if write.masked { 6 } else { 3 });
    if way < 2 {
        return any_to(random, space, range, way == 0);
    }
    let apart = range.map(|index| any_mask(random) & !write.mask_of(index));
    let masks = apart.collect();
    Write::new(random, space, start, true, masks)
}

/// A write that touches no bits but these, which are given for each byte of memory: a plain one
/// only where it has all bits of its bytes.
///
/// # Panics
///
/// Where the board has no writable space.
pub fn write_within(random: &mut Random, board: &Board, bits: &[u8]) -> Write {
    let (space, range) = any_range(random, board, MOST_PAIRS);
    let bits = &bits[range.clone()];
    if bits.iter().all(|&bits| bits == 0xFF) && !random.once_in(4) {
        return any_to(random, space, range, false);
    }
    let masks = bits.iter().map(|bits| any_mask(random) & bits).collect();
    Write::new(random, space, range.start, true, masks)
}

#[cfg(test)]
mod tests {
    use super::*;
    use crate::writes::boards::overlapping_board;
    use model::Effect;

    /// What a write does by the model, which is seen to accept it and to touch the bits that it
    /// says.
    fn effect(board: &Board, write: &Write) -> Effect {
        let (description, datagram) = (board.for_model(), &write.datagram);
        assert!(
            model::is_accepted_write(&description, datagram),
            "{write:?}"
        );
        let effect = Effect::of(&description, board.memory_len, datagram);
        for (index, (mask, _)) in effect.pairs().into_iter().enumerate() {
            assert_eq!(mask, write.mask_of(index), "{index}, {write:?}");
        }
        let (mut own, mut models) = (vec![0x5A; board.memory_len], vec![0x5A; board.memory_len]);
        write.apply(&mut own);
        effect.apply(&mut models);
        assert_eq!(own, models, "{write:?}");
        let most = if write.masked { MOST_PAIRS } else { MOST_BYTES };
        assert!((1..=most).contains(&write.masks.len()), "{write:?}");
        effect
    }

    #[test]
    fn a_write_is_accepted_and_touches_the_bits_that_it_says() {
        let mut random = Random::new(16);
        for _ in 0..2_000 {
            let random = &mut random;
            let board = overlapping_board(random);
            let one = any_write(random, &board);
            let other = partner(random, &board, &one);
            let [own, others] = [&one, &other].map(|write| effect(&board, write));
            assert_eq!(
                one.shares_a_bit_with(&other),
                own.shares_a_bit_with(&others)
            );
            let bits = random.bytes(board.memory_len);
            let within = write_within(random, &board, &bits);
            effect(&board, &within);
            assert!(within
                .range()
                .all(|index| within.mask_of(index) & !bits[index] == 0));
        }
    }

    /// A masked write of one byte.
    fn masked(number: u8, address: u32, start: usize, mask: u8) -> Write {
        Write {
            number,
            address,
            start,
            masked: true,
            masks: vec![mask],
            datagram: Vec::new(),
        }
    }

    #[test]
    fn what_two_writes_have_in_common() {
        let one = masked(0xFD, 0x20, 32, 0x0F);
        let other = masked(0x10, 0x100, 32, 0xF0);
        assert_eq!(one.common(&other), 32..33);
        assert!(one.shares_a_byte_with(&other) && !one.shares_a_bit_with(&other));
        assert!(!one.has_the_addresses_of(&other));
        assert!(one.has_the_addresses_of(&masked(0xFE, 0x21, 33, 0)));
        assert!(one.shares_a_bit_with(&masked(0x10, 0x100, 32, 0x18)));
        assert!(!one.shares_a_byte_with(&masked(0xFD, 0x20, 32, 0x00)));
        // At one address, and not the same byte.
        let elsewhere = masked(0xFE, 0x20, 40, 0xFF);
        assert!(one.common(&elsewhere).is_empty());
        assert!(!one.shares_a_byte_with(&elsewhere));
    }
}
