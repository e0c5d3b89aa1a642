//! Holds random boards on which writes meet: several spaces lie over the same few bytes of memory,
//! with different lowest addresses, offsets and sizes.

use crate::generate::{any_alias, any_lowest, free_number, good_space, Board, LARGEST_STORE};
use crate::layout::table_of;
use crate::random::Random;
use model::Space;

/// Once in so many times memory is as large as it may be: what the model says of a write takes some
/// thousand times as long there.
const LARGE: usize = 700;

/// A board that no call refuses, with two writable spaces in memory at least.
pub fn overlapping_board(random: &mut Random) -> Board {
    let memory_len = memory_len(random);
    let flash_len = random.pick(&[0, 1, 16, 40]);
    // Most spaces have this byte.
    let common = if memory_len == LARGEST_STORE || random.once_in(4) {
        memory_len - 1
    } else {
        random.below(memory_len)
    };
    let mut spaces = Vec::new();
    for index in 0..random.between(2, 5) {
        let number = if index == 0 && !random.once_in(8) {
            random.pick(&[0xFD, 0xFE])
        } else {
            writable_number(random, &spaces)
        };
        let space = window(random, &spaces, number, memory_len, common);
        spaces.push(space);
    }
    for _ in 0..random.below(3) {
        let number = free_number(random, &spaces);
        let space = window(random, &spaces, number, memory_len, common);
        spaces.push(Space {
            read_only: true,
            ..space
        });
    }
    for _ in 0..random.below(3) {
        let space = good_space(random, &spaces, flash_len, memory_len);
        spaces.push(space);
    }
    let first = random.below(spaces.len());
    spaces.rotate_left(first);
    let table = table_of(random, &spaces);
    let alias = any_alias(random);
    Board::new(alias, random.byte(), table, flash_len, memory_len)
}

/// How many bytes memory has: few, but often enough for the longest write.
fn memory_len(random: &mut Random) -> usize {
    if random.once_in(LARGE) {
        return LARGEST_STORE;
    }
    match random.below(8) {
        0 => 1,
        1 | 2 => random.between(1, 8),
        3 | 4 => random.between(1, 40),
        5 => random.between(64, 100),
        _ => random.between(1, 100),
    }
}

/// A number that none of these spaces has and that a writable one may have.
fn writable_number(random: &mut Random, earlier: &[Space]) -> u8 {
    loop {
        let number = free_number(random, earlier);
        if number != 0xFF {
            return number;
        }
    }
}

/// A writable space in memory with this number, mostly over this byte; often with the lowest
/// address of an earlier one, or such that a byte has its index as its address.
fn window(
    random: &mut Random,
    earlier: &[Space],
    number: u8,
    memory_len: usize,
    common: usize,
) -> Space {
    let size = match random.below(6) {
        0 | 1 => memory_len,
        2 => random.between(1, memory_len.min(8)),
        _ => random.between(1, memory_len),
    };
    let last = memory_len - size;
    let offset = if random.once_in(8) {
        random.between(0, last)
    } else {
        random.between(common.saturating_sub(size - 1), common.min(last))
    };
    let lowest = match (random.below(4), earlier) {
        (0, [first, ..]) => first.lowest.min(u32::MAX - (size as u32 - 1)),
        (1, _) => offset as u32,
        _ => any_lowest(random, size),
    };
    Space {
        number,
        lowest,
        highest: lowest + (size as u32 - 1),
        read_only: false,
        in_flash: false,
        offset: offset as u32,
    }
}

/// The writable spaces of a board, which lie in memory.
pub fn writable(board: &Board) -> impl Iterator<Item = &Space> {
    board.spaces().iter().filter(|space| !space.read_only)
}

/// The bytes of memory, or of flash, that a space has.
#[must_use]
pub const fn bytes_of(space: &Space) -> core::ops::Range<usize> {
    let start = space.offset as usize;
    start..start + (space.highest - space.lowest) as usize + 1
}

#[cfg(test)]
mod tests {
    use super::*;
    use crate::faults::Faults;

    #[test]
    fn a_board_is_good_and_its_windows_overlap() {
        let mut random = Random::new(16);
        let (mut overlapping, mut named) = (0, 0);
        for _ in 0..2_000 {
            let board = overlapping_board(&mut random);
            assert_eq!(Faults::of(&board).refusal(), None, "{board:?}");
            let checked =
                model::check_description(&board.for_model(), board.flash_len, board.memory_len);
            assert_eq!(checked, Ok(()), "{board:?}");
            assert!(writable(&board).count() >= 2);
            let common = |index| writable(&board).filter(move |space| has(space, index));
            overlapping +=
                usize::from((0..board.memory_len).any(|index| common(index).count() > 1));
            named += usize::from(writable(&board).any(|space| space.number >= 0xFD));
        }
        assert!(overlapping > 1_800 && named > 1_700);
    }

    fn has(space: &Space, index: usize) -> bool {
        bytes_of(space).contains(&index)
    }
}
