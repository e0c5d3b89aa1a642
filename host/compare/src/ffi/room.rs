//! Holds room that a call is lent for what comes of it: its bytes are any before the call, so that
//! one which is not written is found, and there is a guard on either side.

use std::cell::RefCell;

use crate::random::Random;

const GUARD: usize = 16;
const MARK: u8 = 0xA5;

thread_local! {
    /// What the rooms hold before a call is no part of it, so that it needs no seed of its own.
    static ANY: RefCell<Random> = const { RefCell::new(Random::new(20)) };
}

/// Room of so many bytes.
#[derive(Clone, Debug)]
#[repr(C)]
pub struct Room<const SIZE: usize> {
    before: [u8; GUARD],
    bytes: [u8; SIZE],
    behind: [u8; GUARD],
}

impl<const SIZE: usize> Default for Room<SIZE> {
    fn default() -> Self {
        Self::new()
    }
}

impl<const SIZE: usize> Room<SIZE> {
    /// Room with any bytes.
    #[must_use]
    pub fn new() -> Self {
        let mut bytes = [0; SIZE];
        ANY.with_borrow_mut(|random| random.fill(&mut bytes));
        Self {
            before: [MARK; GUARD],
            bytes,
            behind: [MARK; GUARD],
        }
    }

    /// The room, to be lent.
    pub const fn lent(&mut self) -> &mut [u8; SIZE] {
        &mut self.bytes
    }

    /// What is in it.
    ///
    /// # Panics
    ///
    /// Where a byte beside it was written.
    #[must_use]
    pub fn bytes(&self) -> &[u8; SIZE] {
        assert!(
            self.before == [MARK; GUARD] && self.behind == [MARK; GUARD],
            "a byte beside what was lent is changed"
        );
        &self.bytes
    }
}

/// Tests bytes that stand between the fields of what the library has filled in.
///
/// # Panics
///
/// Where one is not 0.
pub fn blank(bytes: &[u8]) {
    assert!(
        bytes.iter().all(|&byte| byte == 0),
        "the library left {bytes:X?} between the fields"
    );
}

#[cfg(test)]
mod tests {
    use super::*;

    #[test]
    fn a_room_is_another_each_time() {
        let rooms = [(); 8].map(|()| *Room::<20>::new().bytes());
        for (index, room) in rooms.iter().enumerate() {
            assert!(!rooms[..index].contains(room));
        }
    }

    #[test]
    #[should_panic(expected = "beside what was lent")]
    fn a_byte_behind_it_is_seen() {
        let mut room = Room::<20>::new();
        room.behind[0] ^= 1;
        let _ = room.bytes();
    }

    #[test]
    #[should_panic(expected = "between the fields")]
    fn a_byte_between_the_fields_is_seen() {
        blank(&[0, 0, 1]);
    }
}
