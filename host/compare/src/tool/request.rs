//! Holds the requests of a tool: random ones, mostly at their limits, and the request that a
//! datagram stands for. What is in range and what a datagram stands for is worked out from document
//! 01 and shares nothing with either side.

use crate::random::Random;

/// The most bytes of a datagram, and the fewest of a buffer for a command.
pub const LONGEST_DATAGRAM: usize = 72;
/// The most bytes that a read, a write or a masked write has.
const MOST_BYTES: usize = 64;
/// The bytes of an ID.
const ID_SIZE: usize = 6;
/// The spaces from this one on can be named by the control bits, which are 1, 2 and 3.
pub const FIRST_BY_BITS: u8 = 0xFD;

/// What a tool asks of a board; counts and lengths may be out of range.
#[derive(Clone, Debug, PartialEq, Eq)]
pub enum Request {
    /// To read bytes.
    Read {
        /// The number of the space.
        space: u8,
        /// The address of the first byte.
        address: u32,
        /// How many.
        count: usize,
    },
    /// To write bytes.
    Write {
        /// The number of the space.
        space: u8,
        /// The address of the first byte.
        address: u32,
        /// The bytes.
        bytes: Vec<u8>,
    },
    /// To write bytes under masks.
    WriteMasked {
        /// The number of the space.
        space: u8,
        /// The address of the first byte.
        address: u32,
        /// The bytes of the pairs, each a mask and then its data.
        pairs: Vec<u8>,
    },
    /// For the options.
    Options,
    /// For the information on a space.
    Information {
        /// The number of the space.
        space: u8,
    },
    /// For the lock.
    Lock {
        /// The bytes of the ID.
        id: Vec<u8>,
    },
    /// Update Complete.
    UpdateComplete,
}

impl Request {
    /// The request that a board reads in this datagram; `None` where it rejects it.
    #[must_use]
    pub fn in_datagram(datagram: &[u8]) -> Option<Self> {
        let &[0x20, command, ref rest @ ..] = datagram else {
            return None;
        };
        if datagram.len() > LONGEST_DATAGRAM {
            return None;
        }
        match (command, rest) {
            (0x80, []) => Some(Self::Options),
            (0x84, &[space]) => Some(Self::Information { space }),
            (0x88, id) => Some(Self::Lock { id: id.to_vec() }),
            (0xA8, []) => Some(Self::UpdateComplete),
            (0x00..=0x03 | 0x08..=0x0B | 0x40..=0x43, _) => Self::addressed(command, rest),
            _ => None,
        }
        .filter(Self::is_in_range)
    }

    /// The read, write or masked write with this command, and with these bytes behind it.
    fn addressed(command: u8, bytes: &[u8]) -> Option<Self> {
        let (address, rest) = bytes.split_first_chunk()?;
        let address = u32::from_be_bytes(*address);
        let (space, rest) = match (command & 0x03, rest) {
            (0, &[space, ref rest @ ..]) => (space, rest),
            (0, []) => return None,
            (bits, rest) => (FIRST_BY_BITS - 1 + bits, rest),
        };
        match (command & !0x03, rest) {
            (0x00, bytes) => Some(Self::Write {
                space,
                address,
                bytes: bytes.to_vec(),
            }),
            (0x08, pairs) => Some(Self::WriteMasked {
                space,
                address,
                pairs: pairs.to_vec(),
            }),
            (_, &[count]) => Some(Self::Read {
                space,
                address,
                count: usize::from(count & 0x7F),
            }),
            _ => None,
        }
    }

    /// Whether count or length, if there is one, is in range.
    #[must_use]
    pub fn is_in_range(&self) -> bool {
        match self {
            Self::Read { count, .. } => (1..=MOST_BYTES).contains(count),
            Self::Write { bytes, .. } => (1..=MOST_BYTES).contains(&bytes.len()),
            Self::WriteMasked { pairs, .. } => {
                pairs.len().is_multiple_of(2) && (2..=MOST_BYTES).contains(&pairs.len())
            }
            Self::Lock { id } => id.len() == ID_SIZE,
            Self::Options | Self::Information { .. } | Self::UpdateComplete => true,
        }
    }

    /// The same for the model; `None` for a count that it has no number for.
    #[must_use]
    pub fn for_model(&self) -> Option<model::Request<'_>> {
        Some(match *self {
            Self::Read {
                space,
                address,
                count,
            } => model::Request::Read {
                space,
                address,
                count: count.try_into().ok()?,
            },
            Self::Write {
                space,
                address,
                ref bytes,
            } => model::Request::Write {
                space,
                address,
                bytes,
            },
            Self::WriteMasked {
                space,
                address,
                ref pairs,
            } => model::Request::WriteMasked {
                space,
                address,
                pairs,
            },
            Self::Options => model::Request::Options,
            Self::Information { space } => model::Request::Information { space },
            Self::Lock { ref id } => model::Request::Lock { id },
            Self::UpdateComplete => model::Request::UpdateComplete,
        })
    }

    /// Any request, in range or not.
    pub fn any(random: &mut Random) -> Self {
        let (space, address) = (any_space(random), any_address(random));
        match random.below(16) {
            0..=4 => Self::Read {
                space,
                address,
                count: any_count(random),
            },
            5..=8 => Self::Write {
                space,
                address,
                bytes: any_bytes(random),
            },
            9..=11 => Self::WriteMasked {
                space,
                address,
                pairs: any_bytes(random),
            },
            12 => Self::Options,
            13 => Self::Information { space },
            14 => Self::Lock { id: any_id(random) },
            _ => Self::UpdateComplete,
        }
    }

    /// A request that is like this one: mostly not the same, and with bytes that a careless writer
    /// would make the same.
    #[must_use]
    pub fn altered(&self, random: &mut Random) -> Self {
        let mut other = self.clone();
        if random.once_in(16) {
            return other;
        }
        match &mut other {
            Self::Read {
                space,
                address,
                count,
            } => match random.below(4) {
                0 => *space = any_space(random),
                1 => *address ^= 1 << random.below(32),
                2 => *count ^= 1 << random.below(9),
                // The count as data.
                _ => {
                    return Self::Write {
                        space: *space,
                        address: *address,
                        bytes: vec![*count as u8],
                    }
                }
            },
            Self::Write {
                space,
                address,
                bytes,
            } => {
                // The same bytes as pairs.
                if random.once_in(6) {
                    return Self::WriteMasked {
                        space: *space,
                        address: *address,
                        pairs: bytes.clone(),
                    };
                }
                alter(random, space, address, bytes);
            }
            Self::WriteMasked {
                space,
                address,
                pairs,
            } => alter(random, space, address, pairs),
            Self::Information { space } => *space ^= 1 << random.below(8),
            Self::Lock { id } => alter_bytes(random, id),
            Self::Options => return Self::UpdateComplete,
            Self::UpdateComplete => return Self::Options,
        }
        other
    }
}

/// Alters the space, the address or the bytes of a write.
fn alter(random: &mut Random, space: &mut u8, address: &mut u32, bytes: &mut Vec<u8>) {
    match random.below(5) {
        0 => *space = any_space(random),
        1 => *address ^= 1 << random.below(32),
        // The number of the space as the first byte of data, to a space that needs no byte 6.
        2 => {
            bytes.insert(0, *space);
            *space = random.pick(&[0xFD, 0xFE, 0xFF]);
        }
        _ => alter_bytes(random, bytes),
    }
}

/// Alters a byte, or puts one on or takes one off.
fn alter_bytes(random: &mut Random, bytes: &mut Vec<u8>) {
    match random.below(4) {
        0 => {
            bytes.pop();
        }
        1 => bytes.push(random.pick(&[0x00, 0x01, 0xFF])),
        _ => {
            if !bytes.is_empty() {
                let index = random.below(bytes.len());
                bytes[index] ^= 1 << random.below(8);
            }
        }
    }
}

/// A space, mostly near those that the control bits name.
fn any_space(random: &mut Random) -> u8 {
    match random.below(8) {
        0..=4 => random.pick(&[0xFC, 0xFD, 0xFE, 0xFF]),
        5 => random.pick(&[0x00, 0x01, 0x02, 0x03, 0x40, 0x7F, 0x80, 0xFB]),
        _ => random.byte(),
    }
}

fn any_address(random: &mut Random) -> u32 {
    match random.below(4) {
        0 => random.pick(&[0, 1, 0xFF, 0x100, 0x7FFF_FFFF, 0x8000_0000, u32::MAX]),
        _ => random.word(),
    }
}

/// A count, among them some with low bits that alone would do.
fn any_count(random: &mut Random) -> usize {
    match random.below(8) {
        0..=2 => random.pick(&[0, 1, 2, 63, 64, 65, 66, 255, 256, 320]),
        3 => random.pick(&[128, 129, 192, 257, 0x1_0001, (1 << 32) + 1, usize::MAX]),
        4 => random.between(0, 320),
        _ => random.between(1, MOST_BYTES),
    }
}

/// The bytes of a write, or of pairs.
fn any_bytes(random: &mut Random) -> Vec<u8> {
    let length = match random.below(8) {
        0..=2 => random.pick(&[0, 1, 2, 63, 64, 65, 66, 255, 256, 320]),
        3 => random.between(0, 80),
        4 => 2 * random.between(1, MOST_BYTES / 2),
        _ => random.between(1, MOST_BYTES),
    };
    random.bytes(length)
}

fn any_id(random: &mut Random) -> Vec<u8> {
    let length = match random.below(4) {
        0 => random.pick(&[0, 1, 5, 7, 8, 64, 256, 262]),
        _ => ID_SIZE,
    };
    if random.once_in(4) {
        return vec![0; length];
    }
    random.bytes(length)
}

/// How many bytes a buffer for a command has, mostly as many as it needs or one fewer.
pub fn buffer_len(random: &mut Random) -> usize {
    match random.below(8) {
        0..=5 => random.between(70, 73),
        6 => random.pick(&[0, 1, 2, 8, 71, 72, 100]),
        _ => random.between(0, 100),
    }
}

#[cfg(test)]
mod tests {
    use super::*;

    fn read(space: u8, address: u32, count: usize) -> Option<Request> {
        Some(Request::Read {
            space,
            address,
            count,
        })
    }

    #[test]
    fn both_forms_of_a_datagram_are_the_same_request() {
        let read_in = Request::in_datagram;
        let asked = read(0xFE, 0x0102_0304, 64);
        assert_eq!(read_in(&[0x20, 0x42, 1, 2, 3, 4, 64]), asked);
        assert_eq!(read_in(&[0x20, 0x40, 1, 2, 3, 4, 0xFE, 64]), asked);
        // The top bit of a count is ignored.
        assert_eq!(read_in(&[0x20, 0x42, 1, 2, 3, 4, 0xC0]), asked);
        assert_eq!(read_in(&[0x20, 0x42, 1, 2, 3, 4, 0xC1]), None);
        assert_eq!(read_in(&[0x20, 0x42, 1, 2, 3, 4, 0x80]), None);
        assert_eq!(read_in(&[0x20, 0x40, 1, 2, 3, 4, 64]), None);
        assert_eq!(read_in(&[0x20, 0x40, 1, 2, 3, 4]), None);
        assert_eq!(read_in(&[0x20, 0x42, 1, 2, 3]), None);
        // The byte behind the address is data where the control bits name the space.
        let written = Request::Write {
            space: 0xFD,
            address: 7,
            bytes: vec![0x10],
        };
        assert_eq!(read_in(&[0x20, 0x01, 0, 0, 0, 7, 0x10]), Some(written));
        assert_eq!(read_in(&[0x20, 0x00, 0, 0, 0, 7, 0x10]), None);
    }

    #[test]
    fn what_a_board_rejects_is_no_request() {
        for datagram in [
            &[][..],
            &[0x20],
            &[0x21, 0x80],
            &[0x20, 0x80, 0],
            &[0x20, 0x84],
            &[0x20, 0xA8, 0],
            &[0x20, 0x88, 1, 2, 3, 4, 5],
            &[0x20, 0x88, 1, 2, 3, 4, 5, 6, 7],
            &[0x20, 0x09, 0, 0, 0, 0, 1],
            &[0x20, 0x44],
        ] {
            assert_eq!(Request::in_datagram(datagram), None, "{datagram:X?}");
        }
        // The longest that is none: 65 bytes of data, of which byte 6 makes 72.
        let mut long = [0x20; 72];
        long[1] = 0x00;
        assert_eq!(Request::in_datagram(&long), None);
        assert!(Request::in_datagram(&long[..71]).is_some());
    }

    #[test]
    fn the_model_has_the_same_range() {
        let mut random = Random::new(12);
        for _ in 0..5_000 {
            let request = Request::any(&mut random);
            let written = request
                .for_model()
                .map(|asked| model::write_command(&asked, &mut [0; LONGEST_DATAGRAM]));
            let in_range = written.is_some_and(|written| written.is_ok());
            assert_eq!(in_range, request.is_in_range(), "{request:?}");
        }
    }
}
