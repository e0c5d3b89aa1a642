//! Holds the writer: each request of the tool as the one command that asks for it (W1, W2).

use super::{NamedSpace, ToolRefusal, CONTENT_ID, MOST_DATA};
use crate::datagram::{Lock, LONGEST_DATAGRAM};

const WRITE: u8 = 0x00;
const WRITE_MASKED: u8 = 0x08;
const READ: u8 = 0x40;
const OPTIONS: u8 = 0x80;
const INFORMATION: u8 = 0x84;
const LOCK: u8 = 0x88;
const UPDATE_COMPLETE: u8 = 0xA8;

/// What the tool asks of the board.
///
/// Counts and lengths may have any value here; the writer refuses those out of range with W1.
#[derive(Clone, Copy, Debug, PartialEq, Eq, Hash)]
pub enum Request<'a> {
    /// Read `count` bytes of a space from an address on.
    Read {
        /// The number of the space.
        space: u8,
        /// The address of the first byte.
        address: u32,
        /// How many bytes, 1 to 64.
        count: u8,
    },
    /// Write bytes into a space from an address on.
    Write {
        /// The number of the space.
        space: u8,
        /// The address of the first byte.
        address: u32,
        /// The bytes, 1 to 64.
        bytes: &'a [u8],
    },
    /// Write some of the bits of each byte of a space from an address on.
    WriteMasked {
        /// The number of the space.
        space: u8,
        /// The address of the first byte.
        address: u32,
        /// For each byte its mask and then its data, 1 to 32 such pairs.
        pairs: &'a [u8],
    },
    /// Ask for the configuration options.
    Options,
    /// Ask for information about a space.
    Information {
        /// The number of the space.
        space: u8,
    },
    /// Lock the board, or release it with an ID of zeros.
    Lock {
        /// The node ID, six bytes.
        id: &'a [u8],
    },
    /// Say that the update is complete.
    UpdateComplete,
}

impl Request<'_> {
    /// Whether the count or length, if there is one, is in range.
    fn is_in_range(&self) -> bool {
        match self {
            Self::Read { count, .. } => (1..=MOST_DATA).contains(&usize::from(*count)),
            Self::Write { bytes, .. } => (1..=MOST_DATA).contains(&bytes.len()),
            Self::WriteMasked { pairs, .. } => {
                !pairs.is_empty() && pairs.len() <= MOST_DATA && pairs.len() % 2 == 0
            }
            Self::Lock { id } => id.len() == size_of::<Lock>(),
            Self::Options | Self::Information { .. } | Self::UpdateComplete => true,
        }
    }
}

/// Writes the command for a request at the start of the lent buffer and gives its length.
///
/// There is one form for each request: 0xFD to 0xFF are named by the control bits and all other
/// spaces by byte 6, and reserved bits are zero. The bytes behind the command stay as they were.
///
/// W1 for a count or length out of range comes first, then W2 for a buffer under 72 bytes; both
/// leave the whole buffer as it was.
pub fn write_command(request: &Request<'_>, buffer: &mut [u8]) -> Result<usize, ToolRefusal> {
    if !request.is_in_range() {
        return Err(ToolRefusal::W1);
    }
    if buffer.len() < LONGEST_DATAGRAM {
        return Err(ToolRefusal::W2);
    }
    Ok(match *request {
        Request::Read {
            space,
            address,
            count,
        } => put_addressed(READ, space, address, &[count], buffer),
        Request::Write {
            space,
            address,
            bytes,
        } => put_addressed(WRITE, space, address, bytes, buffer),
        Request::WriteMasked {
            space,
            address,
            pairs,
        } => put_addressed(WRITE_MASKED, space, address, pairs, buffer),
        Request::Options => put(&[&[CONTENT_ID, OPTIONS]], buffer),
        Request::Information { space } => put(&[&[CONTENT_ID, INFORMATION, space]], buffer),
        Request::Lock { id } => put(&[&[CONTENT_ID, LOCK], id], buffer),
        Request::UpdateComplete => put(&[&[CONTENT_ID, UPDATE_COMPLETE]], buffer),
    })
}

/// Puts down a read, write or masked write: its head, and behind it the count, data or pairs.
fn put_addressed(base: u8, space: u8, address: u32, tail: &[u8], buffer: &mut [u8]) -> usize {
    let space = NamedSpace::shortest(space);
    put(
        &[
            &[CONTENT_ID, base | space.control_bits()],
            &address.to_be_bytes(),
            space.byte_6().as_slice(),
            tail,
        ],
        buffer,
    )
}

/// Puts the parts one behind the other at the start of the buffer and gives their length in all.
/// No command is longer than the buffer, so that none of its bytes is left out.
fn put(parts: &[&[u8]], buffer: &mut [u8]) -> usize {
    let mut length = 0;
    for (place, byte) in buffer.iter_mut().zip(parts.iter().copied().flatten()) {
        *place = *byte;
        length += 1;
    }
    length
}
