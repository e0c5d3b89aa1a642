//! Holds the handling of one whole datagram: the commands, their replies and their refusals.

use crate::description::{check_description, Description, Space};
use crate::CallError;

/// The most bytes of a datagram, and so of a reply.
pub const LONGEST_DATAGRAM: usize = 72;

/// The lock memory: the node ID that holds the board, zero where none does.
pub type Lock = [u8; 6];

/// The error codes that the board sends.
pub mod code {
    /// Empty, too long, no command, wrong length, odd pairs or bad count.
    pub const INVALID_ARGUMENT: u16 = 0x1080;
    /// The command is unknown.
    pub const UNKNOWN_COMMAND: u16 = 0x1041;
    /// Byte 0 is not 0x20.
    pub const UNKNOWN_DATAGRAM: u16 = 0x1042;
    /// In a failure reply: the space is not known.
    pub const UNKNOWN_SPACE: u16 = 0x1081;
    /// In a failure reply: the address is outside, or the space is empty.
    pub const OUT_OF_BOUNDS: u16 = 0x1082;
    /// In a failure reply: a write to a read-only space.
    pub const READ_ONLY: u16 = 0x1083;
    /// A frame that takes the total past 72 bytes.
    pub const TOO_LONG: u16 = 0x2000;
    /// No room for another unfinished datagram.
    pub const NO_ROOM: u16 = 0x2020;
    /// A frame out of order.
    pub const OUT_OF_ORDER: u16 = 0x2040;
}

/// What the board answers to a whole datagram.
#[derive(Clone, Copy, Debug, PartialEq, Eq)]
pub enum Answer {
    /// Rejected with this code.
    Rejected(u16),
    /// Received OK with flags 0x00 to a write or masked write, and no reply: `count` bytes of
    /// memory are written from the index `start` on. In a masked write a pair writes a byte, also
    /// where its mask keeps all of it.
    Written {
        /// The index into memory of the first byte written.
        start: usize,
        /// How many bytes are written, 1 to 64.
        count: usize,
    },
    /// Received OK with flags 0x00 to Update Complete, and no reply. Nothing changes.
    UpdateComplete,
    /// Received OK with flags 0x80, and a reply of this many bytes in the reply buffer.
    Replied(usize),
}

const CONTENT_ID: u8 = 0x20;
const REPLY_OK: u8 = 0x10;
const READ_FAILED: u8 = 0x58;
const WRITE_FAILED: u8 = 0x18;
const MOST_DATA: usize = 64;

/// Handles a datagram that is handed over whole.
///
/// B11 to B14, then B2 to B6, come first and change nothing.
pub fn handle_datagram(
    description: &Description,
    flash: &[u8],
    memory: &mut [u8],
    lock: &mut Lock,
    datagram: &[u8],
    reply: &mut [u8],
) -> Result<Answer, CallError> {
    check_description(description, flash.len(), memory.len())?;
    check_reply_buffer(reply)?;
    Ok(handle(description, flash, memory, lock, datagram, reply))
}

/// B6.
pub(crate) fn check_reply_buffer(reply: &[u8]) -> Result<(), CallError> {
    if reply.len() < LONGEST_DATAGRAM {
        return Err(CallError::B6ReplyBufferTooShort);
    }
    Ok(())
}

/// Handles a whole datagram after B11 to B14 and B2 to B6 have been checked.
pub(crate) fn handle(
    description: &Description,
    flash: &[u8],
    memory: &mut [u8],
    lock: &mut Lock,
    datagram: &[u8],
    reply: &mut [u8],
) -> Answer {
    let answered = command_of(datagram).and_then(|command| match command {
        0x00..=0x03 => write(description, memory, datagram, reply),
        0x08..=0x0B => write_under_mask(description, memory, datagram, reply),
        0x40..=0x43 => read(description, flash, memory, datagram, reply),
        0x80 => options(description, datagram, reply),
        0x84 => space_information(description, datagram, reply),
        0x88 => lock_or_release(lock, datagram, reply),
        0xA8 => update_complete(datagram),
        _ => Err(code::UNKNOWN_COMMAND),
    });
    answered.unwrap_or_else(Answer::Rejected)
}

/// Byte 1 of a datagram of 2 to 72 bytes whose byte 0 is 0x20; of any other the code of its
/// rejection. The command may still be unknown.
pub(crate) fn command_of(datagram: &[u8]) -> Result<u8, u16> {
    if datagram.is_empty() || datagram.len() > LONGEST_DATAGRAM {
        Err(code::INVALID_ARGUMENT)
    } else if datagram[0] != CONTENT_ID {
        Err(code::UNKNOWN_DATAGRAM)
    } else {
        datagram.get(1).copied().ok_or(code::INVALID_ARGUMENT)
    }
}

/// A read, write or masked write, seen in the datagram itself.
pub(crate) struct Addressed<'d> {
    /// The low two bits of the command.
    low_bits: u8,
    /// The space that the low bits, or byte 6, choose.
    space: u8,
    address: u32,
    /// The address and, if the command has one, the space byte, as they stand in the datagram.
    echo: &'d [u8],
    /// What comes after: the count, the data or the pairs.
    rest: &'d [u8],
}

impl<'d> Addressed<'d> {
    /// Reads the address and the space of a datagram that has byte 1.
    pub(crate) fn of(datagram: &'d [u8]) -> Result<Self, u16> {
        let low_bits = datagram[1] & 0x03;
        let after_echo = if low_bits == 0 { 7 } else { 6 };
        let (head, rest) = datagram
            .split_at_checked(after_echo)
            .ok_or(code::INVALID_ARGUMENT)?;
        Ok(Self {
            low_bits,
            space: if low_bits == 0 {
                head[6]
            } else {
                0xFC + low_bits
            },
            address: u32::from_be_bytes([head[2], head[3], head[4], head[5]]),
            echo: &head[2..],
            rest,
        })
    }

    /// The data of a write, 1 to 64 bytes.
    pub(crate) fn data(&self) -> Result<&'d [u8], u16> {
        let data = self.rest;
        if !(1..=MOST_DATA).contains(&data.len()) {
            return Err(code::INVALID_ARGUMENT);
        }
        Ok(data)
    }

    /// The masks and data of a masked write, 1 to 32 pairs.
    pub(crate) fn pairs(&self) -> Result<&'d [u8], u16> {
        let pairs = self.rest;
        let odd_byte = pairs.chunks_exact(2).remainder();
        if !(2..=MOST_DATA).contains(&pairs.len()) || !odd_byte.is_empty() {
            return Err(code::INVALID_ARGUMENT);
        }
        Ok(pairs)
    }

    /// Writes the reply with this base command, to which the low bits are added, and this tail.
    fn reply(&self, base: u8, tail: &[u8], reply: &mut [u8]) -> Answer {
        let tail_start = 2 + self.echo.len();
        let length = tail_start + tail.len();
        reply[0] = CONTENT_ID;
        reply[1] = base + self.low_bits;
        reply[2..tail_start].copy_from_slice(self.echo);
        reply[tail_start..length].copy_from_slice(tail);
        Answer::Replied(length)
    }

    fn fail(&self, base: u8, code: u16, reply: &mut [u8]) -> Answer {
        self.reply(base, &code.to_be_bytes(), reply)
    }

    /// The described space that the command names; `None` for one of 0xFD–0xFF that is not
    /// described, which is known and empty.
    fn known_space<'s>(&self, description: &'s Description) -> Result<Option<&'s Space>, u16> {
        match description.space(self.space) {
            None if self.space < 0xFD => Err(code::UNKNOWN_SPACE),
            found => Ok(found),
        }
    }

    /// The bytes from the address to the highest address, at least one.
    fn bytes_to_read<'s>(
        &self,
        description: &Description,
        flash: &'s [u8],
        memory: &'s [u8],
    ) -> Result<&'s [u8], u16> {
        self.known_space(description)?
            .and_then(|space| space.bytes_from(flash, memory, self.address))
            .ok_or(code::OUT_OF_BOUNDS)
    }

    /// Where in memory the `count` bytes from the address are, all inside a writable space.
    pub(crate) fn range_to_write(
        &self,
        description: &Description,
        count: usize,
    ) -> Result<core::ops::Range<usize>, u16> {
        let space = self.known_space(description)?;
        // 0xFF left out of the description is read-only, 0xFD and 0xFE are writable.
        if space.map_or(self.space == 0xFF, |space| space.read_only) {
            return Err(code::READ_ONLY);
        }
        space
            .and_then(|space| space.range_to_write(self.address, count))
            .ok_or(code::OUT_OF_BOUNDS)
    }
}

fn read(
    description: &Description,
    flash: &[u8],
    memory: &[u8],
    datagram: &[u8],
    reply: &mut [u8],
) -> Result<Answer, u16> {
    let command = Addressed::of(datagram)?;
    let &[count] = command.rest else {
        return Err(code::INVALID_ARGUMENT);
    };
    let count = usize::from(count & 0x7F);
    if !(1..=MOST_DATA).contains(&count) {
        return Err(code::INVALID_ARGUMENT);
    }
    Ok(match command.bytes_to_read(description, flash, memory) {
        Ok(bytes) => command.reply(0x40 + REPLY_OK, &bytes[..count.min(bytes.len())], reply),
        Err(code) => command.fail(READ_FAILED, code, reply),
    })
}

fn write(
    description: &Description,
    memory: &mut [u8],
    datagram: &[u8],
    reply: &mut [u8],
) -> Result<Answer, u16> {
    let command = Addressed::of(datagram)?;
    let data = command.data()?;
    Ok(match command.range_to_write(description, data.len()) {
        Ok(range) => {
            memory[range.clone()].copy_from_slice(data);
            written(&range)
        }
        Err(code) => command.fail(WRITE_FAILED, code, reply),
    })
}

fn write_under_mask(
    description: &Description,
    memory: &mut [u8],
    datagram: &[u8],
    reply: &mut [u8],
) -> Result<Answer, u16> {
    let command = Addressed::of(datagram)?;
    let pairs = command.pairs()?;
    Ok(match command.range_to_write(description, pairs.len() / 2) {
        Ok(range) => {
            let bytes = &mut memory[range.clone()];
            for (byte, pair) in bytes.iter_mut().zip(pairs.chunks_exact(2)) {
                let (mask, data) = (pair[0], pair[1]);
                *byte = (*byte & !mask) | (data & mask);
            }
            written(&range)
        }
        Err(code) => command.fail(WRITE_FAILED, code, reply),
    })
}

/// The answer to a write that has written these bytes of memory.
const fn written(range: &core::ops::Range<usize>) -> Answer {
    Answer::Written {
        start: range.start,
        count: range.end - range.start,
    }
}

fn options(description: &Description, datagram: &[u8], reply: &mut [u8]) -> Result<Answer, u16> {
    if datagram.len() != 2 {
        return Err(code::INVALID_ARGUMENT);
    }
    Ok(reply_with(
        &[
            CONTENT_ID,
            0x82,
            0xE0,
            0x00,
            description.write_lengths,
            0xFF,
            description.lowest_number(),
        ],
        reply,
    ))
}

fn space_information(
    description: &Description,
    datagram: &[u8],
    reply: &mut [u8],
) -> Result<Answer, u16> {
    let &[_, _, number] = datagram else {
        return Err(code::INVALID_ARGUMENT);
    };
    let Some(space) = description.space(number) else {
        return Ok(reply_with(
            &[CONTENT_ID, 0x86, number, 0, 0, 0, 0, 0],
            reply,
        ));
    };
    let lowest_given = space.lowest != 0;
    let mut bytes = [0; 12];
    bytes[0] = CONTENT_ID;
    bytes[1] = 0x87;
    bytes[2] = number;
    bytes[3..7].copy_from_slice(&space.highest.to_be_bytes());
    bytes[7] = u8::from(space.read_only) | u8::from(lowest_given) << 1;
    bytes[8..].copy_from_slice(&space.lowest.to_be_bytes());
    let length = if lowest_given { 12 } else { 8 };
    Ok(reply_with(&bytes[..length], reply))
}

fn lock_or_release(lock: &mut Lock, datagram: &[u8], reply: &mut [u8]) -> Result<Answer, u16> {
    let Some(node) = datagram[2..]
        .first_chunk::<6>()
        .filter(|_| datagram.len() == 8)
    else {
        return Err(code::INVALID_ARGUMENT);
    };
    const NONE: Lock = [0; 6];
    if *node == NONE || *lock == NONE {
        *lock = *node;
    }
    reply[0] = CONTENT_ID;
    reply[1] = 0x8A;
    reply[2..8].copy_from_slice(lock);
    Ok(Answer::Replied(8))
}

fn update_complete(datagram: &[u8]) -> Result<Answer, u16> {
    if datagram.len() != 2 {
        return Err(code::INVALID_ARGUMENT);
    }
    Ok(Answer::UpdateComplete)
}

fn reply_with(bytes: &[u8], reply: &mut [u8]) -> Answer {
    reply[..bytes.len()].copy_from_slice(bytes);
    Answer::Replied(bytes.len())
}
