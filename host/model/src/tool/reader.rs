//! Holds the readers of what comes back to the tool: Received OK, Rejected and reply datagrams
//! (W3).

use super::{NamedSpace, ToolRefusal, CONTENT_ID, MOST_DATA};
use crate::datagram::{Lock, LONGEST_DATAGRAM};

/// The most bytes behind the code of a Rejected.
const MOST_FURTHER: usize = 64;
/// The most bytes of the text of a failure reply, its zero byte among them.
const LONGEST_FAILURE_TEXT: usize = 63;

const REPLY_PENDING: u8 = 0x80;
const TIMEOUT: u8 = 0x0F;
const LOWEST_GIVEN: u8 = 0x02;

/// What a Received OK says.
#[derive(Clone, Copy, Debug, PartialEq, Eq, Hash)]
pub struct ReceivedOk {
    /// Whether a reply datagram will follow.
    pub reply_pending: bool,
    /// The timeout value, 0 to 15: 0 is none, and any other `n` gives the reply 2 to the power of
    /// `n` seconds.
    pub timeout: u8,
}

/// Reads a Received OK: what is behind the addressing, one byte of flags or none.
///
/// Without the byte it is read as if it had one that is zero. The reserved bits are not looked
/// at. W3 for more than one byte.
pub const fn read_received_ok(content: &[u8]) -> Result<ReceivedOk, ToolRefusal> {
    let flags = match *content {
        [] => 0x00,
        [flags] => flags,
        _ => return Err(ToolRefusal::W3),
    };
    Ok(ReceivedOk {
        reply_pending: flags & REPLY_PENDING != 0,
        timeout: flags & TIMEOUT,
    })
}

/// What a Rejected says.
#[derive(Clone, Copy, Debug, PartialEq, Eq, Hash)]
pub struct RejectedContent<'d> {
    /// The error code.
    pub code: u16,
    /// What stands behind the code, 0 to 64 bytes.
    pub further: &'d [u8],
}

/// Reads a Rejected: what is behind the addressing, two bytes of code and then 0 to 64 more.
///
/// A byte of the code that is missing is read as zero; where there is only one, it is the high
/// one. W3 for more than 66 bytes.
pub const fn read_rejected(content: &[u8]) -> Result<RejectedContent<'_>, ToolRefusal> {
    let (code, further): (_, &[u8]) = match content {
        [] => ([0, 0], &[]),
        [high] => ([*high, 0], &[]),
        [high, low, further @ ..] => ([*high, *low], further),
    };
    if further.len() > MOST_FURTHER {
        return Err(ToolRefusal::W3);
    }
    Ok(RejectedContent {
        code: u16::from_be_bytes(code),
        further,
    })
}

/// A reply datagram with all that it says.
///
/// A text is given without the zero byte at its end. `None` is a reply without a text; a text
/// that is the zero byte alone is an empty one, `Some` of no bytes. Bytes of flags and masks are
/// given whole, their reserved bits as they stand.
#[derive(Clone, Copy, Debug, PartialEq, Eq, Hash)]
pub enum Reply<'d> {
    /// 0x50 to 0x53: what was read.
    Read {
        /// The space, and how it is named.
        space: NamedSpace,
        /// The address of the first byte.
        address: u32,
        /// The bytes, 1 to 64.
        data: &'d [u8],
    },
    /// 0x58 to 0x5B: a read that failed.
    ReadFailed {
        /// The space, and how it is named.
        space: NamedSpace,
        /// The address that the read had.
        address: u32,
        /// The error code.
        code: u16,
        /// The text, at most 62 bytes without its zero byte; `None` where there is none.
        text: Option<&'d [u8]>,
    },
    /// 0x10 to 0x13: a write or masked write that succeeded.
    Written {
        /// The space, and how it is named.
        space: NamedSpace,
        /// The address that the write had.
        address: u32,
    },
    /// 0x18 to 0x1B: a write or masked write that failed.
    WriteFailed {
        /// The space, and how it is named.
        space: NamedSpace,
        /// The address that the write had.
        address: u32,
        /// The error code.
        code: u16,
        /// The text, at most 62 bytes without its zero byte; `None` where there is none.
        text: Option<&'d [u8]>,
    },
    /// 0x82: the configuration options.
    Options {
        /// The mask of available commands.
        commands: u16,
        /// The Write Lengths byte.
        write_lengths: u8,
        /// The highest number of a space.
        highest_space: u8,
        /// The lowest number of a space; `None` where it is not given, which is not space 0.
        lowest_space: Option<u8>,
        /// The text; `None` where there is none, and so wherever the lowest number is not given.
        text: Option<&'d [u8]>,
    },
    /// 0x86 and 0x87: information about a space.
    Information {
        /// Whether the space is present: 0x87, and not 0x86.
        present: bool,
        /// The number of the space.
        space: u8,
        /// The highest address.
        highest: u32,
        /// The flags: bit 0 read-only, bit 1 lowest address given, the others reserved.
        flags: u8,
        /// The lowest address; `None` where bit 1 of the flags is 0 and it is not given.
        lowest: Option<u32>,
        /// The text; `None` where there is none.
        text: Option<&'d [u8]>,
    },
    /// 0x8A: the lock memory.
    Lock {
        /// The node ID that holds the board, zero where none does.
        id: Lock,
    },
}

/// Reads a reply datagram.
///
/// W3 for bytes that are no reply to a command of document 01 in a form of source document 000,
/// such as any over 72.
pub fn read_reply(datagram: &[u8]) -> Result<Reply<'_>, ToolRefusal> {
    if datagram.len() > LONGEST_DATAGRAM {
        return Err(ToolRefusal::W3);
    }
    let mut bytes = Untaken(datagram);
    if bytes.byte()? != CONTENT_ID {
        return Err(ToolRefusal::W3);
    }
    let command = bytes.byte()?;
    match command {
        0x10..=0x13 => read_written(command, bytes),
        0x18..=0x1B => {
            let (space, address, code, text) = read_failure(command, bytes)?;
            Ok(Reply::WriteFailed {
                space,
                address,
                code,
                text,
            })
        }
        0x50..=0x53 => read_data(command, bytes),
        0x58..=0x5B => {
            let (space, address, code, text) = read_failure(command, bytes)?;
            Ok(Reply::ReadFailed {
                space,
                address,
                code,
                text,
            })
        }
        0x82 => read_options(bytes),
        0x86 => read_information(false, bytes),
        0x87 => read_information(true, bytes),
        0x8A => read_lock(bytes),
        _ => Err(ToolRefusal::W3),
    }
}

/// The bytes of a reply that have not been taken yet. They are taken off the front; W3 where
/// there are not enough, or at the end not the right ones.
struct Untaken<'d>(&'d [u8]);

impl<'d> Untaken<'d> {
    fn array<const N: usize>(&mut self) -> Result<[u8; N], ToolRefusal> {
        let (taken, left) = self.0.split_first_chunk().ok_or(ToolRefusal::W3)?;
        self.0 = left;
        Ok(*taken)
    }

    fn byte(&mut self) -> Result<u8, ToolRefusal> {
        self.array().map(u8::from_be_bytes)
    }

    fn two_bytes(&mut self) -> Result<u16, ToolRefusal> {
        self.array().map(u16::from_be_bytes)
    }

    fn four_bytes(&mut self) -> Result<u32, ToolRefusal> {
        self.array().map(u32::from_be_bytes)
    }

    /// The address, and the space that the control bits or the byte behind the address name.
    fn place(&mut self, command: u8) -> Result<(NamedSpace, u32), ToolRefusal> {
        let address = self.four_bytes()?;
        let space = match command & 0x03 {
            0 => NamedSpace::Byte6(self.byte()?),
            1 => NamedSpace::Fd,
            2 => NamedSpace::Fe,
            _ => NamedSpace::Ff,
        };
        Ok((space, address))
    }

    const fn is_empty(&self) -> bool {
        self.0.is_empty()
    }

    /// Nothing more.
    const fn end(self) -> Result<(), ToolRefusal> {
        match self.0 {
            [] => Ok(()),
            _ => Err(ToolRefusal::W3),
        }
    }

    /// All the rest as data, 1 to 64 bytes.
    fn data(self) -> Result<&'d [u8], ToolRefusal> {
        if (1..=MOST_DATA).contains(&self.0.len()) {
            Ok(self.0)
        } else {
            Err(ToolRefusal::W3)
        }
    }

    /// All the rest as a text of at most `most` bytes, whose last byte and no other is zero; or,
    /// where nothing is left, no text.
    fn text(self, most: usize) -> Result<Option<&'d [u8]>, ToolRefusal> {
        match self.0 {
            [] => Ok(None),
            [text @ .., 0] if text.len() < most && !text.contains(&0) => Ok(Some(text)),
            _ => Err(ToolRefusal::W3),
        }
    }
}

fn read_data(command: u8, mut bytes: Untaken<'_>) -> Result<Reply<'_>, ToolRefusal> {
    let (space, address) = bytes.place(command)?;
    let data = bytes.data()?;
    Ok(Reply::Read {
        space,
        address,
        data,
    })
}

fn read_written(command: u8, mut bytes: Untaken<'_>) -> Result<Reply<'_>, ToolRefusal> {
    let (space, address) = bytes.place(command)?;
    bytes.end()?;
    Ok(Reply::Written { space, address })
}

/// What the two failure replies have: space, address, code and text.
type Failure<'d> = (NamedSpace, u32, u16, Option<&'d [u8]>);

fn read_failure(command: u8, mut bytes: Untaken<'_>) -> Result<Failure<'_>, ToolRefusal> {
    let (space, address) = bytes.place(command)?;
    let code = bytes.two_bytes()?;
    let text = bytes.text(LONGEST_FAILURE_TEXT)?;
    Ok((space, address, code, text))
}

fn read_options(mut bytes: Untaken<'_>) -> Result<Reply<'_>, ToolRefusal> {
    let commands = bytes.two_bytes()?;
    let write_lengths = bytes.byte()?;
    let highest_space = bytes.byte()?;
    // A byte here is the lowest number, also where it is zero: a text is only behind it.
    let lowest_space = if bytes.is_empty() {
        None
    } else {
        Some(bytes.byte()?)
    };
    let text = bytes.text(LONGEST_DATAGRAM)?;
    Ok(Reply::Options {
        commands,
        write_lengths,
        highest_space,
        lowest_space,
        text,
    })
}

fn read_information(present: bool, mut bytes: Untaken<'_>) -> Result<Reply<'_>, ToolRefusal> {
    let space = bytes.byte()?;
    let highest = bytes.four_bytes()?;
    let flags = bytes.byte()?;
    let lowest = if flags & LOWEST_GIVEN == 0 {
        None
    } else {
        Some(bytes.four_bytes()?)
    };
    let text = bytes.text(LONGEST_DATAGRAM)?;
    Ok(Reply::Information {
        present,
        space,
        highest,
        flags,
        lowest,
        text,
    })
}

fn read_lock(mut bytes: Untaken<'_>) -> Result<Reply<'_>, ToolRefusal> {
    let id = bytes.array()?;
    bytes.end()?;
    Ok(Reply::Lock { id })
}
