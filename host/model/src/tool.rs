//! Holds what the tool's writer and readers share: their refusals, and the two ways to name a
//! space.

mod reader;
mod writer;

pub use reader::{read_received_ok, read_rejected, read_reply, ReceivedOk, RejectedContent, Reply};
pub use writer::{write_command, Request};

/// Byte 0 of every command and every reply.
const CONTENT_ID: u8 = 0x20;
/// The most bytes that one command or reply carries: data, or masks and data in pairs.
const MOST_DATA: usize = 64;

/// Why the writer or a reader gives no result.
///
/// Like the errors of the board's caller these go back to the caller and are never sent.
#[derive(Clone, Copy, Debug, PartialEq, Eq, PartialOrd, Ord, Hash)]
pub enum ToolRefusal {
    /// In writing: a count or a length that is out of range.
    W1,
    /// In writing: a lent buffer under 72 bytes.
    W2,
    /// In reading: bytes that have none of the forms.
    W3,
}

impl ToolRefusal {
    /// The number after the letter W.
    #[must_use]
    pub const fn number(self) -> u8 {
        match self {
            Self::W1 => 1,
            Self::W2 => 2,
            Self::W3 => 3,
        }
    }
}

impl core::fmt::Display for ToolRefusal {
    fn fmt(&self, out: &mut core::fmt::Formatter<'_>) -> core::fmt::Result {
        write!(out, "W{}", self.number())
    }
}

impl core::error::Error for ToolRefusal {}

/// A space, and how a read, a write or the reply to one names it.
///
/// 0xFD, 0xFE and 0xFF can be named in both ways. The two are unequal here, as the datagrams are,
/// though they have the same number.
#[derive(Clone, Copy, Debug, PartialEq, Eq, Hash)]
pub enum NamedSpace {
    /// Byte 6 is the number, which may be any. The control bits are 0.
    Byte6(u8),
    /// 0xFD, by the control bits 1.
    Fd,
    /// 0xFE, by the control bits 2.
    Fe,
    /// 0xFF, by the control bits 3.
    Ff,
}

impl NamedSpace {
    /// The shortest way to name the space with this number: without byte 6 where that can be.
    #[must_use]
    pub const fn shortest(number: u8) -> Self {
        match number {
            0xFD => Self::Fd,
            0xFE => Self::Fe,
            0xFF => Self::Ff,
            _ => Self::Byte6(number),
        }
    }

    /// The number of the space, however it is named.
    #[must_use]
    pub const fn number(self) -> u8 {
        match self {
            Self::Byte6(number) => number,
            Self::Fd => 0xFD,
            Self::Fe => 0xFE,
            Self::Ff => 0xFF,
        }
    }

    /// The low two bits of byte 1.
    #[must_use]
    pub const fn control_bits(self) -> u8 {
        match self {
            Self::Byte6(_) => 0,
            Self::Fd => 1,
            Self::Fe => 2,
            Self::Ff => 3,
        }
    }

    /// Byte 6; `None` where there is none, which is not the same as space 0.
    #[must_use]
    pub const fn byte_6(self) -> Option<u8> {
        match self {
            Self::Byte6(number) => Some(number),
            Self::Fd | Self::Fe | Self::Ff => None,
        }
    }
}
