//! Holds the errors of the caller: refusals that go back to the caller and are never sent.

/// Why a call was refused before anything was looked at or changed: an error made by the caller.
///
/// Document 01 calls these errors the house numbers. A call that is not refused has none; that is
/// the `Ok` side of each result.
///
/// B2 to B5 bring the position of the refused space in the description, counted from 0; the
/// others have no position, which is not the same as position 0. There is no B1: B11 to B14, one
/// for each limit, stand in its place and are tested where it was. The order of the values is
/// that of their numbers, not that of the tests.
#[derive(Clone, Copy, Debug, PartialEq, Eq, PartialOrd, Ord, Hash)]
pub enum CallError {
    /// A space, at this position, whose lowest address is above its highest.
    B2LowestAboveHighest(usize),
    /// A space, at this position, whose window goes past the end of its memory or flash.
    B3WindowPastEnd(usize),
    /// A writable space in flash, or a writable 0xFF, at this position.
    B4MustBeReadOnly(usize),
    /// A space, at this position, whose number an earlier space has.
    B5NumberUsedTwice(usize),
    /// A reply buffer under 72 bytes.
    B6ReplyBufferTooShort,
    /// A reception state with an unfinished datagram over 72 bytes, a source over 4,095, or one
    /// source twice. Sources that are being swallowed count, but have no datagram.
    B7BadReceptionState,
    /// In cutting: more than 72 bytes, or an alias over 4,095.
    B9CannotBeCut,
    /// Over 16 spaces.
    B11TooManySpaces,
    /// Memory over 65,536 bytes.
    B12MemoryTooLarge,
    /// Flash over 65,536 bytes.
    B13FlashTooLarge,
    /// An alias that is not 1–4,095.
    B14AliasOutOfRange,
}

impl CallError {
    /// The number after the letter B.
    #[must_use]
    pub const fn number(self) -> u8 {
        match self {
            Self::B2LowestAboveHighest(_) => 2,
            Self::B3WindowPastEnd(_) => 3,
            Self::B4MustBeReadOnly(_) => 4,
            Self::B5NumberUsedTwice(_) => 5,
            Self::B6ReplyBufferTooShort => 6,
            Self::B7BadReceptionState => 7,
            Self::B9CannotBeCut => 9,
            Self::B11TooManySpaces => 11,
            Self::B12MemoryTooLarge => 12,
            Self::B13FlashTooLarge => 13,
            Self::B14AliasOutOfRange => 14,
        }
    }

    /// The position of the refused space, counted from 0; `None` where no space is refused.
    #[must_use]
    pub const fn position(self) -> Option<usize> {
        match self {
            Self::B2LowestAboveHighest(position)
            | Self::B3WindowPastEnd(position)
            | Self::B4MustBeReadOnly(position)
            | Self::B5NumberUsedTwice(position) => Some(position),
            Self::B6ReplyBufferTooShort
            | Self::B7BadReceptionState
            | Self::B9CannotBeCut
            | Self::B11TooManySpaces
            | Self::B12MemoryTooLarge
            | Self::B13FlashTooLarge
            | Self::B14AliasOutOfRange => None,
        }
    }
}

impl core::fmt::Display for CallError {
    fn fmt(&self, out: &mut core::fmt::Formatter<'_>) -> core::fmt::Result {
        write!(out, "B{}", self.number())?;
        // Without a position nothing is printed: a blank is not a zero.
        match self.position() {
            Some(position) => write!(out, " of space {position}"),
            None => Ok(()),
        }
    }
}

impl core::error::Error for CallError {}
