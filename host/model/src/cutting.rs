//! Holds the cutting of a datagram into frames (B9).

use crate::datagram::LONGEST_DATAGRAM;
use crate::description::LAST_ALIAS;
use crate::frame::{Frame, FRAME_DATA};
use crate::CallError;

/// The most frames that one datagram is cut into.
pub const MOST_FRAMES: usize = LONGEST_DATAGRAM / FRAME_DATA;

const SINGLE: u32 = 0x1A;
const FIRST: u32 = 0x1B;
const MIDDLE: u32 = 0x1C;
const LAST: u32 = 0x1D;

/// The frames of one datagram, one to nine of them; a slice of frames to its user.
#[derive(Clone, Debug, PartialEq, Eq)]
pub struct Frames {
    count: usize,
    frames: [Frame; MOST_FRAMES],
}

impl core::ops::Deref for Frames {
    type Target = [Frame];

    fn deref(&self) -> &[Frame] {
        &self.frames[..self.count]
    }
}

/// Cuts a datagram into the frames that carry it from source to destination.
///
/// B9, and no frame, where it has more than 72 bytes or an alias is over 4,095.
pub fn cut(datagram: &[u8], destination: u16, source: u16) -> Result<Frames, CallError> {
    let mut frames = [Frame::EMPTY; MOST_FRAMES];
    let count = cut_into(datagram, destination, source, &mut frames)?;
    Ok(Frames { count, frames })
}

/// The same into lent room, from its start on; gives the number of frames. What is behind them,
/// and all of the room where B9 refuses the datagram, keeps what it had.
pub fn cut_into(
    datagram: &[u8],
    destination: u16,
    source: u16,
    frames: &mut [Frame; MOST_FRAMES],
) -> Result<usize, CallError> {
    if datagram.len() > LONGEST_DATAGRAM || destination > LAST_ALIAS || source > LAST_ALIAS {
        return Err(CallError::B9CannotBeCut);
    }
    let aliases = u32::from(destination) << 12 | u32::from(source);
    let frame = |kind: u32, data: &[u8]| {
        Frame::new(kind << 24 | aliases, data).expect("a piece of at most 8 bytes")
    };
    if datagram.len() <= FRAME_DATA {
        frames[0] = frame(SINGLE, datagram);
        return Ok(1);
    }
    let (first, mut rest) = datagram.split_at(FRAME_DATA);
    frames[0] = frame(FIRST, first);
    let mut count = 1;
    while rest.len() > FRAME_DATA {
        let (middle, left) = rest.split_at(FRAME_DATA);
        frames[count] = frame(MIDDLE, middle);
        count += 1;
        rest = left;
    }
    frames[count] = frame(LAST, rest);
    Ok(count + 1)
}
