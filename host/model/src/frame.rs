//! Holds one CAN frame and the transport reply frames Received OK and Rejected.

use crate::datagram::Answer;
use crate::description::LAST_ALIAS;
use crate::joining::FrameAnswer;

/// The most data bytes of a frame.
pub const FRAME_DATA: usize = 8;

const RECEIVED_OK: u32 = 0x19A2_8000;
const REJECTED: u32 = 0x19A4_8000;

/// A CAN frame: a header and 0 to 8 data bytes.
#[derive(Clone, Copy, PartialEq, Eq)]
pub struct Frame {
    header: u32,
    length: u8,
    /// The data, then zeros.
    bytes: [u8; FRAME_DATA],
}

impl Frame {
    /// A frame with header 0 and no data, as it stands in room that is not filled yet.
    pub const EMPTY: Self = Self {
        header: 0,
        length: 0,
        bytes: [0; FRAME_DATA],
    };

    /// A frame with this header and data; `None` where the data are over 8 bytes.
    #[must_use]
    pub fn new(header: u32, data: &[u8]) -> Option<Self> {
        let mut frame = Self {
            header,
            length: data.len() as u8,
            ..Self::EMPTY
        };
        frame.bytes.get_mut(..data.len())?.copy_from_slice(data);
        Some(frame)
    }

    /// The header; 29 bits on the wire.
    #[must_use]
    pub const fn header(&self) -> u32 {
        self.header
    }

    /// The data bytes, 0 to 8.
    #[must_use]
    pub fn data(&self) -> &[u8] {
        &self.bytes[..usize::from(self.length).min(FRAME_DATA)]
    }
}

impl core::fmt::Debug for Frame {
    fn fmt(&self, out: &mut core::fmt::Formatter<'_>) -> core::fmt::Result {
        write!(out, "Frame({:08X}, {:02X?})", self.header, self.data())
    }
}

/// The frame that says Received OK with these flags from the board to the tool.
///
/// Aliases have 12 bits; bits above are left out.
#[must_use]
pub fn received_ok_frame(board: u16, tool: u16, flags: u8) -> Frame {
    let [high, low] = (tool & LAST_ALIAS).to_be_bytes();
    Frame {
        header: RECEIVED_OK | u32::from(board & LAST_ALIAS),
        length: 3,
        bytes: [high, low, flags, 0, 0, 0, 0, 0],
    }
}

/// The frame that says Rejected with this code from the board to the tool.
///
/// Aliases have 12 bits; bits above are left out.
#[must_use]
pub fn rejected_frame(board: u16, tool: u16, code: u16) -> Frame {
    let [high, low] = (tool & LAST_ALIAS).to_be_bytes();
    let [code_high, code_low] = code.to_be_bytes();
    Frame {
        header: REJECTED | u32::from(board & LAST_ALIAS),
        length: 4,
        bytes: [high, low, code_high, code_low, 0, 0, 0, 0],
    }
}

/// The transport reply, if any, that goes to the tool with this answer.
#[must_use]
pub fn transport_reply(board: u16, tool: u16, answer: FrameAnswer) -> Option<Frame> {
    match answer {
        FrameAnswer::Ignored | FrameAnswer::Nothing => None,
        FrameAnswer::TransportRefusal(code) | FrameAnswer::Handled(Answer::Rejected(code)) => {
            Some(rejected_frame(board, tool, code))
        }
        FrameAnswer::Handled(Answer::Written { .. } | Answer::UpdateComplete) => {
            Some(received_ok_frame(board, tool, 0x00))
        }
        FrameAnswer::Handled(Answer::Replied(_)) => Some(received_ok_frame(board, tool, 0x80)),
    }
}
