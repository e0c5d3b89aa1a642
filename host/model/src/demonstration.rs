//! Holds the demonstration board of document 01.

use crate::datagram::{handle_datagram, Answer, Lock};
use crate::description::{Description, Space};
use crate::joining::{handle_frame, handle_time, FrameAnswer};
use crate::reception::Reception;
use crate::CallError;

const SPACES: [Space; 4] = [
    Space {
        number: 0xFD,
        lowest: 0,
        highest: 0x1F,
        read_only: false,
        in_flash: false,
        offset: 0,
    },
    Space {
        number: 0xFE,
        lowest: 0,
        highest: 0x2F,
        read_only: false,
        in_flash: false,
        offset: 0,
    },
    Space {
        number: 0xFF,
        lowest: 0,
        highest: 0xF,
        read_only: true,
        in_flash: true,
        offset: 0,
    },
    Space {
        number: 0x10,
        lowest: 0x100,
        highest: 0x10F,
        read_only: false,
        in_flash: false,
        offset: 32,
    },
];

/// The description of the demonstration board.
pub const DEMONSTRATION_DESCRIPTION: Description<'static> = Description {
    alias: 0x22B,
    write_lengths: 0xF2,
    spaces: &SPACES,
};

/// The demonstration board with everything it owns.
#[derive(Clone, Debug)]
pub struct Board {
    /// What the board is.
    pub description: Description<'static>,
    /// `<cdi/>` and ten zeros.
    pub flash: [u8; 16],
    /// 48 bytes, zero at the start.
    pub memory: [u8; 48],
    /// The lock memory, zero at the start.
    pub lock: Lock,
    /// What is kept for the tools that are unfinished; for none at the start.
    pub reception: Reception,
}

/// A fresh demonstration board.
#[must_use]
pub fn demo_board() -> Board {
    Board {
        description: DEMONSTRATION_DESCRIPTION,
        flash: *b"<cdi/>\0\0\0\0\0\0\0\0\0\0",
        memory: [0; 48],
        lock: [0; 6],
        reception: Reception::new(),
    }
}

impl Board {
    /// Handles one frame, which comes at this time, with what the board owns.
    pub fn frame(
        &mut self,
        time: u64,
        header: u32,
        data: &[u8],
        reply: &mut [u8],
    ) -> Result<FrameAnswer, CallError> {
        handle_frame(
            &self.description,
            &self.flash,
            &mut self.memory,
            &mut self.lock,
            &mut self.reception,
            time,
            header,
            data,
            reply,
        )
    }

    /// Handles a lone tick with the board's reception state.
    pub fn time(&mut self, time: u64) -> Result<(), CallError> {
        handle_time(&mut self.reception, time)
    }

    /// Handles one whole datagram with what the board owns.
    pub fn datagram(&mut self, datagram: &[u8], reply: &mut [u8]) -> Result<Answer, CallError> {
        handle_datagram(
            &self.description,
            &self.flash,
            &mut self.memory,
            &mut self.lock,
            datagram,
            reply,
        )
    }
}
