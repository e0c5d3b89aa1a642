//! Holds the demonstration board of document 01 as a caller of the library has it.

use crate::ffi::{self, Frame, Numbers, Parsed, Places, Pool, Registers, ResultBytes};
use crate::layout::{frame_in, numbers_in};

/// The board's alias.
pub const ALIAS: u16 = 0x22B;
/// Its Write Lengths byte.
pub const WRITE_LENGTHS: u8 = 0xF2;

/// The table of spaces, byte by byte: number, read-only, in flash, a byte that means nothing, and
/// lowest, highest and offset with the least significant byte first.
pub const TABLE: [u8; 64] = [
    0xFD, 0, 0, 0, 0, 0, 0, 0, 0x1F, 0, 0, 0, 0, 0, 0, 0, // 0-1F, writable, memory 0
    0xFE, 0, 0, 0, 0, 0, 0, 0, 0x2F, 0, 0, 0, 0, 0, 0, 0, // 0-2F, writable, memory 0
    0xFF, 1, 1, 0, 0, 0, 0, 0, 0x0F, 0, 0, 0, 0, 0, 0, 0, // 0-F, read-only, flash 0
    0x10, 0, 0, 0, 0, 1, 0, 0, 0x0F, 1, 0, 0, 32, 0, 0, 0, // 100-10F, writable, memory 32
];
/// What is in flash.
pub const FLASH: [u8; 16] = *b"<cdi/>\0\0\0\0\0\0\0\0\0\0";
/// How many bytes memory has.
pub const MEMORY_LEN: usize = 48;

/// The board with all that it is lent.
#[derive(Clone, Debug)]
pub struct Demonstration {
    /// Memory.
    pub memory: [u8; MEMORY_LEN],
    registers: Registers,
    pool: Pool,
    places: Places,
    reply: [u8; 72],
    frames: [u8; ffi::SENT_SIZE],
    result: ResultBytes,
}

impl Default for Demonstration {
    fn default() -> Self {
        Self::new()
    }
}

impl Demonstration {
    /// A fresh board.
    #[must_use]
    pub const fn new() -> Self {
        Self {
            memory: [0; MEMORY_LEN],
            registers: [0; ffi::REGISTERS_SIZE],
            pool: [0; ffi::POOL_BYTES],
            places: [0; ffi::PLACES_SIZE],
            reply: [0xEE; 72],
            frames: [0xEE; ffi::SENT_SIZE],
            result: [0xEE; ffi::RESULT_SIZE],
        }
    }

    /// Hands a frame in as the demonstration program does, which has no tick but 0. The frames that
    /// are sent for it are the next thing to ask for.
    pub fn frame(&mut self, header: u32, data: &[u8]) -> Numbers {
        self.frame_at(0, header, data)
    }

    /// Hands a frame in that comes at this tick.
    pub fn frame_at(&mut self, tick: u16, header: u32, data: &[u8]) -> Numbers {
        ffi::handle_frame(
            ALIAS,
            WRITE_LENGTHS,
            &TABLE,
            &FLASH,
            &mut self.memory,
            &mut self.registers,
            &mut self.pool,
            &mut self.places,
            tick,
            header,
            data,
            &mut self.reply,
            &mut self.frames,
            &mut self.result,
        );
        self.numbers()
    }

    /// Hands a tick in that comes alone.
    pub fn tick(&mut self, tick: u16) -> Numbers {
        ffi::handle_tick(&mut self.places, tick, &mut self.result);
        self.numbers()
    }

    /// What has come of the call. The next one finds other bytes there.
    fn numbers(&mut self) -> Numbers {
        let numbers = numbers_in(&self.result);
        self.result.fill(0xEE);
        numbers
    }

    /// The places.
    pub const fn places(&mut self) -> &mut Places {
        &mut self.places
    }

    /// The first so many frames of those that the last call for a frame has made.
    pub fn sent(&self, count: usize) -> impl Iterator<Item = Frame> + '_ {
        let (frames, _) = self.frames.as_chunks();
        frames[..count].iter().map(frame_in)
    }

    /// Prints what a line that was read is answered with: the frames that are sent, or `?`.
    ///
    /// # Panics
    ///
    /// Where a frame has over 8 bytes, or the library gives over ten to be sent.
    pub fn line(&mut self, parsed: Parsed, out: &mut Vec<u8>) {
        if !parsed.good.get() {
            out.extend_from_slice(b"?\n");
            return;
        }
        let Frame { header, len, bytes } = parsed.frame;
        let numbers = self.frame(header, &bytes[..len as usize]);
        for frame in self.sent(usize::from(numbers.frame_count)) {
            let mut line = [0; 29];
            let end = ffi::print_frame(&frame, &mut line, 0);
            out.extend_from_slice(&line[..end]);
        }
    }

    /// Hands a whole datagram in.
    pub fn datagram(&mut self, datagram: &[u8]) -> Numbers {
        ffi::handle_datagram(
            ALIAS,
            WRITE_LENGTHS,
            &TABLE,
            &FLASH,
            &mut self.memory,
            &mut self.registers,
            datagram,
            &mut self.reply,
            &mut self.result,
        );
        self.numbers()
    }

    /// The reply buffer.
    #[must_use]
    pub const fn reply(&self) -> &[u8; 72] {
        &self.reply
    }
}
