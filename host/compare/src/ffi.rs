//! Holds the edge to the library: its C functions, and safe functions around them. Everything
//! unsafe of this package is here, and in the module for the tool's half.
//!
//! All that a board has is lent as bytes, and so is room for what comes of a call: a slice goes
//! over as a pointer and a length, and what has one size as a pointer alone. Lengths and indices
//! have 64 bits. What the bytes stand for is in `layout`.

#![allow(unsafe_code)]

pub mod room;
pub mod tool;

/// The places of a reception state.
pub const PLACES: usize = 8;
/// The bytes of a place.
pub const PLACE_SIZE: usize = 8;
/// The bytes of the places.
pub const PLACES_SIZE: usize = PLACES * PLACE_SIZE;
/// The bytes of the pool for each place.
pub const PLACE_BYTES: usize = 72;
/// The bytes of the pool.
pub const POOL_BYTES: usize = PLACES * PLACE_BYTES;
/// The bytes of a space in a table.
pub const SPACE_SIZE: usize = 16;
/// The most spaces that a table may have.
pub const MOST_SPACES: usize = 16;
/// The bytes of a frame that the library makes.
pub const FRAME_SIZE: usize = 16;
/// The frames that every call that makes some has room for: a transport reply, and a reply of nine.
pub const MOST_SENT: usize = 10;
/// The bytes of the room for them.
pub const SENT_SIZE: usize = MOST_SENT * FRAME_SIZE;
/// The most bytes that are carried from one chunk of lines to the next: one more than the longest
/// line has, so that a line that is too long is seen to be so.
pub const CARRY_SIZE: usize = 29;
/// The bytes of the registers.
pub const REGISTERS_SIZE: usize = 6;
/// The bytes of what comes of a call.
pub const RESULT_SIZE: usize = 20;
/// The bytes of a line that was read.
pub const PARSED_SIZE: usize = 20;
/// The bytes of what reading a chunk of lines has come to.
pub const LINE_SIZE: usize = 24;
/// The version of the edge that this module is written for: major in the upper 16 bits, minor in
/// the lower 16.
pub const VERSION: u32 = 0x0006_0000;
/// In the place of a position where there is none. It is not 0, which is the first space's.
pub const NO_POSITION: u8 = 255;

/// The registers, which are the lock memory alone today.
pub type Registers = [u8; REGISTERS_SIZE];
/// The reception state, but for the bytes in the pool. It is all zero at the start.
pub type Places = [u8; PLACES_SIZE];
/// The bytes of unfinished datagrams.
pub type Pool = [u8; POOL_BYTES];
/// What comes of a call, as bytes.
pub type ResultBytes = [u8; RESULT_SIZE];
/// A line that was read, as bytes.
pub type ParsedBytes = [u8; PARSED_SIZE];
/// What reading a chunk of lines has come to, as bytes.
pub type LineBytes = [u8; LINE_SIZE];

/// A `bool` that the library gives. It is a byte here, which may be neither 0 nor 1.
#[derive(Clone, Copy, Debug, PartialEq, Eq)]
pub struct Flag(u8);

impl Flag {
    /// The flag in this byte.
    #[must_use]
    pub const fn in_byte(byte: u8) -> Self {
        Self(byte)
    }

    /// The flag that says this.
    #[must_use]
    pub const fn of(yes: bool) -> Self {
        Self(yes as u8)
    }

    /// What the flag says.
    ///
    /// # Panics
    ///
    /// Where the library gave neither 0 nor 1.
    #[must_use]
    pub fn get(self) -> bool {
        match self.0 {
            0 => false,
            1 => true,
            other => panic!("the library gave {other} for a bool"),
        }
    }
}

/// What comes of a call, as numbers.
#[derive(Clone, Copy, Debug, PartialEq, Eq)]
pub struct Numbers {
    /// Which of the others count.
    pub kind: u32,
    /// The code, for kinds 3 and 4.
    pub code: u16,
    /// The number of the caller's error, for kind 0.
    pub error: u8,
    /// The flags of Received OK, for kinds 5, 6 and 7.
    pub flags: u8,
    /// The index into memory of the first byte written, for kind 5.
    pub changed_at: u32,
    /// How many bytes are written, for kind 5.
    pub changed_len: u32,
    /// The length of the reply, for kind 6.
    pub reply_len: u8,
    /// How many frames are to be sent, for a call that handles a frame.
    pub frame_count: u8,
    /// The position of the refused space, counted from 0, for kind 0 with B2 to B5; else
    /// `NO_POSITION`.
    pub position: u8,
    /// Always 0.
    pub unused: u8,
}

/// A frame; its data are the first `len` bytes.
#[derive(Clone, Copy, Debug, PartialEq, Eq)]
#[repr(C)]
pub struct Frame {
    /// The header.
    pub header: u32,
    /// How many bytes of data there are.
    pub len: u32,
    /// The data, and room that is not used.
    pub bytes: [u8; 8],
}

/// A GridConnect line that was read.
#[derive(Clone, Copy, Debug, PartialEq, Eq)]
pub struct Parsed {
    /// Whether it is a line.
    pub good: Flag,
    /// The frame that it stands for.
    pub frame: Frame,
}

/// The start of a line whose newline has not come yet: the first `len` bytes of the text, and all
/// of them where `len` is over their number. It is all zero before any input.
#[derive(Clone, Copy, Debug, PartialEq, Eq)]
#[repr(C)]
pub struct Carry {
    /// How many bytes have come, of a line that is too long no more than there is room for.
    pub len: u8,
    /// The bytes, and room that is not used.
    pub text: [u8; CARRY_SIZE],
    /// Zero where the library gives it, and not read: it makes two halves of 16 bytes.
    pub spare: [u8; 2],
}

impl Carry {
    /// Before any input.
    pub const EMPTY: Self = Self {
        len: 0,
        text: [0; CARRY_SIZE],
        spare: [0; 2],
    };

    /// The bytes that it stands for.
    #[must_use]
    pub fn bytes(&self) -> &[u8] {
        &self.text[..usize::from(self.len).min(CARRY_SIZE)]
    }
}

/// What comes of reading a chunk of lines up to the next newline or to its end.
#[derive(Clone, Copy, Debug, PartialEq, Eq)]
pub struct Line {
    /// Whether a line has ended.
    pub complete: Flag,
    /// What that line is.
    pub parsed: Parsed,
}

#[link(name = "bujorelm", kind = "static")]
extern "C" {
    fn bujorelm_version() -> u32;
    fn bujorelm_handle_frame(
        alias: u16,
        write_lengths: u8,
        spaces: *const u8,
        spaces_size: u64,
        flash: *const u8,
        flash_len: u64,
        memory: *mut u8,
        memory_len: u64,
        registers: *mut u8,
        pool: *mut u8,
        places: *mut u8,
        tick: u16,
        header: u32,
        payload: *const u8,
        payload_len: u64,
        reply: *mut u8,
        reply_len: u64,
        frames: *mut u8,
        result: *mut u8,
    );
    fn bujorelm_handle_tick(places: *mut u8, tick: u16, result: *mut u8);
    fn bujorelm_handle_datagram(
        alias: u16,
        write_lengths: u8,
        spaces: *const u8,
        spaces_size: u64,
        flash: *const u8,
        flash_len: u64,
        memory: *mut u8,
        memory_len: u64,
        registers: *mut u8,
        datagram: *const u8,
        datagram_len: u64,
        reply: *mut u8,
        reply_len: u64,
        result: *mut u8,
    );
    fn bujorelm_cut(
        datagram: *const u8,
        datagram_len: u64,
        board: u16,
        tool: u16,
        frames: *mut u8,
    ) -> u64;
    fn bujorelm_received_ok(board: u16, tool: u16, flags: u8, frames: *mut u8) -> u64;
    fn bujorelm_rejected(board: u16, tool: u16, code: u16, frames: *mut u8) -> u64;
    fn bujorelm_parse_line(line: *const u8, line_len: u64, parsed: *mut u8);
    fn bujorelm_print_frame(frame: *const Frame, out: *mut u8, out_len: u64, at: u64) -> u64;
    fn bujorelm_next_line(
        chunk: *const u8,
        chunk_len: u64,
        from: u64,
        carry: *mut Carry,
        line: *mut u8,
    ) -> u64;
    fn bujorelm_last_line(carry: *mut Carry, line: *mut u8);
}

/// The version of the library's edge.
#[must_use]
pub fn version() -> u32 {
    // SAFETY: nothing is lent.
    unsafe { bujorelm_version() }
}

/// Handles a frame that comes at this tick, and makes the frames that are sent for it. What comes
/// of it is filled in last.
#[expect(
    clippy::too_many_arguments,
    reason = "everything the board has is lent, each thing by itself"
)]
#[inline]
pub fn handle_frame(
    alias: u16,
    write_lengths: u8,
    spaces: &[u8],
    flash: &[u8],
    memory: &mut [u8],
    registers: &mut Registers,
    pool: &mut Pool,
    places: &mut Places,
    tick: u16,
    header: u32,
    payload: &[u8],
    reply: &mut [u8],
    frames: &mut [u8; SENT_SIZE],
    result: &mut ResultBytes,
) {
    // SAFETY: every pointer comes with the length of the slice it is from or has its one size,
    // and Rust has seen to it that what is written to is lent to nobody else.
    unsafe {
        bujorelm_handle_frame(
            alias,
            write_lengths,
            spaces.as_ptr(),
            spaces.len() as u64,
            flash.as_ptr(),
            flash.len() as u64,
            memory.as_mut_ptr(),
            memory.len() as u64,
            registers.as_mut_ptr(),
            pool.as_mut_ptr(),
            places.as_mut_ptr(),
            tick,
            header,
            payload.as_ptr(),
            payload.len() as u64,
            reply.as_mut_ptr(),
            reply.len() as u64,
            frames.as_mut_ptr(),
            result.as_mut_ptr(),
        );
    }
}

/// Handles a tick that comes alone.
#[inline]
pub fn handle_tick(places: &mut Places, tick: u16, result: &mut ResultBytes) {
    // SAFETY: both have their one size and are lent to nobody else.
    unsafe { bujorelm_handle_tick(places.as_mut_ptr(), tick, result.as_mut_ptr()) }
}

/// Handles a datagram that is handed over whole.
#[expect(
    clippy::too_many_arguments,
    reason = "everything the board has is lent, each thing by itself"
)]
#[inline]
pub fn handle_datagram(
    alias: u16,
    write_lengths: u8,
    spaces: &[u8],
    flash: &[u8],
    memory: &mut [u8],
    registers: &mut Registers,
    datagram: &[u8],
    reply: &mut [u8],
    result: &mut ResultBytes,
) {
    // SAFETY: as for a frame.
    unsafe {
        bujorelm_handle_datagram(
            alias,
            write_lengths,
            spaces.as_ptr(),
            spaces.len() as u64,
            flash.as_ptr(),
            flash.len() as u64,
            memory.as_mut_ptr(),
            memory.len() as u64,
            registers.as_mut_ptr(),
            datagram.as_ptr(),
            datagram.len() as u64,
            reply.as_mut_ptr(),
            reply.len() as u64,
            result.as_mut_ptr(),
        );
    }
}

/// Cuts a datagram into frames that go from the board to the tool, and gives their number: 0 where
/// B9 refuses it.
#[inline]
#[must_use]
pub fn cut(datagram: &[u8], board: u16, tool: u16, frames: &mut [u8; SENT_SIZE]) -> usize {
    // SAFETY: the first pointer comes with the length of its slice, which is only read; the room
    // for frames has its one size and is lent to nobody else.
    let count = unsafe {
        bujorelm_cut(
            datagram.as_ptr(),
            datagram.len() as u64,
            board,
            tool,
            frames.as_mut_ptr(),
        )
    };
    count as usize
}

/// Makes the frame of Received OK, and gives 1; 0 where there is none.
#[inline]
#[must_use]
pub fn received_ok(board: u16, tool: u16, flags: u8, frames: &mut [u8; SENT_SIZE]) -> usize {
    // SAFETY: the room for frames has its one size and is lent to nobody else.
    let count = unsafe { bujorelm_received_ok(board, tool, flags, frames.as_mut_ptr()) };
    count as usize
}

/// Makes the frame of Rejected, and gives 1; 0 where there is none.
#[inline]
#[must_use]
pub fn rejected(board: u16, tool: u16, code: u16, frames: &mut [u8; SENT_SIZE]) -> usize {
    // SAFETY: the room for frames has its one size and is lent to nobody else.
    let count = unsafe { bujorelm_rejected(board, tool, code, frames.as_mut_ptr()) };
    count as usize
}

/// Reads a GridConnect line without its newline.
#[inline]
pub fn parse_line(line: &[u8], parsed: &mut ParsedBytes) {
    // SAFETY: the first pointer comes with the length of its slice, which is only read; the room
    // has its one size and is lent to nobody else.
    unsafe { bujorelm_parse_line(line.as_ptr(), line.len() as u64, parsed.as_mut_ptr()) }
}

/// Prints a frame as a GridConnect line with its newline into `out` from `at` on, and gives the
/// index past it.
#[inline]
pub fn print_frame(frame: &Frame, out: &mut [u8], at: usize) -> usize {
    // SAFETY: the frame has its one size and is only read; the other pointer comes with the length
    // of its slice, which is lent to nobody else.
    let end = unsafe { bujorelm_print_frame(frame, out.as_mut_ptr(), out.len() as u64, at as u64) };
    end as usize
}

/// Reads a chunk of lines from an index on, up to and with the next newline or to its end, and
/// gives the index up to which it was read. What is carried is changed.
#[inline]
pub fn next_line(chunk: &[u8], from: usize, carry: &mut Carry, line: &mut LineBytes) -> usize {
    // SAFETY: the first pointer comes with the length of its slice, which is only read; the others
    // have their one size and are lent to nobody else. A carry is any bytes.
    let at = unsafe {
        bujorelm_next_line(
            chunk.as_ptr(),
            chunk.len() as u64,
            from as u64,
            carry,
            line.as_mut_ptr(),
        )
    };
    at as usize
}

/// Takes the end of the input: what is carried is a line that lacks its newline.
#[inline]
pub fn last_line(carry: &mut Carry, line: &mut LineBytes) {
    // SAFETY: both have their one size and are lent to nobody else. A carry is any bytes.
    unsafe { bujorelm_last_line(carry, line.as_mut_ptr()) }
}

#[cfg(test)]
mod tests {
    use super::*;
    use core::mem::{offset_of, size_of};

    #[test]
    fn the_structs_that_are_lent_have_the_layout_of_the_library() {
        assert_eq!(size_of::<Frame>(), FRAME_SIZE);
        assert_eq!(offset_of!(Frame, header), 0);
        assert_eq!(offset_of!(Frame, len), 4);
        assert_eq!(offset_of!(Frame, bytes), 8);
        assert_eq!(size_of::<Carry>(), 32);
        assert_eq!(offset_of!(Carry, len), 0);
        assert_eq!(offset_of!(Carry, text), 1);
        assert_eq!(offset_of!(Carry, spare), 30);
    }
}
