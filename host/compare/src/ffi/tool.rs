//! Holds the edge to the tool's half of the library: its C functions, and safe functions around
//! them. Each lends room for what comes of the call, with any bytes in it, and gives what these
//! bytes stand for then.
//!
//! A number that a kind does not name is 0 in what comes back, and a flag says no. So are the bytes
//! between the fields.

use super::room::{blank, Room};
use super::{Flag, Places, Pool};

/// The version of the edge that this module is written for.
pub const VERSION: u32 = 0x0003_0000;

/// What comes of writing a command.
#[derive(Clone, Copy, Debug, PartialEq, Eq)]
pub struct Composed {
    /// The number after the letter W, or 0.
    pub refusal: u32,
    /// The length of the command.
    pub len: usize,
}

/// Bytes in what was read.
#[derive(Clone, Copy, Debug, PartialEq, Eq)]
pub struct Bytes {
    /// Whether there are such bytes. Where there are, they may still be none: an empty text.
    pub given: Flag,
    /// The index of the first.
    pub start: usize,
    /// How many they are.
    pub len: usize,
}

/// A Received OK.
#[derive(Clone, Copy, Debug, PartialEq, Eq)]
pub struct Acknowledged {
    /// 3 for W3, or 0.
    pub refusal: u32,
    /// Whether a reply is to follow.
    pub pending: Flag,
    /// The timeout value.
    pub timeout: u8,
}

/// A Rejected.
#[derive(Clone, Copy, Debug, PartialEq, Eq)]
pub struct Rejection {
    /// 3 for W3, or 0.
    pub refusal: u32,
    /// The code.
    pub code: u16,
    /// The bytes behind the code, which are always given.
    pub further: Bytes,
}

/// The options of a board.
#[derive(Clone, Copy, Debug, PartialEq, Eq)]
pub struct Options {
    /// The bits of the commands that the board has.
    pub commands: u16,
    /// The Write Lengths byte.
    pub write_lengths: u8,
    /// The highest space.
    pub highest_space: u8,
    /// Whether there is a lowest space.
    pub has_lowest_space: Flag,
    /// The lowest space.
    pub lowest_space: u8,
}

/// The information on a space.
#[derive(Clone, Copy, Debug, PartialEq, Eq)]
pub struct Information {
    /// The highest address.
    pub highest_address: u32,
    /// The lowest address.
    pub lowest_address: u32,
    /// The flags.
    pub flags: u8,
    /// Whether the space is there.
    pub present: Flag,
    /// Whether there is a lowest address.
    pub has_lowest_address: Flag,
}

/// A reply.
#[derive(Clone, Copy, Debug, PartialEq, Eq)]
pub struct Reply {
    /// Which of the others count: 0 none, which is W3; 1 the bytes read, 2 a read that failed; 3 a
    /// write that is done, 4 one that failed; 5 the options; 6 the information on a space; 7 who
    /// holds the lock.
    pub kind: u32,
    /// The address, for kinds 1 to 4.
    pub address: u32,
    /// The code, for kinds 2 and 4.
    pub code: u16,
    /// The space, for kinds 1 to 4 and 6.
    pub space: u8,
    /// How the space is named, for kinds 1 to 4: 0 by byte 6, else by the control bits.
    pub form: u8,
    /// For kind 5.
    pub options: Options,
    /// For kind 6.
    pub information: Information,
    /// The data, the text or the lock.
    pub bytes: Bytes,
}

/// What comes of joining a frame.
#[derive(Clone, Copy, Debug, PartialEq, Eq)]
pub struct Joined {
    /// Which of the others count: 0 the state is damaged, 1 ignored, 2 joined or swallowed, 3
    /// refused, 4 a datagram that is the frame's data, 5 a datagram in the pool.
    pub kind: u32,
    /// The code, for kind 3.
    pub code: u16,
    /// The index into the pool of the datagram's first byte, for kind 5.
    pub start: usize,
    /// The index behind its last.
    pub end: usize,
}

/// A mask and a data byte.
#[derive(Clone, Copy, Debug, PartialEq, Eq)]
pub struct Pair {
    /// The bits that are taken from the data.
    pub mask: u8,
    /// The data.
    pub data: u8,
}

/// The next masked write from an old image to a new one.
#[derive(Clone, Copy, Debug, PartialEq, Eq)]
pub struct Change {
    /// 1 for images of different length, 2 for a short buffer, or 0.
    pub refusal: u32,
    /// Whether there is a change.
    pub given: Flag,
    /// The index of its first byte in the images.
    pub start: usize,
    /// How many pairs it has.
    pub count: usize,
}

/// The number of two bytes at an index.
const fn half(bytes: &[u8], at: usize) -> u16 {
    u16::from_le_bytes([bytes[at], bytes[at + 1]])
}

/// The number of four bytes at an index.
const fn word(bytes: &[u8], at: usize) -> u32 {
    half(bytes, at) as u32 | (half(bytes, at + 2) as u32) << 16
}

/// The length or index of eight bytes at an index.
const fn long(bytes: &[u8], at: usize) -> usize {
    word(bytes, at) as usize | (word(bytes, at + 4) as usize) << 32
}

impl Composed {
    /// In these bytes.
    ///
    /// # Panics
    ///
    /// Where a byte between the fields is not 0, as in all of these.
    #[must_use]
    pub fn in_bytes(bytes: &[u8; 16]) -> Self {
        blank(&bytes[4..8]);
        Self {
            refusal: word(bytes, 0),
            len: long(bytes, 8),
        }
    }
}

impl Bytes {
    /// In these bytes, from an index on.
    fn at(bytes: &[u8], at: usize) -> Self {
        blank(&bytes[at + 1..at + 8]);
        Self {
            given: Flag::in_byte(bytes[at]),
            start: long(bytes, at + 8),
            len: long(bytes, at + 16),
        }
    }
}

impl Acknowledged {
    /// In these bytes.
    #[must_use]
    pub fn in_bytes(bytes: &[u8; 8]) -> Self {
        blank(&bytes[6..]);
        Self {
            refusal: word(bytes, 0),
            pending: Flag::in_byte(bytes[4]),
            timeout: bytes[5],
        }
    }
}

impl Rejection {
    /// In these bytes.
    #[must_use]
    pub fn in_bytes(bytes: &[u8; 32]) -> Self {
        blank(&bytes[6..8]);
        Self {
            refusal: word(bytes, 0),
            code: half(bytes, 4),
            further: Bytes::at(bytes, 8),
        }
    }
}

impl Reply {
    /// In these bytes.
    #[must_use]
    pub fn in_bytes(bytes: &[u8; 56]) -> Self {
        blank(&bytes[18..20]);
        blank(&bytes[31..32]);
        Self {
            kind: word(bytes, 0),
            address: word(bytes, 4),
            code: half(bytes, 8),
            space: bytes[10],
            form: bytes[11],
            options: Options {
                commands: half(bytes, 12),
                write_lengths: bytes[14],
                highest_space: bytes[15],
                has_lowest_space: Flag::in_byte(bytes[16]),
                lowest_space: bytes[17],
            },
            information: Information {
                highest_address: word(bytes, 20),
                lowest_address: word(bytes, 24),
                flags: bytes[28],
                present: Flag::in_byte(bytes[29]),
                has_lowest_address: Flag::in_byte(bytes[30]),
            },
            bytes: Bytes::at(bytes, 32),
        }
    }
}

impl Joined {
    /// In these bytes.
    #[must_use]
    pub fn in_bytes(bytes: &[u8; 24]) -> Self {
        blank(&bytes[6..8]);
        Self {
            kind: word(bytes, 0),
            code: half(bytes, 4),
            start: long(bytes, 8),
            end: long(bytes, 16),
        }
    }
}

impl Change {
    /// In these bytes.
    #[must_use]
    pub fn in_bytes(bytes: &[u8; 24]) -> Self {
        blank(&bytes[5..8]);
        Self {
            refusal: word(bytes, 0),
            given: Flag::in_byte(bytes[4]),
            start: long(bytes, 8),
            count: long(bytes, 16),
        }
    }
}

#[link(name = "bujorelm_tool", kind = "static")]
extern "C" {
    fn bujorelm_tool_version() -> u32;
    fn bujorelm_compose_read(
        space: u8,
        address: u32,
        count: u64,
        buffer: *mut u8,
        buffer_len: u64,
        composed: *mut u8,
    );
    fn bujorelm_compose_write(
        space: u8,
        address: u32,
        bytes: *const u8,
        bytes_len: u64,
        buffer: *mut u8,
        buffer_len: u64,
        composed: *mut u8,
    );
    fn bujorelm_compose_masked_write(
        space: u8,
        address: u32,
        pairs: *const u8,
        pairs_len: u64,
        buffer: *mut u8,
        buffer_len: u64,
        composed: *mut u8,
    );
    fn bujorelm_compose_options(buffer: *mut u8, buffer_len: u64, composed: *mut u8);
    fn bujorelm_compose_information(space: u8, buffer: *mut u8, buffer_len: u64, composed: *mut u8);
    fn bujorelm_compose_lock(
        id: *const u8,
        id_len: u64,
        buffer: *mut u8,
        buffer_len: u64,
        composed: *mut u8,
    );
    fn bujorelm_compose_update_complete(buffer: *mut u8, buffer_len: u64, composed: *mut u8);
    fn bujorelm_read_received_ok(content: *const u8, content_len: u64, acknowledged: *mut u8);
    fn bujorelm_read_rejected(content: *const u8, content_len: u64, rejection: *mut u8);
    fn bujorelm_read_reply(datagram: *const u8, datagram_len: u64, reply: *mut u8);
    fn bujorelm_join(
        alias: u16,
        pool: *mut u8,
        places: *mut u8,
        header: u32,
        payload: *const u8,
        payload_len: u64,
        joined: *mut u8,
    );
    fn bujorelm_put_together(earlier: *const u8, later: *const u8, together: *mut u8);
    fn bujorelm_next_change(
        before: *const u8,
        before_len: u64,
        after: *const u8,
        after_len: u64,
        from: u64,
        pairs: *mut u8,
        pairs_len: u64,
        change: *mut u8,
    );
}

/// The version of the library's edge.
#[must_use]
pub fn version() -> u32 {
    // SAFETY: nothing is lent.
    unsafe { bujorelm_tool_version() }
}

/// What comes of writing a command: the call is lent a buffer and its length, and the room.
fn composed(buffer: &mut [u8], call: impl FnOnce(*mut u8, u64, *mut u8)) -> Composed {
    let mut room = Room::new();
    call(
        buffer.as_mut_ptr(),
        buffer.len() as u64,
        room.lent().as_mut_ptr(),
    );
    Composed::in_bytes(room.bytes())
}

/// Writes the command for a read.
pub fn compose_read(space: u8, address: u32, count: usize, buffer: &mut [u8]) -> Composed {
    composed(buffer, |buffer, len, room| {
        // SAFETY: the pointer comes with the length of its slice, the room has its one size, and
        // both are lent to nobody else.
        unsafe { bujorelm_compose_read(space, address, count as u64, buffer, len, room) }
    })
}

/// Writes the command for a write.
pub fn compose_write(space: u8, address: u32, bytes: &[u8], buffer: &mut [u8]) -> Composed {
    let (bytes, count) = (bytes.as_ptr(), bytes.len() as u64);
    composed(buffer, |buffer, len, room| {
        // SAFETY: each pointer comes with the length of its slice, and the room has its one size;
        // the first is only read, and the others are lent to nobody else.
        unsafe { bujorelm_compose_write(space, address, bytes, count, buffer, len, room) }
    })
}

/// Writes the command for a masked write.
pub fn compose_masked_write(space: u8, address: u32, pairs: &[u8], buffer: &mut [u8]) -> Composed {
    let (pairs, count) = (pairs.as_ptr(), pairs.len() as u64);
    composed(buffer, |buffer, len, room| {
        // SAFETY: as for a write.
        unsafe { bujorelm_compose_masked_write(space, address, pairs, count, buffer, len, room) }
    })
}

/// Writes the command that asks for the options.
pub fn compose_options(buffer: &mut [u8]) -> Composed {
    composed(buffer, |buffer, len, room| {
        // SAFETY: as for a read.
        unsafe { bujorelm_compose_options(buffer, len, room) }
    })
}

/// Writes the command that asks for the information on a space.
pub fn compose_information(space: u8, buffer: &mut [u8]) -> Composed {
    composed(buffer, |buffer, len, room| {
        // SAFETY: as for a read.
        unsafe { bujorelm_compose_information(space, buffer, len, room) }
    })
}

/// Writes the command for the lock.
pub fn compose_lock(id: &[u8], buffer: &mut [u8]) -> Composed {
    let (id, count) = (id.as_ptr(), id.len() as u64);
    composed(buffer, |buffer, len, room| {
        // SAFETY: as for a write.
        unsafe { bujorelm_compose_lock(id, count, buffer, len, room) }
    })
}

/// Writes the command Update Complete.
pub fn compose_update_complete(buffer: &mut [u8]) -> Composed {
    composed(buffer, |buffer, len, room| {
        // SAFETY: as for a read.
        unsafe { bujorelm_compose_update_complete(buffer, len, room) }
    })
}

/// Reads the content of a Received OK.
#[must_use]
pub fn read_received_ok(content: &[u8]) -> Acknowledged {
    let mut room = Room::new();
    let (bytes, len) = (content.as_ptr(), content.len() as u64);
    // SAFETY: the pointer comes with the length of its slice, which is only read; the room has its
    // one size and is lent to nobody else.
    unsafe { bujorelm_read_received_ok(bytes, len, room.lent().as_mut_ptr()) }
    Acknowledged::in_bytes(room.bytes())
}

/// Reads the content of a Rejected.
#[must_use]
pub fn read_rejected(content: &[u8]) -> Rejection {
    let mut room = Room::new();
    let (bytes, len) = (content.as_ptr(), content.len() as u64);
    // SAFETY: as for a Received OK.
    unsafe { bujorelm_read_rejected(bytes, len, room.lent().as_mut_ptr()) }
    Rejection::in_bytes(room.bytes())
}

/// Reads a reply datagram.
#[must_use]
pub fn read_reply(datagram: &[u8]) -> Reply {
    let mut room = Room::new();
    let (bytes, len) = (datagram.as_ptr(), datagram.len() as u64);
    // SAFETY: as for a Received OK.
    unsafe { bujorelm_read_reply(bytes, len, room.lent().as_mut_ptr()) }
    Reply::in_bytes(room.bytes())
}

/// Joins a frame that a board sends to the tool with this alias.
pub fn join(
    alias: u16,
    pool: &mut Pool,
    places: &mut Places,
    header: u32,
    payload: &[u8],
) -> Joined {
    let mut room = Room::new();
    // SAFETY: pool, places and room have their one size and are lent to nobody else; the other
    // pointer comes with the length of its slice, which is only read.
    unsafe {
        bujorelm_join(
            alias,
            pool.as_mut_ptr(),
            places.as_mut_ptr(),
            header,
            payload.as_ptr(),
            payload.len() as u64,
            room.lent().as_mut_ptr(),
        );
    }
    Joined::in_bytes(room.bytes())
}

/// Puts two pairs together: the one pair that does what the earlier and then the later do.
#[must_use]
pub fn put_together(earlier: Pair, later: Pair) -> Pair {
    let [earlier, later] = [earlier, later].map(|pair| [pair.mask, pair.data]);
    let mut room = Room::new();
    // SAFETY: all three have their one size. The first two are only read, and the room is lent to
    // nobody else.
    unsafe {
        bujorelm_put_together(earlier.as_ptr(), later.as_ptr(), room.lent().as_mut_ptr());
    }
    let [mask, data] = *room.bytes();
    Pair { mask, data }
}

/// Finds the next masked write at or after an index that takes an old image to a new one.
pub fn next_change(before: &[u8], after: &[u8], from: usize, pairs: &mut [u8]) -> Change {
    let mut room = Room::new();
    // SAFETY: each pointer comes with the length of its slice, and the room has its one size; the
    // first two are only read, and the others are lent to nobody else.
    unsafe {
        bujorelm_next_change(
            before.as_ptr(),
            before.len() as u64,
            after.as_ptr(),
            after.len() as u64,
            from as u64,
            pairs.as_mut_ptr(),
            pairs.len() as u64,
            room.lent().as_mut_ptr(),
        );
    }
    Change::in_bytes(room.bytes())
}

#[cfg(test)]
mod tests {
    use super::*;

    /// Bytes of which each is its own index and one more, but for these stretches, which are 0.
    fn counted<const SIZE: usize>(blanks: &[(usize, usize)]) -> [u8; SIZE] {
        let mut bytes = [0; SIZE];
        for (at, byte) in bytes.iter_mut().enumerate() {
            let blank = blanks.iter().any(|&(from, end)| (from..end).contains(&at));
            *byte = if blank { 0 } else { at as u8 + 1 };
        }
        bytes
    }

    const FURTHER: Bytes = Bytes {
        given: Flag(9),
        start: 0x1817_1615_1413_1211,
        len: 0x201F_1E1D_1C1B_1A19,
    };

    #[test]
    fn the_bytes_of_what_is_written_and_joined() {
        let composed = Composed::in_bytes(&counted(&[(4, 8)]));
        assert_eq!(composed.refusal, 0x0403_0201);
        assert_eq!(composed.len, 0x100F_0E0D_0C0B_0A09);
        let joined = Joined::in_bytes(&counted(&[(6, 8)]));
        assert_eq!((joined.kind, joined.code), (0x0403_0201, 0x0605));
        assert_eq!(joined.start, 0x100F_0E0D_0C0B_0A09);
        assert_eq!(joined.end, 0x1817_1615_1413_1211);
        let change = Change::in_bytes(&counted(&[(5, 8)]));
        assert_eq!((change.refusal, change.given), (0x0403_0201, Flag(5)));
        assert_eq!(change.start, 0x100F_0E0D_0C0B_0A09);
        assert_eq!(change.count, 0x1817_1615_1413_1211);
    }

    #[test]
    fn the_bytes_of_the_transport_replies() {
        let acknowledged = Acknowledged::in_bytes(&counted(&[(6, 8)]));
        assert_eq!(acknowledged.refusal, 0x0403_0201);
        assert_eq!((acknowledged.pending, acknowledged.timeout), (Flag(5), 6));
        let rejection = Rejection::in_bytes(&counted(&[(6, 8), (9, 16)]));
        assert_eq!((rejection.refusal, rejection.code), (0x0403_0201, 0x0605));
        assert_eq!(rejection.further, FURTHER);
    }

    #[test]
    fn the_bytes_of_a_reply() {
        let reply = Reply::in_bytes(&counted(&[(18, 20), (31, 32), (33, 40)]));
        let options = Options {
            commands: 0x0E0D,
            write_lengths: 15,
            highest_space: 16,
            has_lowest_space: Flag(17),
            lowest_space: 18,
        };
        let information = Information {
            highest_address: 0x1817_1615,
            lowest_address: 0x1C1B_1A19,
            flags: 29,
            present: Flag(30),
            has_lowest_address: Flag(31),
        };
        assert_eq!((reply.kind, reply.address), (0x0403_0201, 0x0807_0605));
        assert_eq!((reply.code, reply.space, reply.form), (0x0A09, 11, 12));
        assert_eq!((reply.options, reply.information), (options, information));
        let bytes = reply.bytes;
        assert_eq!(bytes.given, Flag(33));
        assert_eq!(bytes.start, 0x302F_2E2D_2C2B_2A29);
        assert_eq!(bytes.len, 0x3837_3635_3433_3231);
    }

    /// Asserts that bytes are not taken where one of these is not 0, of all the others.
    fn assert_seen<const SIZE: usize, T>(between: &[usize], read: fn(&[u8; SIZE]) -> T) {
        for &at in between {
            let mut bytes = [0; SIZE];
            bytes[at] = 0x80;
            let seen = std::panic::catch_unwind(|| drop(read(&bytes)));
            assert!(seen.is_err(), "{at} of {SIZE}");
        }
    }

    #[test]
    fn a_byte_between_the_fields_is_seen() {
        assert_seen(&[4, 5, 6, 7], Composed::in_bytes);
        assert_seen(&[6, 7], Acknowledged::in_bytes);
        assert_seen(&[6, 7, 9, 12, 15], Rejection::in_bytes);
        assert_seen(&[18, 19, 31, 33, 36, 39], Reply::in_bytes);
        assert_seen(&[6, 7], Joined::in_bytes);
        assert_seen(&[5, 6, 7], Change::in_bytes);
    }
}
