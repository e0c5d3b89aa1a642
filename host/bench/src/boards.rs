//! Holds a board as each side has it: what a caller keeps between two frames.
//!
//! What is measured is a frame from its arrival to the frames that are to be sent for it and to what
//! came of it, which lie in room that the caller lends, on either side. The library does that in one
//! call, which fills in 20 bytes for what came of it. The model does it in two, as its caller would
//! write them: it handles the frame, and then writes the transport reply and the frames of the reply.
//! What came of it is a value of Rust's, and its caller stores that in the room. Neither side
//! allocates, and neither hands frames or results on by value. Every frame comes at a time at which
//! nothing is due, mostly at one and the same; neither side knows that.

use std::hint::black_box;

use compare::ffi::{self, Numbers, Places, Pool, Registers, ResultBytes, PLACE_BYTES};
use compare::layout::{canonical, frame_bytes, numbers_in, set_place, unfinished, Held};
use model::{CallError, FrameAnswer, Reception, Space, Unfinished, MOST_SENT};

/// A frame to be fed in.
#[derive(Clone, Copy, Debug)]
pub struct Incoming {
    header: u32,
    len: usize,
    bytes: [u8; 8],
}

impl Incoming {
    /// A frame with this header and these data, at most 8 bytes.
    #[must_use]
    pub fn new(header: u32, data: &[u8]) -> Self {
        let mut bytes = [0; 8];
        bytes[..data.len()].copy_from_slice(data);
        Self {
            header,
            len: data.len(),
            bytes,
        }
    }

    /// The data.
    #[inline]
    fn data(&self) -> &[u8] {
        &self.bytes[..self.len]
    }
}

/// What a board is made of, for either side.
#[derive(Clone, Debug)]
pub struct Blueprint {
    /// The board's alias.
    pub alias: u16,
    /// Its spaces.
    pub spaces: Vec<Space>,
    /// What is in flash.
    pub flash: Vec<u8>,
    /// How many bytes of memory it has.
    pub memory_len: usize,
    /// The tools that have a datagram of 20 bytes unfinished.
    pub others: Vec<u16>,
}

const BEGUN: [u8; 20] = [0x20; 20];
const WRITE_LENGTHS: u8 = 0xF2;
/// The tick of every call that has no other, and of the last accepted frame of what is unfinished at
/// the start.
const TICK: u16 = 0;

/// The board as a caller of the library keeps it.
pub struct LibraryBoard {
    alias: u16,
    table: Vec<u8>,
    flash: Vec<u8>,
    memory: Vec<u8>,
    registers: Registers,
    pool: Pool,
    places: Places,
    reply: [u8; 72],
    frames: [u8; ffi::SENT_SIZE],
    result: ResultBytes,
}

/// The board as a caller of the model keeps it.
pub struct ModelBoard {
    blueprint: Blueprint,
    memory: Vec<u8>,
    lock: model::Lock,
    reception: Reception,
    reply: [u8; 72],
    frames: [model::Frame; MOST_SENT],
    result: ModelResult,
}

/// What comes of a call to the model: the answer, and how many frames are to be sent.
pub type ModelResult = Result<(FrameAnswer, usize), CallError>;

/// The bytes of a space in a table.
fn space_bytes(space: &Space) -> Vec<u8> {
    [
        &[
            space.number,
            u8::from(space.read_only),
            u8::from(space.in_flash),
            0,
        ],
        &space.lowest.to_le_bytes()[..],
        &space.highest.to_le_bytes(),
        &space.offset.to_le_bytes(),
    ]
    .concat()
}

impl LibraryBoard {
    /// A fresh board.
    #[must_use]
    pub fn new(blueprint: &Blueprint) -> Self {
        let mut places = [0; ffi::PLACES_SIZE];
        let mut pool = [0; ffi::POOL_BYTES];
        for (index, &source) in blueprint.others.iter().enumerate() {
            let held = Held {
                len: BEGUN.len() as u8,
                source,
                tick: TICK,
                swallowing: false,
            };
            set_place(&mut places, index, canonical(Some(held)));
            pool[PLACE_BYTES * index..][..BEGUN.len()].copy_from_slice(&BEGUN);
        }
        Self {
            alias: blueprint.alias,
            table: blueprint.spaces.iter().flat_map(space_bytes).collect(),
            flash: blueprint.flash.clone(),
            memory: vec![0; blueprint.memory_len],
            registers: [0; ffi::REGISTERS_SIZE],
            pool,
            places,
            reply: [0; 72],
            frames: [0; ffi::SENT_SIZE],
            result: [0; ffi::RESULT_SIZE],
        }
    }

    /// Feeds one frame in, as a driver does: what came of it is in the room for that, with the
    /// number of frames to be sent, which are at the start of theirs.
    #[inline]
    pub fn frame(&mut self, frame: &Incoming) {
        self.frame_at(TICK, frame);
    }

    /// Feeds one frame in that comes at this tick.
    #[inline]
    pub fn frame_at(&mut self, tick: u16, frame: &Incoming) {
        ffi::handle_frame(
            self.alias,
            WRITE_LENGTHS,
            black_box(&self.table),
            &self.flash,
            &mut self.memory,
            &mut self.registers,
            &mut self.pool,
            &mut self.places,
            black_box(tick),
            frame.header,
            frame.data(),
            &mut self.reply,
            &mut self.frames,
            &mut self.result,
        );
        black_box((&self.frames, &self.result));
    }

    /// Brings a lone tick.
    #[inline]
    pub fn tick(&mut self) {
        let places = black_box(&mut self.places);
        ffi::handle_tick(places, black_box(TICK), &mut self.result);
        black_box(&self.result);
    }

    /// What came of the last call.
    #[must_use]
    pub fn numbers(&self) -> Numbers {
        numbers_in(&self.result)
    }

    /// How many tools are unfinished.
    #[must_use]
    pub fn unfinished(&self) -> usize {
        unfinished(&self.places, &self.pool).count()
    }

    /// How many of them are being swallowed.
    #[must_use]
    pub fn swallowed(&self) -> usize {
        unfinished(&self.places, &self.pool)
            .filter(|entry| entry.swallowing)
            .count()
    }

    /// The first so many frames of the room for them, as bytes.
    #[must_use]
    pub fn sent(&self, count: usize) -> Vec<[u8; ffi::FRAME_SIZE]> {
        self.frames.as_chunks().0[..count].to_vec()
    }

    /// The reply buffer.
    #[must_use]
    pub const fn reply(&self) -> &[u8; 72] {
        &self.reply
    }

    /// Memory.
    #[must_use]
    pub fn memory(&self) -> &[u8] {
        &self.memory
    }
}

impl ModelBoard {
    /// A fresh board.
    ///
    /// # Panics
    ///
    /// Where there are over eight other tools.
    #[must_use]
    pub fn new(blueprint: &Blueprint) -> Self {
        let begun: Vec<_> = blueprint
            .others
            .iter()
            .map(|&source| Unfinished {
                source,
                length: BEGUN.len(),
                bytes: &BEGUN,
                last_accepted: u64::from(TICK),
                swallowed: false,
            })
            .collect();
        Self {
            memory: vec![0; blueprint.memory_len],
            lock: [0; 6],
            reception: Reception::from_unfinished(&begun).expect("at most eight tools"),
            reply: [0; 72],
            frames: [model::Frame::EMPTY; MOST_SENT],
            result: Ok((FrameAnswer::Nothing, 0)),
            blueprint: blueprint.clone(),
        }
    }

    /// Feeds one frame in: what came of it is in the room for that, with the number of frames to be
    /// sent, which are at the start of theirs.
    #[inline]
    pub fn frame(&mut self, frame: &Incoming) {
        self.frame_at(u64::from(TICK), frame);
    }

    /// Feeds one frame in that comes at this time.
    #[inline]
    pub fn frame_at(&mut self, time: u64, frame: &Incoming) {
        let description = model::Description {
            alias: self.blueprint.alias,
            write_lengths: WRITE_LENGTHS,
            spaces: &self.blueprint.spaces,
        };
        let description = black_box(&description);
        let answer = model::handle_frame(
            description,
            &self.blueprint.flash,
            &mut self.memory,
            &mut self.lock,
            &mut self.reception,
            black_box(time),
            frame.header,
            frame.data(),
            &mut self.reply,
        );
        let count = model::frames_to_send(
            description.alias,
            frame.header,
            answer,
            &self.reply,
            &mut self.frames,
        );
        self.result = answer.map(|answer| (answer, count));
        black_box((&self.frames, &self.result));
    }

    /// Brings a lone tick.
    #[inline]
    pub fn tick(&mut self) {
        let reception = black_box(&mut self.reception);
        let heard = model::handle_time(reception, black_box(u64::from(TICK)));
        self.result = heard.map(|()| (FrameAnswer::Nothing, 0));
        black_box(&self.result);
    }

    /// What came of the last call.
    #[must_use]
    pub const fn result(&self) -> ModelResult {
        self.result
    }

    /// How many tools are unfinished.
    #[must_use]
    pub fn unfinished(&self) -> usize {
        self.reception.unfinished().count()
    }

    /// How many of them are being swallowed.
    #[must_use]
    pub fn swallowed(&self) -> usize {
        self.reception
            .unfinished()
            .filter(|entry| entry.swallowed)
            .count()
    }

    /// The first so many frames of the room for them, as the library's bytes.
    #[must_use]
    pub fn sent(&self, count: usize) -> Vec<[u8; ffi::FRAME_SIZE]> {
        self.frames[..count].iter().map(frame_bytes).collect()
    }

    /// The reply buffer.
    #[must_use]
    pub const fn reply(&self) -> &[u8; 72] {
        &self.reply
    }

    /// Memory.
    #[must_use]
    pub fn memory(&self) -> &[u8] {
        &self.memory
    }
}
