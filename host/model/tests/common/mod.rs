//! Holds what several test files share: hex text, a board with everything in it, its answers, and
//! numbers that look random.
#![allow(dead_code)]

use model::{
    demo_board, handle_datagram, handle_frame, handle_time, Answer, CallError, Description,
    FrameAnswer, Kept, Reception, Space, Unfinished,
};

/// What fills a reply buffer before a call.
pub const FILL: u8 = 0xA5;

pub fn hex(text: &str) -> Vec<u8> {
    let digits: String = text.split_whitespace().collect();
    assert_eq!(digits.len() % 2, 0);
    (0..digits.len())
        .step_by(2)
        .map(|at| u8::from_str_radix(&digits[at..at + 2], 16).unwrap())
        .collect()
}

pub const fn space(number: u8, lowest: u32, highest: u32, offset: u32) -> Space {
    Space {
        number,
        lowest,
        highest,
        read_only: false,
        in_flash: false,
        offset,
    }
}

pub const fn read_only(space: Space) -> Space {
    Space {
        read_only: true,
        ..space
    }
}

pub const fn in_flash(space: Space) -> Space {
    Space {
        read_only: true,
        in_flash: true,
        ..space
    }
}

/// What a book has, or what the reception state has for a source. A book that is blank, and a
/// source for which nothing is kept, have none.
#[derive(Clone, Debug, PartialEq, Eq, PartialOrd, Ord)]
pub enum Book {
    Holds(Vec<u8>),
    Swallowed,
}

/// A board whose every part may be set.
#[derive(Clone)]
pub struct Bench {
    pub alias: u16,
    pub write_lengths: u8,
    pub spaces: Vec<Space>,
    pub flash: Vec<u8>,
    pub memory: Vec<u8>,
    pub lock: [u8; 6],
    pub reception: Reception,
    pub reply: Vec<u8>,
    /// The time that frames and lone ticks come with.
    pub time: u64,
}

impl Bench {
    pub fn demo() -> Self {
        let board = demo_board();
        Self {
            alias: board.description.alias,
            write_lengths: board.description.write_lengths,
            spaces: board.description.spaces.to_vec(),
            flash: board.flash.to_vec(),
            memory: board.memory.to_vec(),
            lock: board.lock,
            reception: board.reception,
            reply: vec![FILL; 80],
            time: 0,
        }
    }

    pub fn with_spaces(spaces: &[Space]) -> Self {
        Self {
            spaces: spaces.to_vec(),
            ..Self::demo()
        }
    }

    pub fn datagram(&mut self, datagram: &[u8]) -> Result<Answer, CallError> {
        let description = Description {
            alias: self.alias,
            write_lengths: self.write_lengths,
            spaces: &self.spaces,
        };
        handle_datagram(
            &description,
            &self.flash,
            &mut self.memory,
            &mut self.lock,
            datagram,
            &mut self.reply,
        )
    }

    pub fn frame(&mut self, header: u32, data: &[u8]) -> Result<FrameAnswer, CallError> {
        let description = Description {
            alias: self.alias,
            write_lengths: self.write_lengths,
            spaces: &self.spaces,
        };
        handle_frame(
            &description,
            &self.flash,
            &mut self.memory,
            &mut self.lock,
            &mut self.reception,
            self.time,
            header,
            data,
            &mut self.reply,
        )
    }

    pub fn lone_tick(&mut self) -> Result<(), CallError> {
        handle_time(&mut self.reception, self.time)
    }

    /// Sends a datagram and gives the answer as text: `rejected 1080`, `written 3+2` for two bytes
    /// of memory from index 3 on, `update complete`, or the reply in hex.
    /// Holds the rules about what stays untouched to it.
    pub fn say(&mut self, datagram: &str) -> String {
        let before = self.clone();
        self.reply.fill(FILL);
        match self
            .datagram(&hex(datagram))
            .expect("no error of the caller")
        {
            Answer::Rejected(code) => {
                assert_eq!(self.memory, before.memory);
                assert_eq!(self.lock, before.lock);
                assert!(self.reply.iter().all(|&byte| byte == FILL));
                format!("rejected {code:04X}")
            }
            Answer::Written { start, count } => {
                assert_eq!(self.lock, before.lock);
                assert!(self.reply.iter().all(|&byte| byte == FILL));
                assert!((1..=64).contains(&count));
                let mut outside = self.memory.clone();
                outside[start..start + count].copy_from_slice(&before.memory[start..start + count]);
                assert_eq!(outside, before.memory);
                format!("written {start}+{count}")
            }
            Answer::UpdateComplete => {
                assert_eq!(self.memory, before.memory);
                assert_eq!(self.lock, before.lock);
                assert!(self.reply.iter().all(|&byte| byte == FILL));
                "update complete".to_string()
            }
            Answer::Replied(length) => {
                assert!(length <= 72);
                assert_eq!(self.memory, before.memory);
                assert!(self.reply[length..].iter().all(|&byte| byte == FILL));
                self.reply[..length]
                    .iter()
                    .map(|byte| format!("{byte:02X}"))
                    .collect()
            }
        }
    }

    /// Asserts that every part that document 01 speaks of is the same.
    pub fn assert_same(&self, other: &Self) {
        assert_eq!(self.memory, other.memory);
        assert_eq!(self.flash, other.flash);
        assert_eq!(self.lock, other.lock);
        assert_eq!(self.reply, other.reply);
        assert!(self.reception.keeps_the_same_as(&other.reception));
    }

    /// Asserts that nothing was touched, not even the places of the reception state.
    pub fn assert_as(&self, before: &Self) {
        self.assert_same(before);
        let places = |bench: &Self| format!("{:?}", bench.reception);
        assert_eq!(places(self), places(before));
    }

    /// The sources in the reception state and the times of their last accepted frames, sorted.
    pub fn times(&self) -> Vec<(u16, u64)> {
        let mut times: Vec<_> = self
            .reception
            .unfinished()
            .map(|entry| (entry.source, entry.last_accepted))
            .collect();
        times.sort_unstable();
        times
    }

    /// The entries of the reception state, sorted.
    pub fn kept(&self) -> Vec<(u16, Book)> {
        let mut kept: Vec<_> = self
            .reception
            .unfinished()
            .map(|entry| {
                assert_eq!(entry.length, entry.bytes.len());
                let book = if entry.swallowed {
                    assert_eq!(entry.length, 0);
                    Book::Swallowed
                } else {
                    Book::Holds(entry.bytes.to_vec())
                };
                (entry.source, book)
            })
            .collect();
        kept.sort();
        for (source, book) in &kept {
            let alone = match book {
                Book::Holds(bytes) => Kept::Bytes(bytes),
                Book::Swallowed => Kept::Swallowed,
            };
            assert_eq!(self.reception.kept_for(*source), alone);
        }
        kept
    }
}

pub fn entry(source: u16, length: usize, bytes: &[u8]) -> Unfinished<'_> {
    Unfinished {
        source,
        length,
        bytes,
        last_accepted: 0,
        swallowed: false,
    }
}

/// An entry for a source that is being swallowed.
pub fn swallowed(source: u16) -> Unfinished<'static> {
    Unfinished {
        swallowed: true,
        ..entry(source, 0, &[])
    }
}

pub fn single(source: u32) -> u32 {
    0x1A22_B000 | source
}

pub fn first(source: u32) -> u32 {
    0x1B22_B000 | source
}

pub fn middle(source: u32) -> u32 {
    0x1C22_B000 | source
}

pub fn last(source: u32) -> u32 {
    0x1D22_B000 | source
}

/// A small generator of numbers, so that each run is the same.
pub struct Numbers(pub u64);

impl Numbers {
    pub fn below(&mut self, bound: u32) -> u32 {
        self.0 ^= self.0 << 13;
        self.0 ^= self.0 >> 7;
        self.0 ^= self.0 << 17;
        ((self.0 >> 32) as u32) % bound
    }

    pub fn byte(&mut self) -> u8 {
        self.below(256) as u8
    }

    pub fn bytes(&mut self, count: usize) -> Vec<u8> {
        (0..count).map(|_| self.byte()).collect()
    }

    pub fn one_of<T: Copy>(&mut self, choices: &[T]) -> T {
        choices[self.below(choices.len() as u32) as usize]
    }
}
