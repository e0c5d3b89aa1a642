//! Holds sessions of many tools whose frames get lost on the way to the board, or come twice, late
//! or emptied, so that datagrams are broken in every way that change request C-15 speaks of. The
//! tools send by turns, with few ticks between the frames and at times about as many as a place
//! stays.

use std::collections::VecDeque;

use crate::answer::Answer;
use crate::ffi::{PLACES_SIZE, PLACE_BYTES, SENT_SIZE};
use crate::generate::{datagram, sound_places, tools, Board, Incoming};
use crate::joining::{FIRST, LAST, MIDDLE, SINGLE};
use crate::random::Random;
use crate::setup::Setup;
use crate::tally::{Case, Tally};
use crate::times::{start, Clock, GREATEST_AGE, MOST_TICKS, ROUND};
use crate::tool::Archive;

/// How many frames there are in a session, for each of its tools.
const FRAMES_EACH: usize = 13;

/// A tool that sends its datagrams one after the other, and does not see what is lost of them.
struct Sender {
    /// Destination and source, as they stand in a header.
    aliases: u32,
    /// The frames of the last datagram, as they should come.
    whole: Vec<Incoming>,
    /// The frames that are still to come.
    waiting: VecDeque<Incoming>,
}

impl Sender {
    fn new(board: &Board, source: u16) -> Self {
        Self {
            aliases: u32::from(board.alias) << 12 | u32::from(source),
            whole: Vec::new(),
            waiting: VecDeque::new(),
        }
    }

    fn frame(&self, kind: u32, data: &[u8]) -> Incoming {
        Incoming {
            header: kind << 24 | self.aliases,
            data: data.to_vec(),
        }
    }

    /// The frames of a datagram: seldom a Single, and mostly not as few as there might be.
    fn cut(&self, random: &mut Random, datagram: &[u8]) -> Vec<Incoming> {
        if datagram.len() <= 8 && random.once_in(4) {
            return vec![self.frame(SINGLE, datagram)];
        }
        let fewest = datagram.len().div_ceil(9).max(1);
        let mut pieces: Vec<&[u8]> = datagram.chunks(random.between(fewest, 8)).collect();
        while pieces.len() < 2 {
            pieces.push(&[]);
        }
        let last = pieces.len() - 1;
        let frames = pieces.iter().enumerate().map(|(index, piece)| {
            let kind = match index {
                0 => FIRST,
                _ if index == last => LAST,
                _ => MIDDLE,
            };
            self.frame(kind, piece)
        });
        frames.collect()
    }

    /// Something that happens to frames on their way.
    fn mishap(&self, random: &mut Random, frames: &mut Vec<Incoming>) {
        if frames.is_empty() {
            return;
        }
        let index = random.below(frames.len());
        match random.below(16) {
            // One is lost: the first, the last, any; or all from one on.
            0 => drop(frames.remove(0)),
            1 | 2 => drop(frames.pop()),
            3 => drop(frames.remove(index)),
            4 => frames.truncate(index),
            // One comes twice, or late.
            5 | 6 => frames.insert(index, frames[index].clone()),
            7 => {
                let late = frames.remove(index);
                frames.insert(random.between(index, frames.len()), late);
            }
            // One is emptied, or there is one more: an empty Middle, a Single, a First.
            8 => frames[index].data.clear(),
            9..=11 => frames.insert(index, self.frame(MIDDLE, &[])),
            12 => frames.insert(index, self.frame(SINGLE, &[0x20, 0xA8])),
            13 => frames.insert(index, self.frame(FIRST, &[0x20])),
            // There are more bytes than a datagram may have.
            _ => {
                for _ in 0..random.between(5, PLACE_BYTES / 8) {
                    frames.insert(index, self.frame(MIDDLE, &[0x5A; 8]));
                }
            }
        }
    }

    /// The next frame that reaches the board.
    fn next(&mut self, random: &mut Random, board: &Board) -> Incoming {
        loop {
            if let Some(frame) = self.waiting.pop_front() {
                return frame;
            }
            let mut datagram = datagram(random, board);
            datagram.truncate(PLACE_BYTES);
            self.whole = self.cut(random, &datagram);
            let mut frames = self.whole.clone();
            for _ in 0..random.below(4) {
                self.mishap(random, &mut frames);
            }
            self.waiting.extend(frames);
        }
    }

    /// Hears that a datagram is refused: the tool sends it again, at once or behind what it is
    /// sending, or goes on as if nothing had been said.
    fn hear_refusal(&mut self, random: &mut Random) {
        let way = random.below(4);
        if way == 0 {
            self.waiting.clear();
        }
        if way < 2 {
            self.waiting.extend(self.whole.iter().cloned());
        }
    }
}

/// A clock that begins about where the count goes round, or anywhere, and that now and then lets so
/// many ticks pass that the age of something comes to an edge.
fn clock(random: &mut Random) -> Clock {
    let pace = random.pick(&[12, 40, 120, 400]);
    let time = if random.once_in(2) {
        ROUND * random.between(1, 3) as u64 + random.below(200) as u64 - 100
    } else {
        start(random)
    };
    Clock::paced(time, pace)
}

/// Runs a session on both sides, on a copy of this board.
pub fn session(
    archive: &impl Archive,
    setup: &Setup,
    random: &mut Random,
    tally: &mut Tally,
) -> Result<(), String> {
    let mut setup = setup.clone();
    let board = setup.board().clone();
    let (tools, clock) = (tools(random, &board), clock(random));
    let places = if random.once_in(3) {
        let oldest = clock.time().min(u64::from(GREATEST_AGE)) as u16;
        sound_places(random, &tools, clock.tick(), oldest)
    } else {
        [0; PLACES_SIZE]
    };
    setup.begin_anew(&places, clock);
    let senders = tools.iter().map(|tool| Sender::new(&board, tool.source()));
    let mut senders: Vec<Sender> = senders.collect();
    for _ in 0..FRAMES_EACH * senders.len() {
        setup.pass(random, MOST_TICKS);
        if random.once_in(8) {
            setup.rewrite_places(random);
        }
        if random.once_in(24) {
            setup.tick(archive, tally)?;
            continue;
        }
        let sender = random.below(senders.len());
        let frame = senders[sender].next(random, &board);
        let answer = setup.frame(archive, &frame, &[0x5A; 72], &[0xA5; SENT_SIZE], tally)?;
        if matches!(answer, Answer::TransportRefusal(_)) {
            senders[sender].hear_refusal(random);
        }
    }
    tally.count(Case::LostSession);
    Ok(())
}

#[cfg(test)]
mod tests {
    use super::*;

    fn kinds(frames: &[Incoming]) -> Vec<u32> {
        frames.iter().map(|frame| frame.header >> 24).collect()
    }

    #[test]
    fn a_datagram_is_cut_so_that_it_can_be_joined() {
        let mut random = Random::new(15);
        let board = Board::new(0x22B, 0, Vec::new(), 0, 0);
        let sender = Sender::new(&board, 0x123);
        for length in 0..=PLACE_BYTES {
            for _ in 0..20 {
                let datagram = random.bytes(length);
                let frames = sender.cut(&mut random, &datagram);
                let joined: Vec<u8> = frames.iter().flat_map(|frame| frame.data.clone()).collect();
                assert_eq!(joined, datagram);
                assert!(frames.iter().all(|frame| frame.data.len() <= 8));
                assert!(frames
                    .iter()
                    .all(|frame| frame.header & 0xFF_FFFF == 0x22_B123));
                let kinds = kinds(&frames);
                let [first, middles @ .., last] = &kinds[..] else {
                    assert_eq!(kinds, [SINGLE]);
                    continue;
                };
                assert_eq!((*first, *last), (FIRST, LAST));
                assert!(middles.iter().all(|&kind| kind == MIDDLE));
            }
        }
    }

    #[test]
    fn a_tool_goes_on_whatever_is_lost() {
        let mut random = Random::new(16);
        let board = Board::new(0x22B, 0, Vec::new(), 0, 0);
        let mut sender = Sender::new(&board, 0x123);
        let mut empty = 0;
        for _ in 0..4_000 {
            let frame = sender.next(&mut random, &board);
            assert!(frame.data.len() <= 8);
            empty += usize::from(frame.header >> 24 == MIDDLE && frame.data.is_empty());
            if random.once_in(20) {
                sender.hear_refusal(&mut random);
            }
        }
        assert!(empty > 40, "{empty}");
    }
}
