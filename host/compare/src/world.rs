//! Holds a world: a board, the tools that send to it, a tool that listens, and calls one after the
//! other with ticks between them, so that memory, lock and what is unfinished have a history.

use crate::answer::Answer;
use crate::ffi::{PLACES_SIZE, SENT_SIZE};
use crate::generate::{
    any_frame, datagram, eight_old_places, good_board, old_places, sound_places, tools, Tool,
};
use crate::lines;
use crate::lost;
use crate::random::Random;
use crate::setup::Setup;
use crate::small;
use crate::tally::Tally;
use crate::times::{start, Clock, GREATEST_AGE, MOST_TICKS, ROUND};
use crate::tool::join::Listener;
use crate::tool::{self, Archive};
use crate::writes;

/// How many calls for the tool's half there are for one hundred of the others.
const TOOL_CALLS: usize = 5;
/// One call in so many is for writes that add up.
const WRITES: usize = 700;

/// A board and its tools.
pub struct World {
    setup: Setup,
    tools: Vec<Tool>,
    listener: Listener,
    calls_left: usize,
}

impl World {
    /// A new world, to be left after some hundreds of calls. At its start nothing is held, or places
    /// as a call at that time leaves them; or else places of any age, at times eight that are all
    /// too old, and with ticks of an earlier count.
    pub fn new(random: &mut Random) -> Self {
        let board = good_board(random);
        let tools = tools(random, &board);
        let clock = Clock::new(random);
        let start = random.below(8);
        let places = if start < 4 {
            let oldest = clock.time().min(u64::from(GREATEST_AGE)) as u16;
            sound_places(random, &tools, clock.tick(), oldest)
        } else {
            [0; PLACES_SIZE]
        };
        let mut setup = Setup::new(random, board, places, clock);
        if start >= 6 {
            let clock = clock.a_round_later();
            let places = if start == 6 {
                old_places(random, &tools, clock.tick())
            } else {
                eight_old_places(random, &tools, clock.tick())
            };
            setup.start_with(&places, clock);
        }
        Self {
            setup,
            tools,
            listener: Listener::new(random),
            calls_left: random.between(50, 600),
        }
    }

    /// Whether it is time for another world.
    #[must_use]
    pub const fn is_over(&self) -> bool {
        self.calls_left == 0
    }

    /// Makes one call to both sides; the text says what differs.
    pub fn call(
        &mut self,
        archive: &impl Archive,
        random: &mut Random,
        tally: &mut Tally,
    ) -> Result<(), String> {
        self.calls_left -= 1;
        // One of these takes as long as some twenty-five of the others.
        if random.once_in(WRITES) {
            return writes::call(archive, random, tally);
        }
        match random.below(100 + TOOL_CALLS) {
            100.. => tool::call(archive, &mut self.setup, &mut self.listener, random, tally),
            // One of these takes as long as some eighty of the others.
            0..=7 if random.once_in(80) => lost::session(archive, &self.setup, random, tally),
            0..=46 => self.frame(archive, random, tally),
            47..=50 => {
                self.setup.pass(random, MOST_TICKS);
                self.setup.tick(archive, tally).map(|_| ())
            }
            51 | 52 => self.old_call(archive, random, tally),
            53..=76 => {
                let datagram = datagram(random, self.setup.board());
                self.setup
                    .datagram(archive, &datagram, &buffer(random, false), tally)
                    .map(|_| ())
            }
            77..=84 => self.spoilt_call(archive, random, tally),
            85..=87 => small::cut(random, tally),
            88..=90 => small::transport(random, tally),
            91..=93 => small::parse(random, tally),
            94 | 95 => small::print(random, tally),
            96 | 97 => lines::next(archive, random, tally),
            98 => lines::last(archive, random, tally),
            // One of these takes as long as some ten of the others.
            _ if random.once_in(4) => lines::session(archive, random, tally),
            _ => lines::next(archive, random, tally),
        }
    }

    /// The next frame of a tool.
    fn frame(
        &mut self,
        archive: &impl Archive,
        random: &mut Random,
        tally: &mut Tally,
    ) -> Result<(), String> {
        if random.once_in(8) {
            self.setup.rewrite_places(random);
        }
        self.setup.pass(random, MOST_TICKS);
        let tool = random.below(self.tools.len());
        let frame = self.tools[tool].frame(random, self.setup.board());
        let reply = buffer(random, false);
        let room = room(random);
        let answer = self.setup.frame(archive, &frame, &reply, &room, tally)?;
        // Some tools go on sending, so that stray frames come too.
        if matches!(answer, Answer::TransportRefusal(_)) && !random.once_in(4) {
            self.tools[tool].give_up();
        }
        Ok(())
    }

    /// A call with something wrong in what it is lent. It is made on a copy, so that the world
    /// goes on with what it had; but a frame with a short buffer alone changes nothing, and is
    /// often one of the world's own calls.
    fn spoilt_call(
        &mut self,
        archive: &impl Archive,
        random: &mut Random,
        tally: &mut Tally,
    ) -> Result<(), String> {
        let index = random.below(self.tools.len());
        let frame = self.tools[index].clone().frame(random, self.setup.board());
        let room = room(random);
        let faults = random.between(1, 7);
        let short = faults & 1 != 0;
        let reply = buffer(random, short);
        if faults == 1 && random.once_in(2) {
            self.setup.pass(random, MOST_TICKS);
            self.setup.frame(archive, &frame, &reply, &room, tally)?;
            return Ok(());
        }
        let mut setup = self.setup.clone();
        setup.pass(random, MOST_TICKS);
        if faults & 2 != 0 {
            let times = random.between(1, 3);
            setup = setup.with_spoilt_board(random, times);
        }
        if faults & 4 != 0 {
            setup = setup.with_damaged_state(random);
        }
        if random.once_in(3) {
            let datagram = datagram(random, self.setup.board());
            setup.datagram(archive, &datagram, &reply, tally)?;
        } else {
            setup.frame(archive, &frame, &reply, &room, tally)?;
        }
        // What refuses a frame need not refuse a tick.
        if random.once_in(4) {
            setup.tick(archive, tally)?;
        }
        Ok(())
    }

    /// A frame or a lone tick, on a copy with places as no call of a good driver leaves them: with
    /// ages up to the greatest that a tick can tell, and at times damaged.
    fn old_call(
        &self,
        archive: &impl Archive,
        random: &mut Random,
        tally: &mut Tally,
    ) -> Result<(), String> {
        let mut setup = self.setup.clone();
        // Of all earlier ticks there is one before this time.
        let clock = Clock::at(ROUND + start(random));
        let places = old_places(random, &self.tools, clock.tick());
        setup.set_places(&places, clock);
        if random.once_in(8) {
            setup = setup.with_damaged_state(random);
        }
        if random.once_in(3) {
            setup.tick(archive, tally)?;
            return Ok(());
        }
        let tool = &self.tools[random.below(self.tools.len())];
        let frame = if random.once_in(2) {
            tool.clone().frame(random, setup.board())
        } else {
            any_frame(random, setup.board(), tool.source())
        };
        let short = random.once_in(16);
        let reply = buffer(random, short);
        setup.frame(archive, &frame, &reply, &room(random), tally)?;
        Ok(())
    }
}

/// What the room for frames holds before the call.
fn room(random: &mut Random) -> [u8; SENT_SIZE] {
    let mut room = [0; SENT_SIZE];
    random.fill(&mut room);
    room
}

/// What a reply buffer holds before the call.
fn buffer(random: &mut Random, short: bool) -> Vec<u8> {
    let length = match (short, random.below(4)) {
        (true, 0) => random.pick(&[0, 1, 8, 71]),
        (true, _) => random.between(0, 71),
        (false, 0) => random.between(72, 100),
        (false, _) => 72,
    };
    random.bytes(length)
}
