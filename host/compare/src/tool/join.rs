//! Holds the comparison of joining frames for a tool. The model has this for a board alone: a board
//! without spaces that has the tool's alias says what comes of a frame, and its reception state is
//! the tool's. A board cannot have alias 0 and a tool can: for that one the model is given every alias
//! with its lowest bit turned over, since nothing but their being equal counts.
//!
//! A tool has no ticks: every frame that it joins comes at tick 0, and so at one time for the model.
//! What its places hold at the start may have any tick.

use crate::ffi::tool::Joined;
use crate::ffi::{Places, Pool, PLACES, PLACES_SIZE, PLACE_BYTES, POOL_BYTES};
use crate::generate::{
    any_held, damage_places, rewrite_places, sound_places, tools, Board, Incoming, Tool, LAST_ALIAS,
};
use crate::guarded::Guarded;
use crate::joining::FIRST;
use crate::layout::{self, any_place, set_place, Entry};
use crate::random::Random;
use crate::setup::{compare_places, hex, in_order, same, Changes};
use crate::times::{any_age, any_due, is_due, GREATEST_AGE, ROUND};
use crate::tool::cases::{ToolCase, ToolTally};
use crate::tool::Archive;
use model::{CallError, FrameAnswer, Kept, Reception};

/// The tick that a frame comes at.
const TICK: u16 = 0;
/// The time that the model is told for it; of all earlier ticks there is one before it.
const TIME: u64 = ROUND;

/// What comes of a frame, whichever side joined it.
#[derive(Clone, Debug, PartialEq, Eq)]
pub enum Outcome {
    /// The state is damaged.
    Damaged,
    /// The frame is ignored.
    Ignored,
    /// The frame is joined or swallowed.
    Part,
    /// The frame is refused with this code.
    Refused(u16),
    /// This datagram is finished.
    Finished(Vec<u8>),
}

/// What a tool is lent to join frames, twice: once for the library and once for the model.
#[derive(Clone, Debug)]
pub struct Joiner {
    alias: u16,
    places: Guarded,
    pool: Guarded,
    model: Reception,
}

impl Joiner {
    /// Of the tool with this alias, with these places and this pool.
    #[must_use]
    pub fn new(alias: u16, places: &Places, pool: &Pool) -> Self {
        Self {
            alias,
            places: Guarded::new(places),
            pool: Guarded::new(pool),
            model: for_model(alias, places, pool),
        }
    }

    /// Whether something is unfinished.
    #[must_use]
    pub fn is_busy(&self) -> bool {
        layout::unfinished(self.places.array(), self.pool.bytes()).count() != 0
    }

    /// The same with a damaged state or for an alias that no tool has, or both.
    fn unusual(&self, random: &mut Random) -> Self {
        let mut joiner = self.clone();
        let what = random.between(1, 3);
        if what & 1 != 0 {
            joiner.alias |= random.pick(&[0x1000, 0x8000, 0xF000]);
        }
        if what & 2 != 0 {
            damage_places(random, joiner.places.array_mut());
        }
        joiner.model = for_model(joiner.alias, joiner.places.array(), joiner.pool.array());
        joiner
    }

    /// What the model says of a frame.
    fn expected(&mut self, frame: &Incoming) -> Outcome {
        // What is dropped before the frame is looked at is no part of a datagram that it finishes.
        if model::handle_time(&mut self.model, TIME).is_err() {
            return Outcome::Damaged;
        }
        // No frame has such an alias as its destination, and the model refuses it.
        if self.alias > LAST_ALIAS {
            return Outcome::Ignored;
        }
        let turned = turned(self.alias);
        let header = frame.header ^ (u32::from(turned) << 12 | u32::from(turned));
        let held = match self.model.kept_for(model::source_of(header)) {
            Kept::Bytes(bytes) => bytes.to_vec(),
            // A Single counts as if nothing were unfinished.
            Kept::Nothing | Kept::Swallowed => Vec::new(),
        };
        let board = model::Description {
            alias: self.alias ^ turned,
            write_lengths: 0,
            spaces: &[],
        };
        let answer = model::handle_frame(
            &board,
            &[],
            &mut [],
            &mut [0; 6],
            &mut self.model,
            TIME,
            header,
            &frame.data,
            &mut [0; 72],
        );
        match answer {
            Err(CallError::B7BadReceptionState) => Outcome::Damaged,
            // No other number can be: the board is a good one.
            Err(other) => Outcome::Refused(u16::from(other.number())),
            Ok(FrameAnswer::Ignored) => Outcome::Ignored,
            Ok(FrameAnswer::Nothing) => Outcome::Part,
            Ok(FrameAnswer::TransportRefusal(code)) => Outcome::Refused(code),
            Ok(FrameAnswer::Handled(_)) => Outcome::Finished([held, frame.data.clone()].concat()),
        }
    }

    /// Joins a frame on both sides, and gives what both agree on.
    pub fn frame(
        &mut self,
        archive: &impl Archive,
        frame: &Incoming,
        tally: &mut ToolTally,
    ) -> Result<Outcome, String> {
        let (places, pool) = (*self.places.array(), *self.pool.array());
        let numbers = archive.join(
            self.alias,
            self.pool.array_mut(),
            self.places.array_mut(),
            frame.header,
            &frame.data,
        );
        let expected = self.expected(frame);
        let compared = self
            .compare(frame, numbers, &expected)
            .and_then(|()| self.compare_state(&expected, (&places, &pool)));
        if let Err(what) = compared {
            return Err(format!(
                "joining a frame: {what}\nalias    {:04X}\nheader   {:08X}\ndata     {}\n\
                 places   {}\npool     {}\nlibrary  {numbers:X?}\nmodel    {expected:X?}\n\
                 places   {}\npool     {}\n",
                self.alias,
                frame.header,
                hex(&frame.data),
                hex(&places),
                hex(&pool),
                hex(self.places.bytes()),
                hex(self.pool.bytes())
            ));
        }
        self.count(frame, numbers, &expected, &places, tally);
        Ok(expected)
    }

    /// Compares what the library says. Numbers that their kind does not name are 0.
    fn compare(
        &self,
        frame: &Incoming,
        numbers: Joined,
        expected: &Outcome,
    ) -> Result<(), &'static str> {
        let Joined {
            kind, start, end, ..
        } = numbers;
        let of = |kind, code| Joined {
            kind,
            code,
            start: 0,
            end: 0,
        };
        let due = match expected {
            Outcome::Damaged => of(0, 0),
            Outcome::Ignored => of(1, 0),
            Outcome::Part => of(2, 0),
            Outcome::Refused(code) => of(3, *code),
            // A datagram of one frame is in that frame.
            Outcome::Finished(_) if frame.header >> 24 == 0x1A => of(4, 0),
            Outcome::Finished(whole) => {
                same(kind == 5, "the answers differ")?;
                same(
                    self.pool.bytes().get(start..end) == Some(whole),
                    "the datagram is not where it is said to be",
                )?;
                same(
                    start % PLACE_BYTES == 0,
                    "the datagram is not at the start of a place",
                )?;
                Joined {
                    start,
                    end,
                    ..of(5, 0)
                }
            }
        };
        same(numbers == due, "the answers differ")
    }

    /// Compares the places and the pool.
    fn compare_state(
        &self,
        expected: &Outcome,
        before: (&Places, &Pool),
    ) -> Result<(), &'static str> {
        let after = (self.places.array(), self.pool.array());
        let joined = !matches!(expected, Outcome::Damaged | Outcome::Ignored);
        if *expected == Outcome::Damaged || !joined && !any_due(before.0, TICK) {
            same(
                after == before,
                "a frame that is not joined changed the state",
            )?;
        } else {
            let changes = match expected {
                Outcome::Damaged | Outcome::Ignored => Changes::Nothing,
                Outcome::Refused(_) => Changes::Place,
                Outcome::Part | Outcome::Finished(_) => Changes::PlaceAndPool,
            };
            // What a board's places have to go through is not counted here.
            compare_places(before, after, TICK, changes, |_| ())?;
        }
        let unfinished = turn(self.alias, layout::unfinished(after.0, after.1));
        same(
            in_order(unfinished) == in_order(self.model.unfinished().map(Entry::from)),
            "the unfinished datagrams differ",
        )?;
        same(
            self.places.is_intact() && self.pool.is_intact(),
            "a byte outside what was lent is changed",
        )
    }

    fn count(
        &self,
        frame: &Incoming,
        numbers: Joined,
        expected: &Outcome,
        before: &Places,
        tally: &mut ToolTally,
    ) {
        if *expected != Outcome::Damaged {
            let mut kept = layout::unfinished(self.places.array(), self.pool.bytes());
            tally.count_if(any_due(before, TICK), ToolCase::JoinDropped);
            tally.count_if(kept.any(|at| at.tick != TICK), ToolCase::JoinOtherTick);
        }
        if !matches!(expected, Outcome::Damaged | Outcome::Ignored) {
            self.count_swallowed(frame, expected, before, tally);
        }
        tally.count(match expected {
            Outcome::Damaged => ToolCase::JoinDamaged,
            Outcome::Ignored if self.alias > LAST_ALIAS => ToolCase::JoinWide,
            Outcome::Ignored => ToolCase::JoinIgnored,
            Outcome::Part if self.alias == 0 => ToolCase::JoinZero,
            Outcome::Part => ToolCase::JoinPart,
            Outcome::Refused(0x2000) => ToolCase::Join2000,
            Outcome::Refused(0x2020) => ToolCase::Join2020,
            Outcome::Refused(_) => ToolCase::Join2040,
            Outcome::Finished(whole) if numbers.kind == 5 => {
                return tally.in_pool(numbers.start, whole.len());
            }
            Outcome::Finished(whole) if whole.is_empty() => ToolCase::JoinEmptyFrame,
            Outcome::Finished(_) => ToolCase::JoinInFrame,
        });
    }

    /// Counts what is to be seen of a frame whose source was being swallowed, or is from now on.
    fn count_swallowed(
        &self,
        frame: &Incoming,
        expected: &Outcome,
        before: &Places,
        tally: &mut ToolTally,
    ) {
        let source = frame.header & 0xFFF;
        let is = is_swallowed(self.places.array(), source);
        match (is_swallowed(before, source), expected, frame.header >> 24) {
            (false, ..) => tally.count_if(is, ToolCase::JoinBroken),
            (true, Outcome::Finished(_), _) => tally.count(ToolCase::JoinSingleAfter),
            (true, _, FIRST) => tally.count(ToolCase::JoinFirstAfter),
            (true, ..) if is => tally.count(ToolCase::JoinSwallowed),
            (true, ..) => tally.count(ToolCase::JoinLastSwallowed),
        }
    }
}

/// Whether this source is being swallowed, in places of which what is due does not count.
fn is_swallowed(places: &Places, source: u32) -> bool {
    (0..PLACES)
        .filter_map(|index| layout::held(layout::place(places, index)))
        .any(|held| held.swallowing && !is_due(held, TICK) && u32::from(held.source) == source)
}

/// The bit of an alias that is turned over for the model.
const fn turned(alias: u16) -> u16 {
    (alias == 0) as u16
}

/// What is unfinished as the model is given it.
fn turn<'p>(
    alias: u16,
    entries: impl Iterator<Item = Entry<'p>>,
) -> impl Iterator<Item = Entry<'p>> {
    entries.map(move |entry| Entry {
        source: entry.source ^ turned(alias),
        ..entry
    })
}

/// A reception state of the library as one of the model.
fn for_model(alias: u16, places: &Places, pool: &Pool) -> Reception {
    let entries: Vec<_> = turn(alias, layout::unfinished(places, pool))
        .map(|entry| entry.for_model(TIME))
        .collect();
    Reception::from_unfinished(&entries).expect("eight places")
}

/// A tool that listens to some boards, so that what it joins has a history.
#[derive(Clone, Debug)]
pub struct Listener {
    /// In the place of the tool, for what sends to it.
    destination: Board,
    boards: Vec<Tool>,
    joiner: Joiner,
}

impl Listener {
    /// A tool, and the boards that send to it.
    pub fn new(random: &mut Random) -> Self {
        let alias = match random.below(8) {
            0 => random.pick(&[0, 1, 0xFFF]),
            _ => random.below(usize::from(LAST_ALIAS) + 1) as u16,
        };
        let destination = Board::new(alias, 0, Vec::new(), 0, 0);
        let boards = tools(random, &destination);
        let joiner = Joiner::new(alias, &places(random, &boards), &pool(random));
        Self {
            destination,
            boards,
            joiner,
        }
    }

    /// Joins some frames of the boards; at times one on a copy with a damaged state, or for an alias
    /// that no tool has.
    pub fn call(
        &mut self,
        archive: &impl Archive,
        random: &mut Random,
        tally: &mut ToolTally,
    ) -> Result<(), String> {
        for _ in 0..random.between(1, 12) {
            if random.once_in(8) {
                rewrite_places(random, self.joiner.places.array_mut());
            }
            let frame = self.frame(random);
            if random.once_in(12) {
                self.joiner.unusual(random).frame(archive, &frame, tally)?;
            }
            self.joiner.frame(archive, &frame, tally)?;
        }
        Ok(())
    }

    /// The next frame: mostly one that a board sends after its last, or else one that goes on with
    /// what is unfinished, up to the longest datagram.
    fn frame(&mut self, random: &mut Random) -> Incoming {
        let Joiner { places, pool, .. } = &self.joiner;
        let unfinished = layout::unfinished(places.array(), pool.bytes());
        let held: Vec<_> = unfinished.map(|at| (at.source, at.length)).collect();
        if held.is_empty() || !random.once_in(3) {
            let index = random.below(self.boards.len());
            return self.boards[index].frame(random, &self.destination);
        }
        let (source, length) = random.pick(&held);
        let left = PLACE_BYTES.saturating_sub(length);
        let size = match random.below(4) {
            0 => random.between(0, 8),
            _ => left.min(8),
        };
        let kind = if size == left || random.once_in(6) {
            0x1D
        } else {
            0x1C
        };
        Incoming {
            header: kind << 24 | u32::from(self.destination.alias) << 12 | u32::from(source),
            data: random.bytes(size),
        }
    }
}

/// Places with nothing unfinished, with something of these boards, or with as much as there may be
/// where there are more boards than that; with tick 0, or of any age.
fn places(random: &mut Random, boards: &[Tool]) -> Places {
    let oldest = random.pick(&[0, 0, GREATEST_AGE, u16::MAX]);
    match random.below(4) {
        0 if boards.len() > PLACES => {
            let mut places = [0; PLACES_SIZE];
            for (index, board) in boards.iter().take(PLACES).enumerate() {
                let age = any_age(random, oldest);
                let held = any_held(random, board.source(), TICK, age);
                set_place(&mut places, index, any_place(random, Some(held)));
            }
            places
        }
        0 | 1 => sound_places(random, boards, TICK, oldest),
        _ => [0; PLACES_SIZE],
    }
}

/// A pool, which holds anything.
fn pool(random: &mut Random) -> Pool {
    let mut pool = [0; POOL_BYTES];
    random.fill(&mut pool);
    pool
}

/// A tool with this alias that has room for a datagram of this board, with at most seven others
/// unfinished.
pub fn with_room_for(random: &mut Random, alias: u16, board: u16) -> Joiner {
    let mut others = tools(random, &Board::new(alias, 0, Vec::new(), 0, 0));
    others.retain(|other| other.source() != board);
    others.truncate(7);
    Joiner::new(alias, &places(random, &others), &pool(random))
}
