//! Holds differences that are planted in what the library does with ticks, one at a time. The
//! comparison finds each of them, and nothing where there is none.

mod results;
mod swallowing;

use crate::ages;
use crate::ffi::tool::{Acknowledged, Change, Composed, Joined, Pair, Rejection, Reply};
use crate::ffi::{
    Carry, LineBytes, Numbers, Places, Pool, ResultBytes, PLACES, PLACE_BYTES, PLACE_SIZE,
};
use crate::generate::{Board, Incoming};
use crate::guarded::Guarded;
use crate::layout::{canonical, held, place, set_place, Held};
use crate::random::Random;
use crate::setup::{Handler, Lent};
use crate::tally::Tally;
use crate::times::{age, is_due};
use crate::tool::request::Request;
use crate::tool::{Archive, Library};
use crate::world::World;

/// A difference.
#[derive(Clone, Copy, Debug, PartialEq, Eq)]
enum Fault {
    None,
    // Of what is dropped, at a frame and at a lone tick.
    Dropped3000,
    Kept3001,
    KeptWithoutWrap,
    DroppedWithoutWrap,
    OnlyFirstDropped,
    DroppedNotCleared,
    DroppedPoolCleared,
    DroppedWhereRefused,
    DroppedBeforeTests,
    // Of a frame alone.
    DropAfterFrame,
    IgnoredDropsNothing,
    IgnoredRenews,
    RefusedRenews,
    NoRoomRenews,
    MiddleDoesNotRenew,
    FirstAtTick0,
    TickReversed,
    UnusedByteKept,
    // Of a lone tick alone.
    DropsNothing,
    Renews,
    WithoutB7,
    AsIgnored,
    WithFrames,
    RefusedAtPosition0,
    Tidies,
}

/// The call that a difference is planted in.
#[derive(Clone, Copy, Debug, PartialEq, Eq)]
enum At {
    Frame,
    Tick,
}

/// All of them, and what the report on each may say is different.
const FAULTS: [(Fault, At, &[&str]); 33] = [
    (Fault::Dropped3000, At::Frame, STATE),
    (Fault::Dropped3000, At::Tick, STATE),
    (Fault::Kept3001, At::Frame, STATE),
    (Fault::Kept3001, At::Tick, STATE),
    (Fault::KeptWithoutWrap, At::Frame, STATE),
    (Fault::KeptWithoutWrap, At::Tick, STATE),
    (Fault::DroppedWithoutWrap, At::Frame, STATE),
    (Fault::DroppedWithoutWrap, At::Tick, STATE),
    (Fault::OnlyFirstDropped, At::Frame, STATE),
    (Fault::OnlyFirstDropped, At::Tick, STATE),
    (Fault::DroppedNotCleared, At::Frame, CLEARED),
    (Fault::DroppedNotCleared, At::Tick, CLEARED),
    (Fault::DroppedWhereRefused, At::Frame, STATE),
    (Fault::DroppedWhereRefused, At::Tick, STATE),
    (Fault::DroppedBeforeTests, At::Frame, STATE),
    (Fault::DroppedBeforeTests, At::Tick, STATE),
    (
        Fault::DroppedPoolCleared,
        At::Frame,
        &["the pool is changed for a place that did not change"],
    ),
    (Fault::DropAfterFrame, At::Frame, STATE),
    (Fault::IgnoredDropsNothing, At::Frame, STATE),
    (Fault::IgnoredRenews, At::Frame, STATE),
    (Fault::RefusedRenews, At::Frame, STATE),
    (Fault::NoRoomRenews, At::Frame, STATE),
    (Fault::MiddleDoesNotRenew, At::Frame, STATE),
    (Fault::FirstAtTick0, At::Frame, STATE),
    (Fault::TickReversed, At::Frame, STATE),
    (
        Fault::UnusedByteKept,
        At::Frame,
        &["a place that changed has other bytes than it should"],
    ),
    (Fault::DropsNothing, At::Tick, STATE),
    (Fault::Renews, At::Tick, STATE),
    (Fault::WithoutB7, At::Tick, &[ANSWERS]),
    (Fault::AsIgnored, At::Tick, &[ANSWERS]),
    (
        Fault::WithFrames,
        At::Tick,
        &["there are frames to be sent"],
    ),
    (Fault::RefusedAtPosition0, At::Tick, &[ANSWERS]),
    (
        Fault::Tidies,
        At::Tick,
        // The second where a source is being swallowed: its length is another then.
        &[
            "a place that did not change has other bytes",
            "a place that changed has another tick than the call",
        ],
    ),
];
const ANSWERS: &str = "the answers differ";
/// A state that differs may show by what a frame is answered with.
const STATE: &[&str] = &["the unfinished datagrams differ", ANSWERS];
const CLEARED: &[&str] = &["a place that was dropped is not all zero"];

/// Puts something else, or nothing, where something is held.
pub(crate) fn each(places: &mut Places, mut other: impl FnMut(Held) -> Option<Held>) {
    for index in 0..PLACES {
        if let Some(old) = held(place(places, index)) {
            let new = other(old);
            if new != Some(old) {
                set_place(places, index, canonical(new));
            }
        }
    }
}

/// Puts back what the library saw otherwise and kept.
pub(crate) fn put_back(before: &Places, seen: &Places, after: &mut Places) {
    for index in 0..PLACES {
        let seen = place(seen, index);
        if held(seen).is_some() && place(after, index) == seen {
            set_place(after, index, place(before, index));
        }
    }
}

/// Puts the tick that it had where something is held on.
pub(crate) fn keep_ticks(before: &Places, after: &mut Places) {
    for index in 0..PLACES {
        let (was, is) = (held(place(before, index)), held(place(after, index)));
        if let (Some(Held { tick, .. }), Some(is)) = (was, is) {
            if is.tick != tick {
                set_place(after, index, canonical(Some(Held { tick, ..is })));
            }
        }
    }
}

/// Drops what is due.
fn drop_due(places: &mut Places, tick: u16) {
    each(places, |held| (!is_due(held, tick)).then_some(held));
}

/// The library with a difference in one of its calls.
struct Planted(Fault, At);

impl Planted {
    /// What the library sees in the place of what a place holds.
    fn seen(&self, held: Held, tick: u16) -> Option<Held> {
        let renewed = Held { tick, ..held };
        match self.0 {
            Fault::Dropped3000 if age(held, tick) == 3_000 => None,
            Fault::Kept3001 if age(held, tick) == 3_001 => Some(renewed),
            Fault::KeptWithoutWrap if held.tick > tick => Some(renewed),
            Fault::DroppedWithoutWrap if held.tick > tick => None,
            Fault::DropAfterFrame => Some(renewed),
            _ => Some(held),
        }
    }

    /// Spoils the places after a call that was not refused.
    fn spoil(&self, before: &Places, after: &mut Places, tick: u16) {
        let was = |index| held(place(before, index));
        let due = |index| was(index).filter(|&held| is_due(held, tick));
        match self.0 {
            Fault::OnlyFirstDropped => {
                for index in (0..PLACES).filter(|&index| due(index).is_some()).skip(1) {
                    if held(place(after, index)).is_none() {
                        set_place(after, index, place(before, index));
                    }
                }
            }
            Fault::DroppedNotCleared => {
                for index in (0..PLACES).filter(|&index| due(index).is_some()) {
                    if held(place(after, index)).is_none() {
                        let mut bytes = place(before, index);
                        bytes[0] = 0;
                        set_place(after, index, bytes);
                    }
                }
            }
            _ => {}
        }
    }

    /// Spoils the places after a frame that was not refused, with the kind and the code of its
    /// answer.
    fn spoil_frame(
        &self,
        before: &Places,
        after: &mut Places,
        tick: u16,
        frame: &Incoming,
        answer: (u32, u16),
    ) {
        let source = (frame.header & 0xFFF) as u16;
        let is_first = frame.header >> 24 == 0x1B;
        match (self.0, answer) {
            (Fault::DropAfterFrame, _) => drop_due(after, tick),
            (Fault::IgnoredDropsNothing, (1, _)) => *after = *before,
            (Fault::IgnoredRenews, (1, _)) => each(after, |held| {
                let tick = if held.source == source {
                    tick
                } else {
                    held.tick
                };
                Some(Held { tick, ..held })
            }),
            (Fault::RefusedRenews, (3, 0x2000 | 0x2040)) | (Fault::NoRoomRenews, (3, 0x2020)) => {
                each(after, |held| Some(Held { tick, ..held }));
            }
            (Fault::MiddleDoesNotRenew, (2, _)) if !is_first => keep_ticks(before, after),
            (Fault::FirstAtTick0, (2, _)) if is_first => each(after, |held| {
                let tick = if held.source == source { 0 } else { held.tick };
                Some(Held { tick, ..held })
            }),
            (Fault::TickReversed, (2, _)) => each(after, |held| {
                let reversed = held.source == source;
                let tick = if reversed {
                    tick.swap_bytes()
                } else {
                    held.tick
                };
                Some(Held { tick, ..held })
            }),
            (Fault::UnusedByteKept, (2, _)) => {
                for index in 0..PLACES {
                    if held(place(after, index)).is_some_and(|held| held.source == source) {
                        let unused = PLACE_SIZE * index + 7;
                        after[unused] = before[unused];
                    }
                }
            }
            _ => {}
        }
    }
}

impl Handler for Planted {
    fn handle_frame(&self, board: &Board, lent: &mut Lent, tick: u16, frame: &Incoming) -> Numbers {
        if self.1 == At::Tick {
            return Library.handle_frame(board, lent, tick, frame);
        }
        if self.0 == Fault::DroppedBeforeTests {
            drop_due(lent.places.array_mut(), tick);
        }
        let before = *lent.places.array();
        let nobody = Incoming {
            header: 0,
            data: Vec::new(),
        };
        let tested = Library.handle_frame(board, &mut lent.clone(), tick, &nobody);
        if tested.kind == 0 {
            if self.0 == Fault::DroppedWhereRefused {
                drop_due(lent.places.array_mut(), tick);
            }
            return tested;
        }
        let mut seen = before;
        each(&mut seen, |held| self.seen(held, tick));
        *lent.places.array_mut() = seen;
        let numbers = Library.handle_frame(board, lent, tick, frame);
        let places: &mut Places = lent.places.array_mut();
        put_back(&before, &seen, places);
        self.spoil(&before, places, tick);
        self.spoil_frame(&before, places, tick, frame, (numbers.kind, numbers.code));
        if self.0 == Fault::DroppedPoolCleared {
            let pool: &mut Pool = lent.pool.array_mut();
            for index in 0..PLACES {
                let was = held(place(&before, index));
                if was.is_some_and(|held| is_due(held, tick)) {
                    pool[PLACE_BYTES * index..][..PLACE_BYTES].fill(0);
                }
            }
        }
        numbers
    }

    fn handle_tick(&self, places: &mut Places, tick: u16, result: &mut ResultBytes) -> Numbers {
        if self.1 == At::Frame {
            return Library.handle_tick(places, tick, result);
        }
        if self.0 == Fault::DroppedBeforeTests {
            drop_due(places, tick);
        }
        let before = *places;
        let mut numbers = Library.handle_tick(&mut { before }, tick, result);
        if numbers.kind == 0 {
            match self.0 {
                Fault::DroppedWhereRefused => drop_due(places, tick),
                Fault::WithoutB7 => (numbers.kind, numbers.error) = (2, 0),
                Fault::RefusedAtPosition0 => numbers.position = 0,
                _ => {}
            }
            return numbers;
        }
        let mut seen = before;
        each(&mut seen, |held| self.seen(held, tick));
        *places = seen;
        numbers = Library.handle_tick(places, tick, result);
        put_back(&before, &seen, places);
        self.spoil(&before, places, tick);
        match self.0 {
            Fault::DropsNothing => *places = before,
            Fault::Renews => each(places, |held| Some(Held { tick, ..held })),
            Fault::AsIgnored => numbers.kind = 1,
            Fault::WithFrames => numbers.frame_count = 1,
            Fault::Tidies => {
                for index in 0..PLACES {
                    let held = held(place(places, index));
                    set_place(places, index, canonical(held));
                }
            }
            _ => {}
        }
        numbers
    }
}

/// A board's half with a difference, and the library's for a tool.
struct WithTool<'h, H>(&'h H);

impl<H: Handler> Handler for WithTool<'_, H> {
    fn handle_frame(&self, board: &Board, lent: &mut Lent, tick: u16, frame: &Incoming) -> Numbers {
        self.0.handle_frame(board, lent, tick, frame)
    }

    fn handle_tick(&self, places: &mut Places, tick: u16, result: &mut ResultBytes) -> Numbers {
        self.0.handle_tick(places, tick, result)
    }

    fn handle_datagram(&self, board: &Board, lent: &mut Lent, datagram: &[u8]) -> Numbers {
        self.0.handle_datagram(board, lent, datagram)
    }

    fn next_line(
        &self,
        chunk: &[u8],
        from: usize,
        carry: &mut Carry,
        line: &mut LineBytes,
    ) -> usize {
        self.0.next_line(chunk, from, carry, line)
    }

    fn last_line(&self, carry: &mut Carry, line: &mut LineBytes) {
        self.0.last_line(carry, line);
    }
}

impl<H: Handler> Archive for WithTool<'_, H> {
    fn compose(&self, request: &Request, buffer: &mut Guarded) -> Composed {
        Library.compose(request, buffer)
    }

    fn read_received_ok(&self, content: &[u8]) -> Acknowledged {
        Library.read_received_ok(content)
    }

    fn read_rejected(&self, content: &[u8]) -> Rejection {
        Library.read_rejected(content)
    }

    fn read_reply(&self, datagram: &[u8]) -> Reply {
        Library.read_reply(datagram)
    }

    fn join(
        &self,
        alias: u16,
        pool: &mut Pool,
        places: &mut Places,
        header: u32,
        payload: &[u8],
    ) -> Joined {
        Library.join(alias, pool, places, header, payload)
    }

    fn put_together(&self, earlier: Pair, later: Pair) -> Pair {
        Library.put_together(earlier, later)
    }

    fn next_change(&self, before: &[u8], after: &[u8], from: usize, pairs: &mut Guarded) -> Change {
        Library.next_change(before, after, from, pairs)
    }
}

/// The worlds that are gone through until a difference is found, at most.
const WORLDS: u64 = 1_000;

/// The report on a difference, if it is found in so many worlds.
fn found(planted: &impl Handler, worlds: u64) -> Option<String> {
    let archive = WithTool(planted);
    let mut tally = Tally::default();
    for world in 0..worlds {
        let mut random = Random::new(world);
        let mut world = World::new(&mut random);
        while !world.is_over() {
            if let Err(report) = world.call(&archive, &mut random, &mut tally) {
                return Some(report);
            }
        }
    }
    None
}

#[test]
fn nothing_is_found_where_nothing_is_planted() {
    for at in [At::Frame, At::Tick] {
        assert_eq!(found(&Planted(Fault::None, at), 20), None);
    }
}

/// Asserts that a difference in this call is found, and that the report says that one of these
/// things is different.
fn assert_found(planted: &impl Handler, at: At, differences: &[&str], name: &str) {
    let report = found(planted, WORLDS).unwrap_or_default();
    let begins = match at {
        At::Frame => "call for a frame: ",
        At::Tick => "lone tick: ",
    };
    let line = report
        .lines()
        .next()
        .and_then(|line| line.strip_prefix(begins));
    assert!(
        line.is_some_and(|line| differences.contains(&line)),
        "{name}, {at:?}: {report:?}"
    );
}

#[test]
fn each_difference_is_found() {
    for (fault, at, differences) in FAULTS {
        assert_found(&Planted(fault, at), at, differences, &format!("{fault:?}"));
    }
}

#[test]
fn every_age_is_enough_to_find_some() {
    for fault in [
        Fault::Dropped3000,
        Fault::Kept3001,
        Fault::KeptWithoutWrap,
        Fault::DroppedWithoutWrap,
        Fault::DroppedNotCleared,
    ] {
        assert!(
            ages::every(&Planted(fault, At::Frame)).is_err(),
            "{fault:?}"
        );
        assert!(ages::every(&Planted(fault, At::Tick)).is_err(), "{fault:?}");
    }
    for (fault, at) in [
        (Fault::DroppedPoolCleared, At::Frame),
        (Fault::IgnoredDropsNothing, At::Frame),
        (Fault::IgnoredRenews, At::Frame),
        (Fault::DropsNothing, At::Tick),
        (Fault::Renews, At::Tick),
        (Fault::Tidies, At::Tick),
    ] {
        assert!(ages::every(&Planted(fault, at)).is_err(), "{fault:?}");
    }
}
