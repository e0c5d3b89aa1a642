//! Holds what change request C-14 says of ticks, by the bytes of the places alone and shared with
//! neither side: how old what a place holds is, and whether it is due. Also the time of a world,
//! which is the full count of ticks, and the counts of what is to be seen of times. A place whose
//! source is being swallowed (C-15) grows old like any other.

use crate::answer::Answer;
use crate::ffi::{Places, PLACES};
use crate::generate::Incoming;
use crate::layout::{held, place, Held};
use crate::random::Random;
use crate::tally::{Case, Tally};

/// The greatest age that stays.
pub const GREATEST_AGE: u16 = 3_000;
/// The most ticks between two calls that bring one and are not refused with an error of the caller.
pub const MOST_TICKS: u64 = 61_999;
/// After so many ticks the count of a driver is the same again.
pub const ROUND: u64 = 65_536;

/// How many ticks back the last accepted frame of what a place holds is.
#[must_use]
pub const fn age(held: Held, tick: u16) -> u16 {
    ((ROUND + tick as u64 - held.tick as u64) % ROUND) as u16
}

/// Whether what a place holds is to be dropped at this tick.
#[must_use]
pub const fn is_due(held: Held, tick: u16) -> bool {
    age(held, tick) > GREATEST_AGE
}

/// Whether anything in these places is to be dropped at this tick.
#[must_use]
pub fn any_due(places: &Places, tick: u16) -> bool {
    (0..PLACES).any(|index| held(place(places, index)).is_some_and(|held| is_due(held, tick)))
}

/// The time of a world. It never falls, and a refused call does not count as one that brings it.
#[derive(Clone, Copy, Debug)]
pub struct Clock {
    time: u64,
    /// The time of the last call that was not refused.
    last: u64,
    /// Whether one was refused since then.
    refused: bool,
    /// Once in so many times more than a few ticks pass.
    pace: usize,
}

impl Clock {
    /// A clock that has this time.
    #[must_use]
    pub const fn at(time: u64) -> Self {
        Self {
            time,
            last: time,
            refused: false,
            pace: 1,
        }
    }

    /// The clock of a world, fast or slow.
    pub fn new(random: &mut Random) -> Self {
        let pace = random.pick(&[1, 4, 20, 60, 200, 400]);
        Self::paced(start(random), pace)
    }

    /// A clock that has this time, and lets more than a few ticks pass once in so many times.
    #[must_use]
    pub const fn paced(time: u64, pace: usize) -> Self {
        Self {
            pace,
            ..Self::at(time)
        }
    }

    /// The same clock a round of the count later: of all earlier ticks there is one before it.
    #[must_use]
    pub const fn a_round_later(&self) -> Self {
        Self::paced(self.time + ROUND, self.pace)
    }

    /// The full time.
    #[must_use]
    pub const fn time(&self) -> u64 {
        self.time
    }

    /// What a driver's count says at this time.
    #[must_use]
    pub const fn tick(&self) -> u16 {
        self.time as u16
    }

    /// How many ticks ago the last call was that was not refused.
    #[must_use]
    pub const fn since(&self) -> u64 {
        self.time - self.last
    }

    /// Notes that a call has brought this time, and whether it was refused.
    pub const fn brought(&mut self, refused: bool) {
        if !refused {
            self.last = self.time;
        }
        self.refused = refused;
    }

    /// Lets ticks pass, at most so many and no more than there may be before the next call: few, or
    /// so many that the count goes round or that the age of something in these places comes to an
    /// edge.
    pub fn pass(&mut self, random: &mut Random, places: &Places, most: u64) {
        let ticks = if random.once_in(self.pace) {
            self.ticks_to_an_edge(random, places)
        } else {
            random.pick(&[0, 0, 0, 1, 1, 2, 7, 40])
        };
        self.time += ticks.min(most).min(MOST_TICKS - self.since());
    }

    fn ticks_to_an_edge(&self, random: &mut Random, places: &Places) -> u64 {
        let left_of_round = ROUND - self.time % ROUND;
        match random.below(12) {
            0..=4 => {
                let edge: u64 = random.pick(&[2_999, 3_000, 3_000, 3_001, 3_001, 3_002]);
                let first = random.below(PLACES);
                let age = (first..first + PLACES)
                    .find_map(|index| held(place(places, index % PLACES)))
                    .map_or(0, |held| age(held, self.tick()));
                edge.saturating_sub(u64::from(age))
            }
            5 | 6 => random.pick(&[0, 1, 2_999, 3_000, 3_001, 6_000, 6_001]),
            7 => MOST_TICKS,
            // To the last tick of the round, to 0 or to 1.
            8 => left_of_round - 1 + random.below(3) as u64,
            // So that what is accepted then can be kept into the next round.
            9 => left_of_round.saturating_sub(random.below(3_002) as u64),
            10 => random.below(3_001) as u64,
            _ => random.below(62_000) as u64,
        }
    }
}

/// A time to begin at: of an early round or a late one, also around the end of 32 bits, and often
/// near an end of its round.
pub fn start(random: &mut Random) -> u64 {
    let round = match random.below(4) {
        0 => 0,
        1 => random.below(4) as u64,
        2 => random.pick(&[0xFFFF, 0x1_0000]),
        _ => random.number() >> 17,
    };
    let within = match random.below(4) {
        0 => random.below(4_000),
        1 => ROUND as usize - 1 - random.below(4_000),
        2 => random.pick(&[0, 1, 2_999, 3_000, 3_001, 32_768, 62_535, 62_536, 65_535]),
        _ => random.below(ROUND as usize),
    };
    ROUND * round + within as u64
}

/// An age, often next to an edge, and at most this one.
pub fn any_age(random: &mut Random, oldest: u16) -> u16 {
    let age = match random.below(4) {
        0 => random.pick(&[
            0, 1, 2_999, 3_000, 3_001, 3_002, 32_767, 32_768, 61_999, 62_000, 64_999, 65_535,
        ]),
        1 => random.below(3_100) as u16,
        2 => u16::MAX - random.below(3_100) as u16,
        _ => random.half(),
    };
    age.min(oldest)
}

/// Counts what is to be seen of times in a call on places that have no past: with ages that no call
/// of a good driver finds.
pub fn count_old(call: &Call, tally: &mut Tally) {
    let ages: Vec<u16> = (0..PLACES)
        .filter_map(|index| held(place(call.before, index)))
        .map(|held| age(held, call.clock.tick()))
        .collect();
    let due = ages.iter().filter(|&&age| age > GREATEST_AGE).count();
    for (is, case) in [
        (call.frame.is_none(), Case::OldTick),
        (call.frame.is_some(), Case::OldFrame),
        (due != ages.len(), Case::OldKept),
        (due != 0, Case::OldDropped),
        (due == PLACES, Case::OldEight),
        (ages.iter().any(|&age| age >= 65_000), Case::Old65000),
        (ages.contains(&u16::MAX), Case::OldMost),
    ] {
        tally.count_if(is, case);
    }
}

/// Counts what is to be seen of the first call of a world that begins with such places.
pub fn count_start(call: &Call, tally: &mut Tally) {
    let tick = call.clock.tick();
    let all: Vec<Held> = (0..PLACES)
        .filter_map(|index| held(place(call.before, index)))
        .collect();
    let is_earlier = |held: &Held| held.tick > tick;
    let eight = all.len() == PLACES && all.iter().all(|&held| is_due(held, tick));
    let swallowed = all.iter().filter(|held| held.swallowing).count();
    let is_first = call.frame.is_some_and(|frame| frame.header >> 24 == 0x1B);
    let ninth = is_first
        && call.answer == Answer::Nothing
        && !all.iter().any(|held| call.is_of(held.source));
    let at = match (call.frame, call.answer) {
        (None, _) => Case::StartEightByTick,
        (Some(_), Answer::Ignored) => Case::StartEightByIgnored,
        (Some(_), _) => Case::StartEightByFrame,
    };
    let sort = match swallowed {
        0 => Case::StartEightDatagrams,
        PLACES => Case::StartEightSwallowed,
        _ => Case::StartEightMixed,
    };
    let earlier: Vec<Held> = all.iter().copied().filter(is_earlier).collect();
    let kept = |held: &&Held| !is_due(**held, tick);
    for (is, case) in [
        (eight, at),
        (eight, sort),
        (eight && earlier.len() == PLACES, Case::StartEightEarlier),
        (eight && ninth, Case::StartNinth),
        (
            earlier.iter().any(|held| kept(&held)),
            Case::StartEarlierKept,
        ),
        (
            earlier.iter().any(|held| !kept(&held)),
            Case::StartEarlierDropped,
        ),
        (
            earlier.iter().filter(kept).any(|held| held.swallowing),
            Case::StartEarlierSwallowed,
        ),
    ] {
        tally.count_if(is, case);
    }
}

/// What is known of what a place is held for beside the place itself.
#[derive(Clone, Copy, Debug, Default)]
struct Past {
    /// When its First came, if that was seen.
    opened: Option<u64>,
    /// When the refusal came since which its source is being swallowed, if that was seen.
    broken: Option<u64>,
    /// When a frame of its source was ignored, if one was since its last accepted one.
    ignored: Option<u64>,
    /// When a frame of another source got a transport refusal, if one did since then.
    refused: Option<u64>,
}

/// The past of all places.
#[derive(Clone, Copy, Debug, Default)]
pub struct Pasts([Past; PLACES]);

/// A call that brought a tick and was not refused with an error of the caller.
#[derive(Clone, Copy, Debug)]
pub struct Call<'c> {
    /// The clock at the call.
    pub clock: Clock,
    /// The places before it.
    pub before: &'c Places,
    /// The places after it.
    pub after: &'c Places,
    /// Its answer.
    pub answer: Answer,
    /// The frame, if the tick did not come alone.
    pub frame: Option<&'c Incoming>,
}

/// The cases of how a tick came: with a frame that is not ignored, with one that is, alone.
struct Cases {
    dropped: Case,
    kept_3000: Case,
    dropped_3001: Case,
    /// A place whose source is being swallowed was dropped.
    swallowed: Case,
}

impl Call<'_> {
    const fn cases(&self) -> Cases {
        match (self.frame, self.answer) {
            (None, _) => Cases {
                dropped: Case::DroppedByTick,
                kept_3000: Case::Kept3000ByTick,
                dropped_3001: Case::Dropped3001ByTick,
                swallowed: Case::SwallowedDroppedByTick,
            },
            (Some(_), Answer::Ignored) => Cases {
                dropped: Case::DroppedByIgnored,
                kept_3000: Case::Kept3000ByIgnored,
                dropped_3001: Case::Dropped3001ByIgnored,
                swallowed: Case::SwallowedDroppedByIgnored,
            },
            (Some(_), _) => Cases {
                dropped: Case::DroppedByFrame,
                kept_3000: Case::Kept3000ByFrame,
                dropped_3001: Case::Dropped3001ByFrame,
                swallowed: Case::SwallowedDroppedByFrame,
            },
        }
    }

    /// Whether there is a frame and its source is this one, whatever else its header says.
    #[must_use]
    pub fn is_of(&self, source: u16) -> bool {
        self.frame
            .is_some_and(|frame| frame.header & 0xFFF == u32::from(source))
    }

    /// Whether something is known to have been, and not so long ago that it would be dropped.
    fn is_recent(&self, since: Option<u64>) -> bool {
        since.is_some_and(|since| self.clock.time() - since <= u64::from(GREATEST_AGE))
    }

    /// Whether something is known to have been so long ago that it would be dropped.
    fn is_old(&self, since: Option<u64>) -> bool {
        since.is_some() && !self.is_recent(since)
    }

    /// Whether the time is one that 32 bits do not hold.
    const fn is_late(&self) -> bool {
        self.clock.time() > u32::MAX as u64
    }

    /// Counts what is to be seen of a place that stays.
    fn count_kept(&self, held: Held, past: &Past, tally: &mut Tally) {
        let (tick, swallowed) = (self.clock.tick(), held.swallowing);
        let edge = age(held, tick) == 3_000;
        for (is, case) in [
            (edge, self.cases().kept_3000),
            (held.tick > tick, Case::RoundKept),
            (self.is_late(), Case::LateKept),
            (self.is_old(past.opened), Case::Renewed),
            (edge && swallowed, Case::SwallowedKept3000),
            (self.is_old(past.broken), Case::SwallowedRenewed),
        ] {
            tally.count_if(is, case);
        }
    }

    /// Counts what is to be seen of a place that is dropped.
    fn count_dropped(&self, held: Held, past: &Past, tally: &mut Tally) {
        let (tick, swallowed) = (self.clock.tick(), held.swallowing);
        let edge = age(held, tick) == 3_001;
        let cases = self.cases();
        for (is, case) in [
            (true, cases.dropped),
            (edge, cases.dropped_3001),
            (held.tick > tick, Case::RoundDropped),
            (self.is_late(), Case::LateDropped),
            (self.is_recent(past.ignored), Case::IgnoredSince),
            (self.is_recent(past.refused), Case::RefusedSince),
            (swallowed, cases.swallowed),
            (edge && swallowed, Case::SwallowedDropped3001),
            (self.is_recent(past.broken), Case::BrokenSince),
        ] {
            tally.count_if(is, case);
        }
    }
}

impl Pasts {
    /// Counts what is to be seen of times in a call, and notes what is to be known of it later.
    pub fn count(&mut self, call: &Call, tally: &mut Tally) {
        let tick = call.clock.tick();
        let (mut kept, mut dropped) = (0, 0);
        let (mut at_3000, mut at_3001) = (false, false);
        let (mut own_kept, mut own_dropped) = (false, false);
        for (index, past) in self.0.iter().enumerate() {
            let Some(held) = held(place(call.before, index)) else {
                continue;
            };
            if is_due(held, tick) {
                dropped += 1;
                at_3001 |= age(held, tick) == 3_001;
                own_dropped |= call.is_of(held.source);
                call.count_dropped(held, past, tally);
            } else {
                kept += 1;
                at_3000 |= age(held, tick) == 3_000;
                own_kept |= call.is_of(held.source);
                call.count_kept(held, past, tally);
            }
        }
        for (is, case) in [
            (call.clock.since() == MOST_TICKS, Case::LongestGap),
            (call.clock.refused, Case::RefusedBetween),
            (dropped == PLACES, Case::EightDropped),
            (dropped != 0 && kept != 0, Case::DroppedBeside),
            (at_3000 && at_3001, Case::BothEdges),
        ] {
            tally.count_if(is, case);
        }
        let full = dropped != 0 && kept + dropped == PLACES && !own_kept;
        count_frame(call, own_dropped, full, tally);
        self.note(call);
    }

    /// Notes what is to be known later of what the places hold.
    fn note(&mut self, call: &Call) {
        let time = call.clock.time();
        for (index, past) in self.0.iter_mut().enumerate() {
            let was = held(place(call.before, index));
            let Some(is) = held(place(call.after, index)) else {
                *past = Past::default();
                continue;
            };
            if was == Some(is) {
                match call.answer {
                    Answer::Ignored if call.is_of(is.source) => past.ignored = Some(time),
                    Answer::TransportRefusal(_) => past.refused = Some(time),
                    _ => {}
                }
                continue;
            }
            let was = was.filter(|&was| !is_due(was, call.clock.tick()));
            past.note_change(was.map(|was| was.swallowing), is.swallowing, time);
        }
    }
}

impl Past {
    /// Notes that a frame has changed what a place is held for, of which it is told whether the
    /// source is being swallowed: before, if the place was held and not dropped, and afterwards.
    const fn note_change(&mut self, was: Option<bool>, is: bool, time: u64) {
        let accepted = Self {
            ignored: None,
            refused: None,
            ..*self
        };
        *self = match (was, is) {
            // A refused frame, which is no accepted one.
            (Some(false), true) => Self {
                broken: Some(time),
                ..*self
            },
            // A Middle, joined or swallowed.
            (Some(false), false) | (Some(true), true) => accepted,
            // A First.
            _ => Self {
                opened: Some(time),
                broken: None,
                ..accepted
            },
        };
    }
}

/// Counts what is to be seen of a frame before which the place of its own source was dropped, or
/// one of eight, of which none was its own and stayed.
fn count_frame(call: &Call, own_dropped: bool, full: bool, tally: &mut Tally) {
    let kind = call.frame.map_or(0, |frame| frame.header >> 24);
    let (joined, stray) = (
        call.answer == Answer::Nothing,
        call.answer == Answer::TransportRefusal(0x2040),
    );
    for (is, case) in [
        (
            own_dropped && kind == 0x1A && call.answer.is_of_datagram(),
            Case::SingleAfterDrop,
        ),
        (own_dropped && kind == 0x1B && joined, Case::FirstAfterDrop),
        (own_dropped && kind == 0x1C && stray, Case::MiddleAfterDrop),
        (own_dropped && kind == 0x1D && stray, Case::LastAfterDrop),
        (full && kind == 0x1B && joined, Case::RoomAfterDrop),
    ] {
        tally.count_if(is, case);
    }
}

#[cfg(test)]
mod tests {
    use super::*;
    use crate::ffi::PLACES_SIZE;
    use crate::layout::{canonical, set_place};

    const fn of(tick: u16) -> Held {
        Held {
            len: 0,
            source: 1,
            tick,
            swallowing: false,
        }
    }

    #[test]
    fn exactly_3000_stays() {
        for tick in [0, 1, 2_999, 3_000, 3_001, 32_768, 62_535, 65_535] {
            for ticks in 0..=u16::MAX {
                let held = of(tick);
                let now = (u64::from(tick) + u64::from(ticks)) % ROUND;
                assert_eq!(age(held, now as u16), ticks);
                assert_eq!(is_due(held, now as u16), ticks > 3_000);
            }
        }
        let mut places = [0; PLACES_SIZE];
        assert!(!any_due(&places, 40_000));
        set_place(&mut places, 7, canonical(Some(of(65_535))));
        assert!(!any_due(&places, 2_999));
        assert!(any_due(&places, 3_000));
        // A place that is free is not due, whatever its bytes are.
        places[56] = 0;
        assert!(!any_due(&places, 3_000));
    }

    /// In the place of a length: the source is being swallowed.
    const SWALLOWED: u8 = 255;

    /// Places whose first ones are held for sources 1, 2 and so on, with these lengths and ticks.
    fn places(what: &[(u8, u16)]) -> Places {
        let mut places = [0; PLACES_SIZE];
        for (index, &(len, tick)) in what.iter().enumerate() {
            let held = Held {
                len,
                source: index as u16 + 1,
                tick,
                swallowing: len == SWALLOWED,
            };
            set_place(&mut places, index, canonical(Some(held)));
        }
        places
    }

    /// A history: the places as the calls leave them, and what is counted at each.
    struct History {
        clock: Clock,
        now: Places,
        pasts: Pasts,
    }

    impl History {
        fn new() -> Self {
            Self {
                clock: Clock::at(0),
                now: [0; PLACES_SIZE],
                pasts: Pasts::default(),
            }
        }

        /// What is counted at this time, with this header or none, where these are held afterwards.
        fn at(
            &mut self,
            time: u64,
            header: Option<u32>,
            answer: Answer,
            what: &[(u8, u16)],
        ) -> Vec<Case> {
            self.clock.time = time;
            let after = places(what);
            let frame = header.map(|header| Incoming {
                header,
                data: vec![0],
            });
            let call = Call {
                clock: self.clock,
                before: &self.now,
                after: &after,
                answer,
                frame: frame.as_ref(),
            };
            let mut tally = Tally::default();
            self.pasts.count(&call, &mut tally);
            self.clock.brought(false);
            self.now = after;
            Case::of_times()
                .filter(|&case| tally.counted(case) != 0)
                .collect()
        }
    }

    #[test]
    fn what_is_to_be_seen_of_times() {
        let mut history = History::new();
        let mut at = |time, header, answer, what: &[_]| history.at(time, header, answer, what);
        let (joined, refused) = (Answer::Nothing, Answer::TransportRefusal(0x2040));
        let [first, middle] = [0x1B22_B001, 0x1C22_B001].map(Some);
        let round = 65_536;
        assert_eq!(at(65_000, first, joined, &[(1, 65_000)]), []);
        // Another is refused, one's own is ignored: the tick stays.
        assert_eq!(
            at(65_001, middle.map(|m| m + 1), refused, &[(1, 65_000)]),
            []
        );
        let ignored = middle.map(|middle| middle ^ 0x1000);
        let seen = at(65_002, ignored, Answer::Ignored, &[(1, 65_000)]);
        assert_eq!(seen, []);
        let seen = at(68_000, None, joined, &[(1, 65_000)]);
        assert_eq!(seen, [Case::Kept3000ByTick, Case::RoundKept]);
        let seen = at(68_001, None, joined, &[]);
        let expected = [
            Case::DroppedByTick,
            Case::Dropped3001ByTick,
            Case::RoundDropped,
            Case::IgnoredSince,
            Case::RefusedSince,
        ];
        assert_eq!(seen, expected);
        // A Middle renews, and what came before it does not count.
        let start = round + 10_000;
        assert_eq!(at(start, first, joined, &[(1, 10_000)]), []);
        assert_eq!(at(start + 1, ignored, Answer::Ignored, &[(1, 10_000)]), []);
        assert_eq!(at(start + 2_000, middle, joined, &[(2, 12_000)]), []);
        let seen = at(start + 3_001, None, joined, &[(2, 12_000)]);
        assert_eq!(seen, [Case::Renewed]);
        // A First after the drop opens it anew.
        let seen = at(start + 5_001, first, joined, &[(2, 15_001)]);
        let expected = [
            Case::DroppedByFrame,
            Case::Dropped3001ByFrame,
            Case::FirstAfterDrop,
        ];
        assert_eq!(seen, expected);
        assert_eq!(
            at(start + 8_001, None, joined, &[(2, 15_001)]),
            [Case::Kept3000ByTick]
        );
        let seen = at(start + 70_000, middle, refused, &[]);
        let expected = [
            Case::DroppedByFrame,
            Case::RoundDropped,
            Case::MiddleAfterDrop,
            Case::LongestGap,
        ];
        assert_eq!(seen, expected);
    }

    #[test]
    fn what_is_to_be_seen_of_times_while_a_source_is_swallowed() {
        let mut history = History::new();
        let mut at = |time, header, answer, what: &[_]| history.at(time, header, answer, what);
        let (joined, refused) = (Answer::Nothing, Answer::TransportRefusal(0x2040));
        let [first, middle] = [0x1B22_B001, 0x1C22_B001].map(Some);
        // The refusal does not renew: the tick is that of the First.
        assert_eq!(at(100, first, joined, &[(1, 100)]), []);
        assert_eq!(at(2_000, first, refused, &[(SWALLOWED, 100)]), []);
        let seen = at(3_100, None, joined, &[(SWALLOWED, 100)]);
        assert_eq!(seen, [Case::Kept3000ByTick, Case::SwallowedKept3000]);
        let seen = at(3_101, None, joined, &[]);
        let expected = [
            Case::DroppedByTick,
            Case::Dropped3001ByTick,
            Case::SwallowedDroppedByTick,
            Case::SwallowedDropped3001,
            Case::BrokenSince,
        ];
        assert_eq!(seen, expected);
        // A Middle that is swallowed does.
        assert_eq!(at(10_000, first, joined, &[(1, 10_000)]), []);
        assert_eq!(at(10_001, middle, refused, &[(SWALLOWED, 10_000)]), []);
        assert_eq!(at(12_999, middle, joined, &[(SWALLOWED, 12_999)]), []);
        let seen = at(13_002, None, joined, &[(SWALLOWED, 12_999)]);
        assert_eq!(seen, [Case::Renewed, Case::SwallowedRenewed]);
        // A First opens a datagram anew.
        let seen = at(13_003, first, joined, &[(1, 13_003)]);
        assert_eq!(seen, [Case::Renewed, Case::SwallowedRenewed]);
        assert_eq!(
            at(16_003, None, joined, &[(1, 13_003)]),
            [Case::Kept3000ByTick]
        );
        let ignored = Answer::Ignored;
        let seen = at(20_000, middle.map(|header| header ^ 0x1000), ignored, &[]);
        assert_eq!(seen, [Case::DroppedByIgnored]);
    }

    /// What is counted of a world that begins with these places, at this time and with this frame.
    fn start_with(what: &[(u8, u16)], time: u64, header: Option<u32>, answer: Answer) -> Vec<Case> {
        let before = places(what);
        let frame = header.map(|header| Incoming {
            header,
            data: vec![0],
        });
        let call = Call {
            clock: Clock::at(time),
            before: &before,
            after: &before,
            answer,
            frame: frame.as_ref(),
        };
        let mut tally = Tally::default();
        count_start(&call, &mut tally);
        Case::of_times()
            .filter(|&case| tally.counted(case) != 0)
            .collect()
    }

    #[test]
    fn what_is_to_be_seen_of_the_start_of_a_world() {
        let joined = Answer::Nothing;
        assert_eq!(start_with(&[], 70_000, None, joined), []);
        // 4,464 is the tick: 1,464 is 3,000 back, and 1,463 too old.
        let mut what = [(1, 1_463); PLACES];
        let seen = start_with(&what, 70_000, None, joined);
        assert_eq!(seen, [Case::StartEightByTick, Case::StartEightDatagrams]);
        let ninth = Some(0x1B22_B009);
        let seen = start_with(&what, 70_000, ninth, joined);
        let by_frame = [Case::StartEightByFrame, Case::StartEightDatagrams];
        assert_eq!(seen[..2], by_frame);
        assert_eq!(seen[2..], [Case::StartNinth]);
        let own = start_with(&what, 70_000, Some(0x1B22_B008), joined);
        assert_eq!(own, by_frame);
        what[3] = (1, 1_464);
        assert_eq!(start_with(&what, 70_000, None, joined), []);
        what[3] = (SWALLOWED, 1_463);
        let seen = start_with(&what, 70_000, Some(0x1C30_0001), Answer::Ignored);
        assert_eq!(seen, [Case::StartEightByIgnored, Case::StartEightMixed]);
        let seen = start_with(&[(SWALLOWED, 60_000); PLACES], 70_000, None, joined);
        let expected = [
            Case::StartEightByTick,
            Case::StartEightSwallowed,
            Case::StartEightEarlier,
            Case::StartEarlierDropped,
        ];
        assert_eq!(seen, expected);
        let seen = start_with(&[(1, 65_535)], 65_536, None, joined);
        assert_eq!(seen, [Case::StartEarlierKept]);
        let seen = start_with(&[(SWALLOWED, 65_535)], 65_536 + 2_999, None, joined);
        let expected = [Case::StartEarlierKept, Case::StartEarlierSwallowed];
        assert_eq!(seen, expected);
    }

    #[test]
    fn no_gap_is_too_long() {
        let mut random = Random::new(14);
        let (mut longest, mut rounds) = (0, 0);
        for _ in 0..200 {
            let mut clock = Clock::new(&mut random);
            let places = [0; PLACES_SIZE];
            for _ in 0..200 {
                let before = clock;
                clock.pass(&mut random, &places, u64::MAX);
                assert!(clock.time() >= before.time());
                assert!(clock.since() <= MOST_TICKS);
                longest += usize::from(clock.since() == MOST_TICKS);
                rounds += usize::from(clock.time() / ROUND != before.time() / ROUND);
                // A call that is refused does not count.
                let (refused, since) = (random.once_in(3), clock.since());
                clock.brought(refused);
                assert_eq!(clock.since(), if refused { since } else { 0 });
                let before = clock;
                clock.pass(&mut random, &places, 3_000);
                assert!(clock.time() - before.time() <= 3_000);
            }
        }
        assert!(longest > 100 && rounds > 100, "{longest}, {rounds}");
    }
}
