//! Holds what document 01 and change request C-15 say comes of a frame that is not ignored, by the
//! bytes of the places alone and shared with neither side: the sort of its answer, and what is kept
//! for its source afterwards. Also the counts of how often each rule came.

use crate::answer::Answer;
use crate::ffi::{Places, PLACES, PLACE_BYTES, PLACE_SIZE};
use crate::layout::{canonical, held, place, Held};
use crate::setup::same;
use crate::tally::{Case, Tally};
use crate::times::{is_due, Call};

/// The kinds of datagram frames, as they stand in a header.
pub const SINGLE: u32 = 0x1A;
/// The first of several.
pub const FIRST: u32 = 0x1B;
/// Any between the first and the last.
pub const MIDDLE: u32 = 0x1C;
/// The last of several.
pub const LAST: u32 = 0x1D;

/// What is kept for a source.
#[derive(Clone, Copy, Debug, PartialEq, Eq)]
enum Kept {
    Nothing,
    /// A datagram of which so many bytes have come.
    Begun(usize),
    /// Only that it is being swallowed.
    Swallowed,
}

impl Kept {
    const fn of(held: Held) -> Self {
        if held.swallowing {
            Self::Swallowed
        } else {
            Self::Begun(held.len as usize)
        }
    }

    /// For this source, in places of which nothing is due.
    fn in_places(places: &Places, source: u16) -> Self {
        (0..PLACES)
            .filter_map(|index| held(place(places, index)))
            .find(|held| held.source == source)
            .map_or(Self::Nothing, Self::of)
    }
}

/// The sort of an answer.
#[derive(Clone, Copy, Debug, PartialEq, Eq)]
enum Said {
    Nothing,
    /// A datagram is finished and handled.
    Handled,
    Refused(u16),
}

impl Said {
    fn is(self, answer: Answer) -> bool {
        match self {
            Self::Nothing => answer == Answer::Nothing,
            Self::Handled => answer.is_of_datagram(),
            Self::Refused(code) => answer == Answer::TransportRefusal(code),
        }
    }
}

const OUT_OF_ORDER: Said = Said::Refused(0x2040);
const TOO_LONG: Said = Said::Refused(0x2000);
const NO_ROOM: Said = Said::Refused(0x2020);

/// What comes of a frame of this kind with so many bytes, by what is kept for its source and by
/// whether all eight places are taken: the answer, what is kept afterwards, and the rule's case.
const fn rule(kept: Kept, kind: u32, len: usize, full: bool) -> (Said, Kept, Case) {
    use Kept::{Begun, Nothing, Swallowed};
    match (kept, kind) {
        (Nothing, SINGLE) => (Said::Handled, Nothing, Case::SingleAlone),
        (Nothing, FIRST) if full => (NO_ROOM, Nothing, Case::FirstWithoutRoom),
        (Nothing, FIRST) => (Said::Nothing, Begun(len), Case::FirstOpens),
        (Nothing, MIDDLE) => (OUT_OF_ORDER, Nothing, Case::StrayMiddle),
        (Nothing, _) => (OUT_OF_ORDER, Nothing, Case::StrayLast),
        (Begun(_), SINGLE) => (OUT_OF_ORDER, Swallowed, Case::BrokenBySingle),
        (Begun(_), FIRST) => (OUT_OF_ORDER, Swallowed, Case::BrokenByFirst),
        (Begun(_), MIDDLE) if len == 0 => (OUT_OF_ORDER, Swallowed, Case::BrokenByEmptyMiddle),
        (Begun(had), MIDDLE) if had + len > PLACE_BYTES => {
            (TOO_LONG, Swallowed, Case::BrokenByLongMiddle)
        }
        (Begun(had), MIDDLE) => (Said::Nothing, Begun(had + len), Case::MiddleAppends),
        (Begun(had), _) if had + len > PLACE_BYTES => (TOO_LONG, Nothing, Case::LastTooLong),
        (Begun(_), _) => (Said::Handled, Nothing, Case::LastFinishes),
        (Swallowed, SINGLE) => (Said::Handled, Nothing, Case::SingleAfterBroken),
        (Swallowed, FIRST) => (Said::Nothing, Begun(len), Case::FirstAfterBroken),
        (Swallowed, MIDDLE) if len == 0 => (Said::Nothing, Swallowed, Case::EmptyMiddleSwallowed),
        (Swallowed, MIDDLE) => (Said::Nothing, Swallowed, Case::MiddleSwallowed),
        (Swallowed, _) => (Said::Nothing, Nothing, Case::LastSwallowed),
    }
}

/// The places before a frame, but for what its tick drops.
struct Before {
    /// How many are taken.
    taken: usize,
    /// Whether one of them is of a source that is being swallowed.
    any_swallowed: bool,
    /// What is kept for the frame's own source.
    own: Kept,
    /// The bytes of the place for that, and its index.
    own_place: Option<([u8; PLACE_SIZE], usize)>,
}

impl Before {
    fn of(call: &Call) -> Self {
        let mut before = Self {
            taken: 0,
            any_swallowed: false,
            own: Kept::Nothing,
            own_place: None,
        };
        for index in 0..PLACES {
            let bytes = place(call.before, index);
            let Some(held) = held(bytes).filter(|&held| !is_due(held, call.clock.tick())) else {
                continue;
            };
            before.taken += 1;
            before.any_swallowed |= held.swallowing;
            if call.is_of(held.source) {
                before.own = Kept::of(held);
                before.own_place = Some((bytes, index));
            }
        }
        before
    }

    /// Whether the frame has left its own place as it was, with bytes that the library would not
    /// write.
    fn is_kept_odd(&self, after: &Places) -> bool {
        self.own_place.is_some_and(|(bytes, index)| {
            place(after, index) == bytes && bytes != canonical(held(bytes))
        })
    }
}

/// Tests of the library alone that a frame is answered as its rule says, and that this is kept for
/// its source, whatever the model does; and counts the rule. A call that brings no frame, or one
/// that is ignored, has none.
pub fn check(call: &Call, tally: &mut Tally) -> Result<(), &'static str> {
    let Some(frame) = call.frame.filter(|_| call.answer != Answer::Ignored) else {
        return Ok(());
    };
    let before = Before::of(call);
    let full = before.taken == PLACES;
    let source = (frame.header & 0xFFF) as u16;
    let (said, kept, case) = rule(before.own, frame.header >> 24, frame.data.len(), full);
    same(
        said.is(call.answer),
        "the answer is not that of the rule for the frame",
    )?;
    same(
        Kept::in_places(call.after, source) == kept,
        "what is kept for the source is not what the rule says",
    )?;
    tally.count(case);
    let swallowed = before.own == Kept::Swallowed && kept == Kept::Swallowed;
    for (is, case) in [
        (
            case == Case::FirstAfterBroken && full,
            Case::FirstAfterBrokenFull,
        ),
        (
            case == Case::FirstWithoutRoom && before.any_swallowed,
            Case::NoRoomBesideSwallowed,
        ),
        (
            swallowed && before.is_kept_odd(call.after),
            Case::SwallowedInPlace,
        ),
    ] {
        tally.count_if(is, case);
    }
    Ok(())
}

#[cfg(test)]
mod tests {
    use super::*;
    use crate::ffi::PLACES_SIZE;
    use crate::generate::Incoming;
    use crate::layout::set_place;
    use crate::times::Clock;

    #[test]
    fn one_rejection_for_one_broken_datagram() {
        use Kept::{Begun, Nothing, Swallowed};
        // What breaks a datagram: the answer, and what is kept then.
        for (had, kind, len, said, kept) in [
            (0, SINGLE, 8, OUT_OF_ORDER, Swallowed),
            (72, FIRST, 0, OUT_OF_ORDER, Swallowed),
            (72, MIDDLE, 0, OUT_OF_ORDER, Swallowed),
            (65, MIDDLE, 8, TOO_LONG, Swallowed),
            (72, MIDDLE, 1, TOO_LONG, Swallowed),
            (72, LAST, 1, TOO_LONG, Nothing),
            (64, MIDDLE, 8, Said::Nothing, Begun(72)),
            (64, LAST, 8, Said::Handled, Nothing),
            (72, LAST, 0, Said::Handled, Nothing),
        ] {
            for full in [false, true] {
                let (answer, after, _) = rule(Begun(had), kind, len, full);
                assert_eq!((answer, after), (said, kept), "{had}, {kind:X}, {len}");
            }
        }
        // What comes then, whether or not there is room; and with nothing kept.
        for (kind, len, after_broken, alone) in [
            (
                SINGLE,
                0,
                (Said::Handled, Nothing),
                (Said::Handled, Nothing),
            ),
            (FIRST, 3, (Said::Nothing, Begun(3)), (NO_ROOM, Nothing)),
            (
                MIDDLE,
                0,
                (Said::Nothing, Swallowed),
                (OUT_OF_ORDER, Nothing),
            ),
            (
                MIDDLE,
                8,
                (Said::Nothing, Swallowed),
                (OUT_OF_ORDER, Nothing),
            ),
            (LAST, 0, (Said::Nothing, Nothing), (OUT_OF_ORDER, Nothing)),
            (LAST, 8, (Said::Nothing, Nothing), (OUT_OF_ORDER, Nothing)),
        ] {
            for full in [false, true] {
                let (said, kept, _) = rule(Swallowed, kind, len, full);
                assert_eq!((said, kept), after_broken, "{kind:X}, {len}");
            }
            let (said, kept, _) = rule(Nothing, kind, len, true);
            assert_eq!((said, kept), alone, "{kind:X}, {len}");
        }
        let (said, kept, _) = rule(Nothing, FIRST, 0, false);
        assert_eq!((said, kept), (Said::Nothing, Begun(0)));
    }

    /// What is said of a Middle of source 5, with these places before and after it.
    fn middle(before: &Places, after: &Places, answer: Answer) -> Result<Vec<Case>, &'static str> {
        let frame = Incoming {
            header: 0x1C22_B005,
            data: Vec::new(),
        };
        let call = Call {
            clock: Clock::at(40),
            before,
            after,
            answer,
            frame: Some(&frame),
        };
        let mut tally = Tally::default();
        check(&call, &mut tally)?;
        let cases = [Case::EmptyMiddleSwallowed, Case::SwallowedInPlace];
        let cases = cases.into_iter().filter(|&case| tally.counted(case) != 0);
        Ok(cases.collect())
    }

    #[test]
    fn what_is_said_of_a_call() {
        let mut places = [0; PLACES_SIZE];
        set_place(&mut places, 3, [2, 0, 5, 0, 40, 0, 9, 9]);
        set_place(&mut places, 4, [1, 0, 6, 0, 40, 0, 0, 0]);
        let cases = middle(&places, &places, Answer::Nothing);
        let in_place = vec![Case::EmptyMiddleSwallowed, Case::SwallowedInPlace];
        assert_eq!(cases, Ok(in_place));
        let mut later = places;
        set_place(&mut later, 3, [1, 0, 5, 0, 40, 0, 1, 0]);
        let cases = middle(&places, &later, Answer::Nothing);
        assert_eq!(cases, Ok(vec![Case::EmptyMiddleSwallowed]));
        let refused = Answer::TransportRefusal(0x2040);
        assert!(middle(&places, &later, refused).is_err());
        later[24] = 0;
        assert!(middle(&places, &later, Answer::Nothing).is_err());
        assert!(middle(&later, &places, refused).is_err());
        assert_eq!(middle(&later, &later, refused), Ok(vec![]));
    }
}
