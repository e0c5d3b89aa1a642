//! Holds differences that are planted in what the library does with a broken datagram (C-15), one
//! at a time. The library is shown other places than there are, or what it has left is altered.

use core::ops::Range;

use super::{assert_found, found, At, ANSWERS, STATE};
use crate::ages;
use crate::faults::is_damaged;
use crate::ffi::{Numbers, Places, Pool, ResultBytes, PLACES, PLACE_BYTES, PLACE_SIZE};
use crate::generate::{Board, Incoming, LAST_ALIAS};
use crate::joining::{FIRST, LAST, MIDDLE, SINGLE};
use crate::layout::{canonical, held, place, set_place, Held};
use crate::setup::{Handler, Lent};
use crate::times::is_due;
use crate::tool::Library;

/// A difference.
#[derive(Clone, Copy, Debug, PartialEq, Eq)]
enum Fault {
    None,
    // Of what is answered while a source is being swallowed.
    EmptyMiddleRefused,
    MiddleRefused,
    LastRefused,
    SingleRefused,
    FirstRefused,
    AsIgnored,
    // Of what is kept for it.
    KeptAfterLast,
    KeptAfterSingle,
    FirstOpensBeside,
    FirstOpensElsewhere,
    MiddleEndsIt,
    // Of where it begins.
    NeverBegun,
    NeverBegunByLength,
    BegunByStrayMiddle,
    BegunByStrayLast,
    BegunByRefusedLast,
    // Of ages.
    SwallowedDoesNotRenew,
    BrokenRenews,
    NeverOld,
    // Of room, and of B7.
    NotCountedForRoom,
    WideSourcePasses,
    TwinBehindPasses,
    TwinBeforePasses,
    TwinsPass,
    LengthRefused,
    // Of bytes.
    ByOneOnly,
    ByTheByteBehind,
    LengthKept,
    FlagOf255,
    SwallowedTidies,
    BrokenWritesPool,
    SwallowedWritesPool,
    FreedClearsPool,
}

/// All of them, and what the report on each may say is different.
const FAULTS: [(Fault, At, &[&str]); 40] = [
    (Fault::EmptyMiddleRefused, At::Frame, &[ANSWERS]),
    (Fault::MiddleRefused, At::Frame, &[ANSWERS]),
    (Fault::LastRefused, At::Frame, &[ANSWERS]),
    (Fault::SingleRefused, At::Frame, &[ANSWERS]),
    (Fault::FirstRefused, At::Frame, &[ANSWERS]),
    (Fault::AsIgnored, At::Frame, &[ANSWERS]),
    (Fault::KeptAfterLast, At::Frame, STATE),
    (Fault::KeptAfterSingle, At::Frame, STATE),
    (Fault::FirstOpensBeside, At::Frame, STATE),
    (
        Fault::FirstOpensElsewhere,
        At::Frame,
        &["more places changed than the frame may change"],
    ),
    (Fault::MiddleEndsIt, At::Frame, STATE),
    (Fault::NeverBegun, At::Frame, STATE),
    (Fault::NeverBegunByLength, At::Frame, STATE),
    (Fault::BegunByStrayMiddle, At::Frame, STATE),
    (Fault::BegunByStrayLast, At::Frame, STATE),
    (Fault::BegunByRefusedLast, At::Frame, STATE),
    (Fault::SwallowedDoesNotRenew, At::Frame, STATE),
    (Fault::BrokenRenews, At::Frame, STATE),
    (Fault::NeverOld, At::Frame, STATE),
    (Fault::NeverOld, At::Tick, STATE),
    (Fault::NotCountedForRoom, At::Frame, &[ANSWERS]),
    (Fault::WideSourcePasses, At::Frame, &[ANSWERS]),
    (Fault::WideSourcePasses, At::Tick, &[ANSWERS]),
    (Fault::TwinBehindPasses, At::Frame, &[ANSWERS]),
    (Fault::TwinBehindPasses, At::Tick, &[ANSWERS]),
    (Fault::TwinBeforePasses, At::Frame, &[ANSWERS]),
    (Fault::TwinBeforePasses, At::Tick, &[ANSWERS]),
    (Fault::TwinsPass, At::Frame, &[ANSWERS]),
    (Fault::TwinsPass, At::Tick, &[ANSWERS]),
    (Fault::LengthRefused, At::Frame, &[ANSWERS]),
    (Fault::LengthRefused, At::Tick, &[ANSWERS]),
    (Fault::ByOneOnly, At::Frame, STATE),
    (Fault::ByOneOnly, At::Tick, &[ANSWERS]),
    (Fault::ByTheByteBehind, At::Frame, STATE),
    (Fault::LengthKept, At::Frame, BYTES),
    (Fault::FlagOf255, At::Frame, BYTES),
    (
        Fault::SwallowedTidies,
        At::Frame,
        &["a place that did not change has other bytes"],
    ),
    (Fault::BrokenWritesPool, At::Frame, POOL),
    (Fault::SwallowedWritesPool, At::Frame, POOL),
    (Fault::FreedClearsPool, At::Frame, POOL),
];
const BYTES: &[&str] = &["a place that changed has other bytes than it should"];
/// The place may have changed or not.
const POOL: &[&str] = &[
    "the pool is changed, and not by what the frame puts there",
    "the pool is changed for a place that did not change",
];

/// The library with a difference in one of its calls.
struct Planted(Fault, At);

/// A frame that is not ignored, with the place that its source has before it.
struct Coming<'f> {
    kind: u32,
    source: u16,
    data: &'f [u8],
    own: Option<(usize, Held)>,
}

impl<'f> Coming<'f> {
    /// `None` where the frame is ignored.
    fn of(board: &Board, places: &Places, tick: u16, frame: &'f Incoming) -> Option<Self> {
        let (kind, source) = (frame.header >> 24, (frame.header & 0xFFF) as u16);
        let destination = (frame.header >> 12 & 0xFFF) as u16;
        let taken = matches!(kind, SINGLE..=LAST) && frame.data.len() <= 8;
        (taken && destination == board.alias && source != board.alias).then(|| Self {
            kind,
            source,
            data: &frame.data,
            own: (0..PLACES)
                .filter_map(|index| Some((index, held(place(places, index))?)))
                .find(|(_, held)| held.source == source && !is_due(*held, tick)),
        })
    }

    /// The place that its source has while it is being swallowed.
    fn swallowed(&self) -> Option<(usize, Held)> {
        self.own.filter(|(_, held)| held.swallowing)
    }
}

/// An alias that nobody has.
fn nobody(places: &Places, board: &Board) -> u16 {
    let has = |alias| {
        (0..PLACES)
            .filter_map(|index| held(place(places, index)))
            .any(|held| held.source == alias)
    };
    (1..LAST_ALIAS)
        .find(|&alias| alias != board.alias && !has(alias))
        .expect("at most eight have one")
}

impl Planted {
    /// What the library is shown of the places in any call: what B7 is to be blind to is not there,
    /// and what is to be read otherwise is otherwise.
    fn shown(&self, places: &Places, tick: u16) -> Places {
        let mut shown = *places;
        for index in 0..PLACES {
            let bytes = place(places, index);
            let Some(was) = held(bytes).filter(|was| was.swallowing) else {
                continue;
            };
            let unfinished = Some(Held {
                swallowing: false,
                ..was
            });
            let other = match self.0 {
                Fault::WideSourcePasses if was.source > LAST_ALIAS => None,
                Fault::TwinBehindPasses if has_twin(places, 0..index, was.source, false) => None,
                Fault::TwinBeforePasses if has_twin(places, index..PLACES, was.source, false) => {
                    None
                }
                Fault::TwinsPass if has_twin(places, 0..index, was.source, true) => None,
                Fault::LengthRefused if usize::from(was.len) > PLACE_BYTES => unfinished,
                Fault::ByOneOnly if bytes[6] != 1 => unfinished,
                Fault::ByTheByteBehind if bytes[7] == 0 => unfinished,
                Fault::NeverOld if is_due(was, tick) => Some(Held { tick, ..was }),
                _ => continue,
            };
            set_place(&mut shown, index, canonical(other));
        }
        shown
    }

    /// What it is shown of them for a frame.
    fn shown_for(&self, coming: &Coming, board: &Board, places: &Places, tick: u16) -> Places {
        let mut shown = *places;
        if self.0 == Fault::NotCountedForRoom && coming.own.is_none() && coming.kind == FIRST {
            make_room(&mut shown, tick);
        }
        let Some((index, was)) = coming.swallowed() else {
            return shown;
        };
        let unfinished = Some(Held {
            len: 0,
            swallowing: false,
            ..was
        });
        let of_nobody = Some(Held {
            source: nobody(places, board),
            ..was
        });
        let has_room = (0..PLACES).any(|other| held(place(places, other)).is_none());
        let other = match (self.0, coming.kind) {
            (Fault::EmptyMiddleRefused, MIDDLE) if coming.data.is_empty() => None,
            (Fault::MiddleRefused, MIDDLE) | (Fault::LastRefused, LAST) => None,
            (Fault::SingleRefused, SINGLE) | (Fault::FirstRefused, FIRST) => unfinished,
            (Fault::FirstOpensBeside, FIRST) => of_nobody,
            (Fault::FirstOpensElsewhere, FIRST) if has_room => of_nobody,
            _ => return shown,
        };
        set_place(&mut shown, index, canonical(other));
        shown
    }

    /// Spoils the place of a source that was being swallowed before this frame; it had these bytes.
    fn spoil_swallowed(&self, coming: &Coming, had: [u8; PLACE_SIZE], places: &mut Places) {
        let Some((index, was)) = coming.swallowed() else {
            return;
        };
        let now = place(places, index);
        let spoilt = match (self.0, coming.kind) {
            (Fault::LastRefused, LAST) | (Fault::MiddleEndsIt, MIDDLE) => canonical(None),
            (Fault::FirstOpensElsewhere, FIRST) if now == had => canonical(None),
            (Fault::KeptAfterLast, LAST)
            | (Fault::KeptAfterSingle | Fault::SingleRefused, SINGLE)
            | (Fault::FirstRefused, FIRST) => had,
            (Fault::SwallowedDoesNotRenew, MIDDLE) => canonical(Some(was)),
            (Fault::SwallowedTidies, MIDDLE) => canonical(held(now)),
            (Fault::LengthKept, MIDDLE) => with_byte(now, 1, was.len),
            (Fault::FlagOf255, MIDDLE) if now != had => with_byte(now, 6, 255),
            _ => return,
        };
        set_place(places, index, spoilt);
    }

    /// Spoils the place of a source after a transport refusal with this code.
    fn spoil_refused(&self, coming: &Coming, code: u16, places: &mut Places, tick: u16) {
        let Some((index, was)) = coming.own else {
            let begins = matches!(
                (self.0, coming.kind),
                (Fault::BegunByStrayMiddle, MIDDLE) | (Fault::BegunByStrayLast, LAST)
            );
            if begins {
                begin(places, coming.source, tick);
            }
            return;
        };
        let now = place(places, index);
        let swallowing = Held {
            swallowing: true,
            ..was
        };
        let spoilt = match (self.0, coming.kind) {
            (Fault::NeverBegun, _) => canonical(None),
            (Fault::NeverBegunByLength, MIDDLE) if code == 0x2000 => canonical(None),
            (Fault::BegunByRefusedLast, LAST) => canonical(Some(swallowing)),
            (Fault::BrokenRenews, SINGLE..=MIDDLE) => canonical(Some(Held { tick, ..swallowing })),
            (Fault::LengthKept, SINGLE..=MIDDLE) => with_byte(now, 1, was.len),
            _ => return,
        };
        set_place(places, index, spoilt);
    }

    /// Writes the data of a frame into the pool, or clears what is there, where it stays as it is.
    fn spoil_pool(&self, coming: &Coming, numbers: Numbers, pool: &mut Pool) {
        let Some((index, held)) = coming.own else {
            return;
        };
        let pool = &mut pool[PLACE_BYTES * index..][..PLACE_BYTES];
        match (self.0, held.swallowing, coming.kind) {
            (Fault::BrokenWritesPool, false, _) if numbers.kind == 3 => {
                let start = usize::from(held.len).min(PLACE_BYTES - coming.data.len());
                pool[start..][..coming.data.len()].copy_from_slice(coming.data);
            }
            (Fault::SwallowedWritesPool, true, MIDDLE | LAST) => {
                pool[..coming.data.len()].copy_from_slice(coming.data);
            }
            (Fault::FreedClearsPool, true, SINGLE | LAST) => pool.fill(0),
            _ => {}
        }
    }
}

/// Whether one of these places has this source, which is being swallowed there or is not.
fn has_twin(places: &Places, within: Range<usize>, source: u16, swallowing: bool) -> bool {
    within
        .filter_map(|index| held(place(places, index)))
        .any(|twin| twin.source == source && twin.swallowing == swallowing)
}

/// Frees a place whose source is being swallowed, if all eight are taken.
fn make_room(places: &mut Places, tick: u16) {
    let at = |index: usize| held(place(places, index)).filter(|&held| !is_due(held, tick));
    if (0..PLACES).all(|index| at(index).is_some()) {
        let swallowed = |index: &usize| at(*index).is_some_and(|held| held.swallowing);
        if let Some(index) = (0..PLACES).find(swallowed) {
            set_place(places, index, canonical(None));
        }
    }
}

/// These bytes with another one in them.
const fn with_byte(mut bytes: [u8; PLACE_SIZE], index: usize, byte: u8) -> [u8; PLACE_SIZE] {
    bytes[index] = byte;
    bytes
}

/// Has a free place say that this source is being swallowed.
fn begin(places: &mut Places, source: u16, tick: u16) {
    let free = (0..PLACES).find(|&index| held(place(places, index)).is_none());
    if let Some(index) = free {
        let begun = Held {
            len: 0,
            source,
            tick,
            swallowing: true,
        };
        set_place(places, index, canonical(Some(begun)));
    }
}

/// Puts back what the library was shown otherwise and has left.
fn put_back(before: &Places, shown: &Places, after: &mut Places) {
    for index in 0..PLACES {
        if place(shown, index) == place(after, index) {
            set_place(after, index, place(before, index));
        }
    }
}

impl Handler for Planted {
    fn handle_frame(&self, board: &Board, lent: &mut Lent, tick: u16, frame: &Incoming) -> Numbers {
        if self.1 == At::Tick {
            return Library.handle_frame(board, lent, tick, frame);
        }
        let before: Places = *lent.places.array();
        let mut shown = self.shown(&before, tick);
        let coming = Coming::of(board, &before, tick, frame).filter(|_| !is_damaged(&before));
        if let Some(coming) = &coming {
            shown = self.shown_for(coming, board, &shown, tick);
        }
        *lent.places.array_mut() = shown;
        let mut numbers = Library.handle_frame(board, lent, tick, frame);
        let places: &mut Places = lent.places.array_mut();
        put_back(&before, &shown, places);
        let Some(coming) = coming.filter(|_| numbers.kind != 0) else {
            return numbers;
        };
        if let Some((index, _)) = coming.swallowed() {
            self.spoil_swallowed(&coming, place(&before, index), places);
            if self.0 == Fault::AsIgnored && matches!(coming.kind, MIDDLE | LAST) {
                numbers.kind = 1;
            }
        } else if numbers.kind == 3 {
            self.spoil_refused(&coming, numbers.code, places, tick);
        }
        self.spoil_pool(&coming, numbers, lent.pool.array_mut());
        numbers
    }

    fn handle_tick(&self, places: &mut Places, tick: u16, result: &mut ResultBytes) -> Numbers {
        if self.1 == At::Frame {
            return Library.handle_tick(places, tick, result);
        }
        let before = *places;
        let shown = self.shown(&before, tick);
        *places = shown;
        let numbers = Library.handle_tick(places, tick, result);
        put_back(&before, &shown, places);
        numbers
    }
}

#[test]
fn nothing_is_found_where_nothing_is_planted() {
    for at in [At::Frame, At::Tick] {
        assert_eq!(found(&Planted(Fault::None, at), 20), None);
    }
}

#[test]
fn each_difference_is_found() {
    for (fault, at, differences) in FAULTS {
        assert_found(&Planted(fault, at), at, differences, &format!("{fault:?}"));
    }
}

#[test]
fn every_age_is_enough_to_find_some() {
    for (fault, at) in [
        (Fault::NeverOld, At::Frame),
        (Fault::NeverOld, At::Tick),
        (Fault::MiddleRefused, At::Frame),
        (Fault::MiddleEndsIt, At::Frame),
        (Fault::SwallowedDoesNotRenew, At::Frame),
        (Fault::LengthRefused, At::Frame),
        (Fault::LengthRefused, At::Tick),
        (Fault::SwallowedTidies, At::Frame),
        (Fault::BegunByStrayMiddle, At::Frame),
    ] {
        assert!(ages::every(&Planted(fault, at)).is_err(), "{fault:?}");
    }
}
