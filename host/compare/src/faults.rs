//! Holds what is wrong with a board: every limit that it breaks and every space that is bad, not
//! only what decides. It is worked out from document 01 with change request C-11 and shares nothing
//! with either side, so that the comparison knows from what an answer was chosen.

use crate::answer::Answer;
use crate::ffi::{Places, MOST_SPACES, PLACES, PLACE_BYTES};
use crate::generate::{Board, LARGEST_STORE, LAST_ALIAS};
use crate::layout::{held, place};
use model::Space;

/// How many limits there are: the number of spaces, memory, flash and the alias, in the order of
/// their errors.
pub const LIMITS: usize = 4;
/// The number of the error for the first limit; those of the others follow.
const FIRST_LIMIT: u8 = 11;

/// What is wrong with a description and the sizes of its stores.
#[derive(Clone, Copy, Debug, Default, PartialEq, Eq)]
pub struct Faults {
    /// Which limits are broken.
    pub limits: [bool; LIMITS],
    /// Of each space the first number that it would be refused by if all before it were good, and
    /// `None` where it is good itself. Spaces from the 17th on are not looked at: B11 comes first.
    pub spaces: [Option<u8>; MOST_SPACES],
    /// How many spaces there are.
    pub count: usize,
}

impl Faults {
    /// Of this board.
    #[must_use]
    pub fn of(board: &Board) -> Self {
        let described = board.spaces();
        let mut spaces = [None; MOST_SPACES];
        for (position, (fault, space)) in spaces.iter_mut().zip(described).enumerate() {
            *fault = fault_of(space, &described[..position], board);
        }
        Self {
            limits: [
                described.len() > MOST_SPACES,
                board.memory_len > LARGEST_STORE,
                board.flash_len > LARGEST_STORE,
                board.alias == 0 || board.alias > LAST_ALIAS,
            ],
            spaces,
            count: described.len(),
        }
    }

    /// The refusal that the board gets: by the first limit that is broken, or else by the first
    /// space that is bad; `None` where nothing is wrong.
    #[must_use]
    pub fn refusal(&self) -> Option<Answer> {
        if let Some(limit) = self.limits.iter().position(|&broken| broken) {
            return Some(Answer::CallError {
                number: limit_number(limit),
                position: None,
            });
        }
        let position = self.spaces.iter().position(Option::is_some)?;
        Some(Answer::CallError {
            number: self.spaces[position]?,
            position: Some(position),
        })
    }

    /// Whether a space is bad.
    #[must_use]
    pub fn has_bad_space(&self) -> bool {
        self.spaces.iter().any(Option::is_some)
    }

    /// The broken limits as a set, the first limit being its lowest bit.
    #[must_use]
    pub fn broken(&self) -> usize {
        let bits = self.limits.iter().enumerate();
        bits.map(|(limit, &broken)| usize::from(broken) << limit)
            .sum()
    }
}

/// The number of the error for a limit.
#[must_use]
pub const fn limit_number(limit: usize) -> u8 {
    FIRST_LIMIT + limit as u8
}

/// The first number that refuses this space behind these.
fn fault_of(space: &Space, earlier: &[Space], board: &Board) -> Option<u8> {
    let (lowest, highest) = (u64::from(space.lowest), u64::from(space.highest));
    if lowest > highest {
        return Some(2);
    }
    let store = if space.in_flash {
        board.flash_len
    } else {
        board.memory_len
    };
    if u64::from(space.offset) + (highest - lowest) >= store as u64 {
        Some(3)
    } else if !space.read_only && (space.in_flash || space.number == 0xFF) {
        Some(4)
    } else if earlier.iter().any(|other| other.number == space.number) {
        Some(5)
    } else {
        None
    }
}

/// What was wrong in a call, whichever of it decided.
#[derive(Clone, Copy, Debug)]
pub struct Wrong {
    /// With the board.
    pub faults: Faults,
    /// The reply buffer is under 72 bytes.
    pub short: bool,
    /// A reception state is handed in, and it is damaged.
    pub damaged: bool,
}

/// What is wrong with places. A place whose source is being swallowed has a source like any other,
/// but no datagram, so that nothing is asked of its length.
#[derive(Clone, Copy, Debug, Default, PartialEq, Eq)]
pub struct Damage {
    /// A datagram of over 72 bytes.
    pub long: bool,
    /// A datagram of a source over 4,095.
    pub wide: bool,
    /// A source over 4,095 that is being swallowed.
    pub wide_swallowed: bool,
    /// Two datagrams of one source.
    pub twice: bool,
    /// A datagram of a source that is being swallowed too, in a place behind it.
    pub swallowed_behind: bool,
    /// The same with the places the other way round.
    pub swallowed_before: bool,
    /// A source that is being swallowed twice.
    pub twice_swallowed: bool,
}

impl Damage {
    /// Of these places.
    #[must_use]
    pub fn of(places: &Places) -> Self {
        let mut damage = Self::default();
        let at = |index| held(place(places, index));
        for (index, one) in (0..PLACES).filter_map(|index| Some((index, at(index)?))) {
            let wide = one.source > LAST_ALIAS;
            damage.wide |= wide && !one.swallowing;
            damage.wide_swallowed |= wide && one.swallowing;
            damage.long |= usize::from(one.len) > PLACE_BYTES && !one.swallowing;
            let twins = (0..index).filter_map(at);
            for earlier in twins.filter(|earlier| earlier.source == one.source) {
                match (earlier.swallowing, one.swallowing) {
                    (false, false) => damage.twice = true,
                    (false, true) => damage.swallowed_behind = true,
                    (true, false) => damage.swallowed_before = true,
                    (true, true) => damage.twice_swallowed = true,
                }
            }
        }
        damage
    }

    /// Each of them, in their order.
    #[must_use]
    pub const fn each(&self) -> [bool; 7] {
        [
            self.long,
            self.wide,
            self.wide_swallowed,
            self.twice,
            self.swallowed_behind,
            self.swallowed_before,
            self.twice_swallowed,
        ]
    }

    /// Whether it is one of them alone.
    #[must_use]
    pub fn is_single(&self) -> bool {
        self.each().iter().filter(|&&is| is).count() == 1
    }
}

/// Whether these places are damaged.
#[must_use]
pub fn is_damaged(places: &Places) -> bool {
    Damage::of(places).each().contains(&true)
}

/// Whether a source is being swallowed whose place has a length over 72, which means nothing.
#[must_use]
pub fn has_long_swallowed(places: &Places) -> bool {
    let mut held = (0..PLACES).filter_map(|index| held(place(places, index)));
    held.any(|held| held.swallowing && usize::from(held.len) > PLACE_BYTES)
}

#[cfg(test)]
mod tests {
    use super::*;
    use crate::demonstration::{ALIAS, FLASH, MEMORY_LEN, TABLE, WRITE_LENGTHS};
    use crate::ffi::SPACE_SIZE;
    use crate::generate::{damage_places, good_board, sound_places, spoil_board, tools};
    use crate::layout::{canonical, set_place, Held};
    use crate::random::Random;
    use crate::setup::for_model;

    fn board(table: &[u8]) -> Board {
        Board::new(
            ALIAS,
            WRITE_LENGTHS,
            table.to_vec(),
            FLASH.len(),
            MEMORY_LEN,
        )
    }

    const fn call_error(number: u8, position: Option<usize>) -> Option<Answer> {
        Some(Answer::CallError { number, position })
    }

    #[test]
    fn the_first_bad_space_decides() {
        assert_eq!(Faults::of(&board(&TABLE)).refusal(), None);
        let mut table = TABLE;
        // 0x10 a second 0xFE, then 0xFF writable, then 0xFE one address too long, then 0xFD with no
        // address: each stands before the one that decided until then.
        table[3 * SPACE_SIZE] = 0xFE;
        assert_eq!(Faults::of(&board(&table)).refusal(), call_error(5, Some(3)));
        table[2 * SPACE_SIZE + 1] = 0;
        assert_eq!(Faults::of(&board(&table)).refusal(), call_error(4, Some(2)));
        table[SPACE_SIZE + 8] += 1;
        assert_eq!(Faults::of(&board(&table)).refusal(), call_error(3, Some(1)));
        table[4] = 0x20;
        let faults = Faults::of(&board(&table));
        assert_eq!(faults.refusal(), call_error(2, Some(0)));
        assert_eq!(
            faults.spaces[..5],
            [Some(2), Some(3), Some(4), Some(5), None]
        );
        assert_eq!((faults.broken(), faults.count), (0, 4));
        // The position decides, not the number: 0xFD in flash, which is too small for it.
        (table[2], table[4], table[SPACE_SIZE + 4]) = (1, 0, 0x40);
        let faults = Faults::of(&board(&table));
        assert_eq!(faults.refusal(), call_error(3, Some(0)));
        assert_eq!(faults.spaces[1], Some(2));
    }

    #[test]
    fn the_first_broken_limit_decides() {
        // A bad space, and then one limit after the other from the last to the first.
        let mut table = TABLE.to_vec();
        table[4] = 0x20;
        let mut spoilt = board(&table);
        spoilt.alias = 0;
        assert_eq!(Faults::of(&spoilt).refusal(), call_error(14, None));
        spoilt.flash_len = 65_537;
        assert_eq!(Faults::of(&spoilt).refusal(), call_error(13, None));
        spoilt.memory_len = 65_537;
        assert_eq!(Faults::of(&spoilt).refusal(), call_error(12, None));
        assert_eq!(Faults::of(&spoilt).broken(), 0b1110);
        table.resize(17 * SPACE_SIZE, 0);
        let crowded = Board::new(0, WRITE_LENGTHS, table, 65_537, 65_537);
        assert_eq!(Faults::of(&crowded).refusal(), call_error(11, None));
        assert_eq!(Faults::of(&crowded).broken(), 0b1111);
        assert_eq!(Faults::of(&crowded).count, 17);
    }

    #[test]
    fn the_limits_themselves_are_not_broken() {
        let mut good = board(&TABLE);
        (good.flash_len, good.memory_len) = (65_536, 65_536);
        for alias in [1, 4_095] {
            good.alias = alias;
            assert_eq!(Faults::of(&good).refusal(), None);
        }
        good.alias = 4_096;
        assert_eq!(Faults::of(&good).refusal(), call_error(14, None));
    }

    /// What a place is held for: length, source, being swallowed.
    type What = (u8, u16, bool);

    /// Places of which the first ones are held for these.
    fn places(what: &[What]) -> Places {
        let mut places = [0; 64];
        for (index, &(len, source, swallowing)) in what.iter().enumerate() {
            let held = Held {
                len,
                source,
                tick: 0,
                swallowing,
            };
            set_place(&mut places, index, canonical(Some(held)));
            places[8 * index + 1] = len;
        }
        places
    }

    #[test]
    fn what_is_wrong_with_places() {
        let none = Damage::default();
        let (long, wide, twice) = (true, true, true);
        let (wide_swallowed, twice_swallowed) = (true, true);
        let (swallowed_behind, swallowed_before) = (true, true);
        let cases: [(&[What], Damage); 12] = [
            (&[], none),
            (&[(72, 4_095, false), (72, 0, true), (0, 1, true)], none),
            (&[(73, 1, false)], Damage { long, ..none }),
            (&[(73, 1, true), (255, 2, true)], none),
            (&[(0, 4_096, false)], Damage { wide, ..none }),
            (
                &[(0, 4_096, true)],
                Damage {
                    wide_swallowed,
                    ..none
                },
            ),
            (&[(0, 7, false), (0, 7, false)], Damage { twice, ..none }),
            (
                &[(0, 7, false), (0, 6, true), (0, 7, true)],
                Damage {
                    swallowed_behind,
                    ..none
                },
            ),
            (
                &[(9, 7, true), (0, 7, false)],
                Damage {
                    swallowed_before,
                    ..none
                },
            ),
            (
                &[(255, 7, true), (0, 7, true)],
                Damage {
                    twice_swallowed,
                    ..none
                },
            ),
            (
                &[(0, 7, true), (0, 7, true), (0, 7, false)],
                Damage {
                    swallowed_before,
                    twice_swallowed,
                    ..none
                },
            ),
            (
                &[(73, 0xFFFF, false), (0, 0xFFFF, true)],
                Damage {
                    long,
                    wide,
                    wide_swallowed,
                    swallowed_behind,
                    ..none
                },
            ),
        ];
        for (what, damage) in cases {
            let places = places(what);
            assert_eq!(Damage::of(&places), damage, "{what:?}");
            assert_eq!(is_damaged(&places), damage != none, "{what:?}");
            let checked = for_model(&places, &[0; 576], 0).check();
            assert_eq!(checked.is_err(), damage != none, "{what:?}");
            let long = what
                .iter()
                .any(|&(len, _, swallowed)| swallowed && len > 72);
            assert_eq!(has_long_swallowed(&places), long, "{what:?}");
        }
    }

    #[test]
    fn the_model_has_the_same() {
        let mut random = Random::new(11);
        for _ in 0..2_000 {
            let mut board = good_board(&mut random);
            let tools = tools(&mut random, &board);
            let mut places = sound_places(&mut random, &tools, 0, u16::MAX);
            assert!(!is_damaged(&places));
            damage_places(&mut random, &mut places);
            assert!(is_damaged(&places));
            assert!(for_model(&places, &[0; 576], 0).check().is_err());
            assert_eq!(Faults::of(&board).refusal(), None);
            spoil_board(&mut random, &mut board);
            let checked =
                model::check_description(&board.for_model(), board.flash_len, board.memory_len);
            assert_eq!(
                Faults::of(&board).refusal(),
                checked.err().map(Answer::from),
                "{board:?}"
            );
        }
    }
}
