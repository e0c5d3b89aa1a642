//! Holds the counts of the cases of changes, which have to be reached as all others have.

use crate::ffi::tool::Pair;
use crate::tally::{cases, print_row, Reach};
use crate::tool::cases::count_among;
use crate::tool::change::board::{Visit, MOST_READ};
use crate::tool::change::{Found, Search, Step, LEAST_ROOM};
use crate::writes::aimed::{Write, MOST_PAIRS};
use model::ChangeRefusal;

cases! {
    ChangeCase;
    /// Neither touches a bit.
    TogetherNone = "together: both touch no bit", Small;
    /// The earlier touches none.
    TogetherEarlierNone = "together: the earlier touches no bit", Small;
    /// The later touches none.
    TogetherLaterNone = "together: the later touches no bit", Small;
    /// A mask of one bit.
    TogetherOne = "together: a mask of one bit", Small;
    /// The earlier touches all bits.
    TogetherEarlierAll = "together: the earlier touches all", Small;
    /// The later touches all.
    TogetherLaterAll = "together: the later touches all", Small;
    /// All bits are touched, and not by one of the two.
    TogetherAll = "together: all bits, by both", Small;
    /// The same bits.
    TogetherEqual = "together: equal masks", Small;
    /// No common bit.
    TogetherApart = "together: masks share no bit", Small;
    /// Common bits, and some of the one and of the other alone.
    TogetherPartly = "together: masks share some bits", Small;
    /// A bit that both write, with different data.
    TogetherLaterWins = "together: a bit with different data", Small;
    /// A bit that both write, with the same data.
    TogetherAgree = "together: a bit with the same data", Small;
    /// Data of the earlier outside its mask, in a bit that the later does not touch.
    TogetherEarlierOutside = "together: earlier data, no mask bit", Small;
    /// Data of the later outside its mask, in a bit that the earlier does not touch.
    TogetherLaterOutside = "together: later data, no mask bit", Small;
    /// Data of the later outside its mask, in a bit that the earlier clears.
    TogetherLaterOver = "together: later data, earlier clears", Small;
    /// Lengths of which the old image's is greater.
    LengthsOld = "lengths: the old image is longer", Small;
    /// Lengths of which the new one's is.
    LengthsNew = "lengths: the new image is longer", Small;
    /// Lengths one apart.
    LengthsOne = "lengths: one byte more or fewer", Small;
    /// Lengths of which one is 0.
    LengthsEmpty = "lengths: one image is empty", Small;
    /// Lengths that differ, and a short buffer.
    LengthsShort = "lengths: with a short buffer", Small;
    /// Lengths that differ, and nothing to be looked at.
    LengthsBehind = "lengths: from behind the images", Small;
    /// A short buffer where there is a change.
    ShortBuffer = "short buffer: there is a change", Small;
    /// A short buffer where there is none.
    ShortNone = "short buffer: there is none", Small;
    /// Of images without a byte.
    NoneEmpty = "no change: empty images", Small;
    /// Of equal images, from within.
    NoneEqual = "no change: equal images", Small;
    /// All that differs is before the index.
    NoneBefore = "no change: all differences before", Small;
    /// The same where the last byte is looked at.
    NoneFromLast = "no change: from the last byte on", Small;
    /// From the length on, where there are differences.
    NoneFromLength = "no change: from the length on", Small;
    /// From behind it, where there are some.
    NoneFromBehind = "no change: from behind the length", Small;
    /// From the greatest index, where there are some.
    NoneFromMost = "no change: from the greatest index", Small;
    /// At the index itself.
    AtFrom = "change: at the index", Small;
    /// Behind it.
    BehindFrom = "change: behind the index", Small;
    /// From an index on that is not 0, with a difference before it.
    Left = "change: a difference before is left", Small;
    /// The byte at the index and the one before it differ.
    WithinRun = "change: from within a run", Small;
    /// From the last byte on.
    FromLast = "change: from the last byte on", Small;
    /// At the first byte.
    AtFirst = "change: at the first byte", Small;
    /// Up to the last byte, with others before it.
    UpToLast = "change: up to the last byte", Small;
    /// The last byte alone.
    LastAlone = "change: the last byte alone", Small;
    /// A byte within is the same in both.
    EqualWithin = "change: equal byte within", Small;
    /// A byte behind is the same in both, and is not part of it.
    EqualBehind = "change: equal byte behind", Small;
    /// The byte 32 on differs, and fewer than 32 are part of it.
    LeftOut = "change: byte 32 on differs, gap", Small;
    /// The byte 32 on differs, and the one before it too.
    LeftOutOfRun = "change: byte 32 on differs, no gap", Small;
    /// One byte, and the next that differs is 32 on.
    OneLeftOut = "change: one pair, next 32 on", Small;
    /// A first and a last byte alone, as far apart as they may be.
    FarApart = "change: two bytes 31 apart", Small;
    /// A mask of one bit.
    OneBit = "change: a mask of one bit", Small;
    /// A mask of all.
    AllBits = "change: a mask of all bits", Small;
    /// A bit that is 1 in both, in a byte that differs.
    KeptOne = "change: a bit at 1 is kept", Small;
    /// A bit that is set.
    Sets = "change: a bit is set", Small;
    /// A bit that is cleared.
    Clears = "change: a bit is cleared", Small;
    /// No step.
    WalkNone = "all changes: none", Small;
    /// One.
    WalkOne = "all changes: one", Small;
    /// Some.
    WalkSeveral = "all changes: two to six", Small;
    /// As many as an image of 200 bytes can have.
    WalkMost = "all changes: seven", Small;
    /// One is right behind another.
    WalkOnward = "all changes: one right behind another", Small;
    /// Bytes that are the same in both are between two.
    WalkGap = "all changes: equal bytes between two", Small;
    /// The image is the whole space.
    BoardWhole = "on a board: the whole space", Small;
    /// It is a part of it.
    BoardPart = "on a board: a part of the space", Small;
    /// It is read in one.
    BoardOneRead = "on a board: read at once", Small;
    /// It is read in several.
    BoardReads = "on a board: read in several", Small;
    /// The space is named by the control bits.
    BoardByBits = "on a board: space by control bits", Small;
    /// It is named by byte 6.
    BoardByByte6 = "on a board: space by byte 6", Small;
    /// The first address is not the index into memory.
    BoardElsewhere = "on a board: index is not the address", Small;
    /// No change.
    BoardNone = "on a board: no change", Small;
    /// One.
    BoardOne = "on a board: one change", Small;
    /// Several.
    BoardSeveral = "on a board: several changes", Small;
    /// No other tool writes.
    BoardAlone = "on a board: no other tool", Small;
    /// Another writes before the first change.
    OtherFirst = "other tool: before the first", Small;
    /// Another writes between two.
    OtherBetween = "other tool: between two", Small;
    /// Another writes behind the last.
    OtherLast = "other tool: behind the last", Small;
    /// It touches bits of a byte that differs.
    OtherInByte = "other tool: in a byte that differs", Small;
    /// It does through another space.
    OtherInByteBySpace = "other tool: the same, another space", Small;
    /// It sets such a byte to what neither image has.
    OtherSeen = "other tool: both seen in one byte", Small;
    /// It touches a byte of the image that does not differ.
    OtherInImage = "other tool: in a byte of the image", Small;
    /// It touches a byte that is not of the image.
    OtherOutside = "other tool: outside the image", Small;
    /// It writes plainly.
    OtherPlain = "other tool: a plain write", Small;
}

/// Lengths of a buffer that have to be reached where the images are of one length.
const ROOMS: [usize; 5] = [0, 63, 64, 65, 100];
/// Lengths of images that have to be reached where a search is not refused.
const LENGTHS: [usize; 8] = [0, 1, 31, 32, 33, 64, 65, 200];
/// Numbers of pairs that have to be reached.
const COUNTS: [usize; 5] = [1, 2, 30, 31, 32];

/// The counts.
#[derive(Clone, Debug)]
pub struct ChangeTally {
    cases: Vec<u64>,
    rooms: [u64; 5],
    lengths: [u64; 8],
    counts: [u64; 5],
}

impl Default for ChangeTally {
    fn default() -> Self {
        Self {
            cases: vec![0; ChangeCase::ALL.len()],
            rooms: [0; 5],
            lengths: [0; 8],
            counts: [0; 5],
        }
    }
}

impl ChangeTally {
    fn count(&mut self, case: ChangeCase) {
        self.cases[case as usize] += 1;
    }

    /// Counts each of these that is one.
    fn count_all<const N: usize>(&mut self, cases: [(bool, ChangeCase); N]) {
        for (is, case) in cases {
            self.cases[case as usize] += u64::from(is);
        }
    }

    /// Counts two pairs that were put together.
    pub fn together(&mut self, earlier: Pair, later: Pair) {
        let (one, two) = (earlier.mask, later.mask);
        let (some, common) = (one != 0 && two != 0, one & two);
        let touched = one | two;
        let apart = earlier.data ^ later.data;
        let alone = common != one && common != two;
        let outside = later.data & !two;
        self.count_all([
            (touched == 0, ChangeCase::TogetherNone),
            (one == 0 && two != 0, ChangeCase::TogetherEarlierNone),
            (one != 0 && two == 0, ChangeCase::TogetherLaterNone),
            (
                one.is_power_of_two() || two.is_power_of_two(),
                ChangeCase::TogetherOne,
            ),
            (one == 0xFF, ChangeCase::TogetherEarlierAll),
            (two == 0xFF, ChangeCase::TogetherLaterAll),
            (touched == 0xFF && alone, ChangeCase::TogetherAll),
            (some && one == two, ChangeCase::TogetherEqual),
            (some && common == 0, ChangeCase::TogetherApart),
            (common != 0 && alone, ChangeCase::TogetherPartly),
            (common & apart != 0, ChangeCase::TogetherLaterWins),
            (common & !apart != 0, ChangeCase::TogetherAgree),
            (
                earlier.data & !touched != 0,
                ChangeCase::TogetherEarlierOutside,
            ),
            (later.data & !touched != 0, ChangeCase::TogetherLaterOutside),
            (
                outside & one & !earlier.data != 0,
                ChangeCase::TogetherLaterOver,
            ),
        ]);
    }

    /// Counts a search with a buffer of so many bytes.
    pub fn next(&mut self, search: Search, room: usize, found: &Found) {
        let differs = search.before != search.after;
        if *found == Err(ChangeRefusal::LengthsDiffer) {
            return self.unequal(search, room);
        }
        count_among(&mut self.rooms, &ROOMS, &room);
        match found {
            Err(_) => self.count(if differs {
                ChangeCase::ShortBuffer
            } else {
                ChangeCase::ShortNone
            }),
            Ok(None) => self.none(search, differs),
            Ok(Some(step)) => {
                self.found(search, step);
                self.bits(search, step);
            }
        }
        if found.is_ok() {
            count_among(&mut self.lengths, &LENGTHS, &search.before.len());
        }
    }

    /// Counts images of different length.
    fn unequal(&mut self, search: Search, room: usize) {
        let (old, new) = (search.before.len(), search.after.len());
        self.count_all([
            (old > new, ChangeCase::LengthsOld),
            (old < new, ChangeCase::LengthsNew),
            (old.abs_diff(new) == 1, ChangeCase::LengthsOne),
            (old == 0 || new == 0, ChangeCase::LengthsEmpty),
            (room < LEAST_ROOM, ChangeCase::LengthsShort),
            (search.from >= old.max(new), ChangeCase::LengthsBehind),
        ]);
    }

    /// Counts a search that finds nothing, in images that differ or not.
    fn none(&mut self, search: Search, differs: bool) {
        let (length, from) = (search.before.len(), search.from);
        let within = from < length;
        self.count_all([
            (length == 0, ChangeCase::NoneEmpty),
            (within && !differs, ChangeCase::NoneEqual),
            (within && differs, ChangeCase::NoneBefore),
            (
                within && differs && from + 1 == length,
                ChangeCase::NoneFromLast,
            ),
            (differs && from == length, ChangeCase::NoneFromLength),
            (
                differs && from > length && from != usize::MAX,
                ChangeCase::NoneFromBehind,
            ),
            (differs && from == usize::MAX, ChangeCase::NoneFromMost),
        ]);
    }

    /// Counts where a change is.
    fn found(&mut self, search: Search, step: &Step) {
        count_among(&mut self.counts, &COUNTS, &step.count());
        let (length, from) = (search.before.len(), search.from);
        let (start, end) = (step.start, step.end());
        let beyond = start + MOST_PAIRS;
        let out = beyond < length && search.differs(beyond);
        let within = (start + 1..end - 1).any(|index| search.differs(index));
        let last = end == length;
        self.count_all([
            (start == from, ChangeCase::AtFrom),
            (start > from, ChangeCase::BehindFrom),
            (
                (0..from).any(|index| search.differs(index)),
                ChangeCase::Left,
            ),
            (
                from > 0 && start == from && search.differs(from - 1),
                ChangeCase::WithinRun,
            ),
            (from + 1 == length, ChangeCase::FromLast),
            (start == 0, ChangeCase::AtFirst),
            (last && step.count() > 1, ChangeCase::UpToLast),
            (last && step.count() == 1, ChangeCase::LastAlone),
            (
                end < length && !search.differs(end),
                ChangeCase::EqualBehind,
            ),
            (out && end < beyond, ChangeCase::LeftOut),
            (out && end == beyond, ChangeCase::LeftOutOfRun),
            (out && step.count() == 1, ChangeCase::OneLeftOut),
            (end == beyond && !within, ChangeCase::FarApart),
        ]);
    }

    /// Counts the bits of a change.
    fn bits(&mut self, search: Search, step: &Step) {
        let bytes = search.before.iter().zip(search.after);
        let bytes = || bytes.clone().skip(step.start).take(step.count());
        let has = |is: fn(u8, u8) -> bool| bytes().any(|(old, new)| is(*old, *new));
        self.count_all([
            (has(|old, new| old == new), ChangeCase::EqualWithin),
            (
                has(|old, new| (old ^ new).is_power_of_two()),
                ChangeCase::OneBit,
            ),
            (has(|old, new| old ^ new == 0xFF), ChangeCase::AllBits),
            (
                has(|old, new| old != new && old & new != 0),
                ChangeCase::KeptOne,
            ),
            (has(|old, new| new & !old != 0), ChangeCase::Sets),
            (has(|old, new| old & !new != 0), ChangeCase::Clears),
        ]);
    }

    /// Counts all changes from one image to another.
    pub fn walk(&mut self, steps: &[Step]) {
        self.count(match steps.len() {
            0 => ChangeCase::WalkNone,
            1 => ChangeCase::WalkOne,
            2..=6 => ChangeCase::WalkSeveral,
            _ => ChangeCase::WalkMost,
        });
        let mut between = steps.windows(2).map(|two| two[1].start - two[0].end());
        let gaps = between.clone().any(|gap| gap != 0);
        self.count_all([
            (between.any(|gap| gap == 0), ChangeCase::WalkOnward),
            (gaps, ChangeCase::WalkGap),
        ]);
    }

    /// Counts changes on a board.
    pub fn visit(&mut self, visit: &Visit) {
        let stretch = &visit.stretch;
        let by_bits = stretch.place.space >= 0xFD;
        let elsewhere = stretch.place.address as usize != stretch.bytes.start;
        let reads = stretch.bytes.len() > MOST_READ;
        self.count_all([
            (stretch.whole, ChangeCase::BoardWhole),
            (!stretch.whole, ChangeCase::BoardPart),
            (!reads, ChangeCase::BoardOneRead),
            (reads, ChangeCase::BoardReads),
            (by_bits, ChangeCase::BoardByBits),
            (!by_bits, ChangeCase::BoardByByte6),
            (elsewhere, ChangeCase::BoardElsewhere),
            (visit.steps.is_empty(), ChangeCase::BoardNone),
            (visit.steps.len() == 1, ChangeCase::BoardOne),
            (visit.steps.len() > 1, ChangeCase::BoardSeveral),
            (visit.other.is_none(), ChangeCase::BoardAlone),
        ]);
        if let Some((write, place)) = &visit.other {
            self.other(visit, write, *place);
        }
    }

    /// Counts the write of another tool, which comes behind so many changes.
    fn other(&mut self, visit: &Visit, write: &Write, place: usize) {
        let image = visit.stretch.bytes.clone();
        let steps = visit.steps.len();
        let touches = |is: &dyn Fn(usize) -> bool| {
            let mut touched = write.range().filter(|&index| write.mask_of(index) != 0);
            touched.any(is)
        };
        let new_of = |index: usize| visit.after[index - image.start];
        let differs = |index: usize| visit.before[index - image.start] != new_of(index);
        let in_byte = touches(&|index| image.contains(&index) && differs(index));
        let another = write.number != visit.stretch.place.space;
        let seen = touches(&|index| {
            let changed = image.contains(&index) && differs(index);
            changed && write.mask_of(index) & (write.data_of(index) ^ new_of(index)) != 0
        });
        self.count_all([
            (steps != 0 && place == 0, ChangeCase::OtherFirst),
            (place != 0 && place < steps, ChangeCase::OtherBetween),
            (steps != 0 && place == steps, ChangeCase::OtherLast),
            (in_byte, ChangeCase::OtherInByte),
            (in_byte && another, ChangeCase::OtherInByteBySpace),
            (seen, ChangeCase::OtherSeen),
            (
                touches(&|index| image.contains(&index) && !differs(index)),
                ChangeCase::OtherInImage,
            ),
            (
                touches(&|index| !image.contains(&index)),
                ChangeCase::OtherOutside,
            ),
            (!write.masked, ChangeCase::OtherPlain),
        ]);
    }

    /// Prints the counts; false where one is zero.
    #[must_use]
    pub fn print(&self) -> bool {
        let mut all = true;
        let mut row = |name: &str, count| all &= print_row(name, [count, 0], Reach::Small);
        for (room, count) in ROOMS.iter().zip(self.rooms) {
            row(&format!("change: buffer of {room}"), count);
        }
        for (length, count) in LENGTHS.iter().zip(self.lengths) {
            row(&format!("change: images of {length}"), count);
        }
        for (pairs, count) in COUNTS.iter().zip(self.counts) {
            row(&format!("change: {pairs} pairs"), count);
        }
        for &(case, name, _) in ChangeCase::ALL {
            row(name, self.cases[case as usize]);
        }
        all
    }
}

#[cfg(test)]
mod tests {
    use super::*;
    use ChangeCase as Case;

    /// The cases that were counted.
    fn counted(count: impl FnOnce(&mut ChangeTally)) -> Vec<Case> {
        let mut tally = ChangeTally::default();
        count(&mut tally);
        let cases = Case::ALL.iter().map(|&(case, ..)| case);
        let cases = cases.filter(|&case| tally.cases[case as usize] != 0);
        cases.collect()
    }

    #[test]
    fn two_pairs() {
        let together = |earlier: [u8; 2], later: [u8; 2]| {
            let [earlier, later] = [earlier, later].map(|[mask, data]| Pair { mask, data });
            counted(|tally| tally.together(earlier, later))
        };
        assert_eq!(together([0, 0], [0, 0]), [Case::TogetherNone]);
        assert_eq!(
            together([0x06, 0x02], [0x0C, 0x08]),
            [Case::TogetherPartly, Case::TogetherAgree]
        );
        assert_eq!(
            together([0x06, 0x04], [0x06, 0x02]),
            [Case::TogetherEqual, Case::TogetherLaterWins]
        );
        assert_eq!(
            together([0x06, 0x80], [0x18, 0x02]),
            [
                Case::TogetherApart,
                Case::TogetherEarlierOutside,
                Case::TogetherLaterOver
            ]
        );
        assert_eq!(
            together([0xFF, 0], [0x00, 0]),
            [Case::TogetherLaterNone, Case::TogetherEarlierAll]
        );
        assert_eq!(
            together([0x0F, 0], [0xF0, 0]),
            [Case::TogetherAll, Case::TogetherApart]
        );
    }

    /// The cases of a search with a buffer of so many bytes, by what the model finds.
    fn searched(before: &[u8], after: &[u8], from: usize, room: usize) -> Vec<Case> {
        let search = Search {
            before,
            after,
            from,
        };
        let mut pairs = vec![0; room];
        let found = model::next_change(before, after, from, &mut pairs);
        let found = found.map(|change| {
            change.map(|change| Step {
                start: change.start,
                pairs: pairs[..2 * change.count].to_vec(),
            })
        });
        counted(|tally| tally.next(search, room, &found))
    }

    #[test]
    fn searches_without_a_change() {
        assert_eq!(
            searched(&[1, 2], &[1], usize::MAX, 63),
            [
                Case::LengthsOld,
                Case::LengthsOne,
                Case::LengthsShort,
                Case::LengthsBehind
            ]
        );
        assert_eq!(
            searched(&[], &[1, 2], 1, 64),
            [Case::LengthsNew, Case::LengthsEmpty]
        );
        assert_eq!(searched(&[1], &[2], 0, 63), [Case::ShortBuffer]);
        assert_eq!(searched(&[1], &[1], 0, 0), [Case::ShortNone]);
        assert_eq!(searched(&[], &[], usize::MAX, 64), [Case::NoneEmpty]);
        assert_eq!(searched(&[1], &[1], 0, 64), [Case::NoneEqual]);
        let differing = |from| searched(&[1, 1, 1], &[2, 1, 1], from, 64);
        assert_eq!(differing(1), [Case::NoneBefore]);
        assert_eq!(differing(2), [Case::NoneBefore, Case::NoneFromLast]);
        assert_eq!(differing(3), [Case::NoneFromLength]);
        assert_eq!(differing(4), [Case::NoneFromBehind]);
        assert_eq!(differing(usize::MAX), [Case::NoneFromMost]);
    }

    #[test]
    fn searches_with_a_change() {
        assert_eq!(
            searched(&[0, 1, 0], &[0, 3, 0], 0, 64),
            [
                Case::BehindFrom,
                Case::EqualBehind,
                Case::OneBit,
                Case::KeptOne,
                Case::Sets
            ]
        );
        assert_eq!(
            searched(&[3, 3], &[0, 0], 1, 64),
            [
                Case::AtFrom,
                Case::Left,
                Case::WithinRun,
                Case::FromLast,
                Case::LastAlone,
                Case::Clears
            ]
        );
    }

    #[test]
    fn differences_about_32_bytes_apart() {
        let old = [0; 40];
        let apart = |distance: usize| {
            let mut new = old;
            (new[0], new[distance]) = (0xFF, 0xFF);
            searched(&old, &new, 0, 64)
        };
        let common = [Case::AtFrom, Case::AtFirst];
        let bits = [Case::AllBits, Case::Sets];
        assert_eq!(
            apart(31),
            [
                &common[..],
                &[Case::EqualWithin, Case::EqualBehind, Case::FarApart],
                &bits
            ]
            .concat()
        );
        let left = [Case::EqualBehind, Case::LeftOut, Case::OneLeftOut];
        assert_eq!(apart(32), [&common[..], &left, &bits].concat());
        assert_eq!(apart(33), [&common[..], &left[..1], &bits].concat());
        let all = searched(&old, &[0xFF; 40], 0, 64);
        assert_eq!(all, [&common[..], &[Case::LeftOutOfRun], &bits].concat());
    }

    #[test]
    fn all_changes() {
        let walk = |places: &[(usize, usize)]| {
            let steps = places.iter().map(|&(start, count)| Step {
                start,
                pairs: vec![1; 2 * count],
            });
            let steps: Vec<Step> = steps.collect();
            counted(|tally| tally.walk(&steps))
        };
        assert_eq!(walk(&[]), [Case::WalkNone]);
        assert_eq!(walk(&[(3, 1)]), [Case::WalkOne]);
        assert_eq!(
            walk(&[(3, 32), (35, 1)]),
            [Case::WalkSeveral, Case::WalkOnward]
        );
        assert_eq!(
            walk(&[(3, 32), (36, 1)]),
            [Case::WalkSeveral, Case::WalkGap]
        );
    }
}
