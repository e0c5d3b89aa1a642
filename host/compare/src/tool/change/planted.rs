//! Holds differences that are planted in what the library says of changes, one at a time. The
//! comparison finds each of them, and nothing where there is none.

use crate::ffi::tool::{Acknowledged, Change, Composed, Joined, Pair, Rejection, Reply};
use crate::ffi::{Flag, Places, Pool};
use crate::guarded::Guarded;
use crate::random::Random;
use crate::setup::Handler;
use crate::tally::Tally;
use crate::tool::change::{board, call, next_call, together, walk};
use crate::tool::request::Request;
use crate::tool::{Archive, Library};

/// A difference.
#[derive(Clone, Copy, Debug, PartialEq, Eq)]
enum Fault {
    None,
    // Of refusals.
    RoomBeforeLengths,
    RoomBeforeLengthsWithoutChange,
    Room63Taken,
    Room63TakenWithoutChange,
    Room65Refused,
    ShorterImageTaken,
    NumbersWithRefusal,
    GivenWithRefusal,
    ByteWhereRefused,
    // Of what is looked at.
    FromIgnored,
    FromPassedOver,
    FromAsByte,
    FromAsWord,
    FromGoesRound,
    LastNotCompared,
    FirstNotCompared,
    ImagesExchanged,
    LowBitsAlone,
    // Of where a change is.
    LeadingEqualByte,
    TrailingEqualByte,
    ThirtyTwoBytes,
    RunOf33,
    RunOf31,
    EndsAtEqualByte,
    StartBehindFrom,
    NoneAsChangeAt0,
    NoneWithNumbers,
    ChangeAt0AsNone,
    // Of the pairs.
    MaskOfAllBits,
    MaskOfOneBit,
    DataOutsideMask,
    OldData,
    EqualByteMasked,
    PairsExchanged,
    WrittenWithoutChange,
    ClearedBehind,
    GuardByte,
    // Of two pairs that are put together.
    EarlierWins,
    LaterMaskAlone,
    EarlierMaskAlone,
    CommonMaskAlone,
    DataNotMasked,
    LaterDataNotMasked,
    OneOrTheOther,
}

/// All of them, and how the report on each begins.
const FAULTS: [(Fault, &str); 44] = [
    (Fault::RoomBeforeLengths, ANSWERS),
    (Fault::RoomBeforeLengthsWithoutChange, ANSWERS),
    (Fault::Room63Taken, ANSWERS),
    (Fault::Room63TakenWithoutChange, ANSWERS),
    (Fault::Room65Refused, ANSWERS),
    (Fault::ShorterImageTaken, ANSWERS),
    (Fault::NumbersWithRefusal, ANSWERS),
    (Fault::GivenWithRefusal, ANSWERS),
    (Fault::ByteWhereRefused, BUFFERS),
    (Fault::FromIgnored, ANSWERS),
    (Fault::FromPassedOver, ANSWERS),
    (Fault::FromAsByte, ANSWERS),
    (Fault::FromAsWord, ANSWERS),
    (Fault::FromGoesRound, ANSWERS),
    (Fault::LastNotCompared, ANSWERS),
    (Fault::FirstNotCompared, ANSWERS),
    (Fault::ImagesExchanged, BUFFERS),
    (Fault::LowBitsAlone, DIFFER),
    (Fault::LeadingEqualByte, ANSWERS),
    (Fault::TrailingEqualByte, ANSWERS),
    (Fault::ThirtyTwoBytes, ANSWERS),
    (Fault::RunOf33, ANSWERS),
    (Fault::RunOf31, ANSWERS),
    (Fault::EndsAtEqualByte, ANSWERS),
    (Fault::StartBehindFrom, ANSWERS),
    (Fault::NoneAsChangeAt0, ANSWERS),
    (Fault::NoneWithNumbers, ANSWERS),
    (Fault::ChangeAt0AsNone, ANSWERS),
    (Fault::MaskOfAllBits, BUFFERS),
    (Fault::MaskOfOneBit, BUFFERS),
    (Fault::DataOutsideMask, BUFFERS),
    (Fault::OldData, BUFFERS),
    (Fault::EqualByteMasked, BUFFERS),
    (Fault::PairsExchanged, BUFFERS),
    (Fault::WrittenWithoutChange, BUFFERS),
    (Fault::ClearedBehind, BUFFERS),
    (Fault::GuardByte, GUARDS),
    (Fault::EarlierWins, TOGETHER),
    (Fault::LaterMaskAlone, TOGETHER),
    (Fault::EarlierMaskAlone, TOGETHER),
    (Fault::CommonMaskAlone, TOGETHER),
    (Fault::DataNotMasked, TOGETHER),
    (Fault::LaterDataNotMasked, TOGETHER),
    (Fault::OneOrTheOther, TOGETHER),
];
const DIFFER: &str = "looking for a change: the ";
const ANSWERS: &str = "looking for a change: the answers differ";
const BUFFERS: &str = "looking for a change: the buffers differ";
const GUARDS: &str = "looking for a change: a byte outside the buffer is changed";
const TOGETHER: &str = "putting two pairs together: the answers differ";

/// The library with a difference.
struct Planted(Fault);

/// The answer to a refusal.
const fn refused(refusal: u32) -> Change {
    Change {
        refusal,
        given: Flag::of(false),
        start: 0,
        count: 0,
    }
}

/// A change.
const fn given(start: usize, count: usize) -> Change {
    Change {
        refusal: 0,
        given: Flag::of(true),
        start,
        count,
    }
}

/// Two images of one length.
struct Images<'i>(&'i [u8], &'i [u8]);

impl Images<'_> {
    /// Whether they differ at an index.
    fn differ(&self, index: usize) -> bool {
        self.0.get(index) != self.1.get(index)
    }

    /// The mask and the data for an index, at which both may be the same.
    fn pair(&self, index: usize) -> [u8; 2] {
        let mask = self.0[index] ^ self.1[index];
        [mask, self.1[index] & mask]
    }

    /// The answer of so many pairs from an index on, which are written as far as there is room for
    /// them; the bytes behind are as they were before.
    fn write(&self, start: usize, count: usize, old: &[u8], pairs: &mut Guarded) -> Change {
        let bytes = pairs.bytes_mut();
        bytes.copy_from_slice(old);
        for (place, index) in bytes.chunks_exact_mut(2).zip(start..start + count) {
            place.copy_from_slice(&self.pair(index));
        }
        given(start, count)
    }
}

impl Planted {
    /// What comes of a call that the library is not asked for as it is; `None` where it is.
    fn otherwise(
        &self,
        before: &[u8],
        after: &[u8],
        from: usize,
        pairs: &mut Guarded,
    ) -> Option<Change> {
        let (unequal, room) = (before.len() != after.len(), pairs.bytes().len());
        let length = before.len().min(after.len());
        let mut ask = |before: &[u8], after: &[u8], from: usize| {
            Some(Library.next_change(before, after, from, pairs))
        };
        match self.0 {
            Fault::RoomBeforeLengths if room < 64 => Some(refused(2)),
            Fault::RoomBeforeLengthsWithoutChange if room < 64 && from >= length => {
                Some(refused(2))
            }
            Fault::Room65Refused if room == 65 && !unequal => Some(refused(2)),
            Fault::ShorterImageTaken if unequal => ask(&before[..length], &after[..length], from),
            _ if unequal => None,
            Fault::FromIgnored => ask(before, after, 0),
            Fault::FromPassedOver => ask(before, after, from.saturating_add(1)),
            Fault::FromAsByte => ask(before, after, from & 0xFF),
            Fault::FromAsWord => ask(before, after, from & 0xFFFF_FFFF),
            Fault::FromGoesRound if from > usize::MAX - 32 => ask(before, after, 0),
            Fault::LastNotCompared if length != 0 => {
                ask(&before[..length - 1], &after[..length - 1], from)
            }
            Fault::FirstNotCompared => ask(before, after, from.max(1)),
            Fault::ImagesExchanged => ask(after, before, from),
            Fault::LowBitsAlone => {
                let [before, after] = [before, after].map(|image| {
                    let low = image.iter().map(|byte| byte & 0x7F);
                    low.collect::<Vec<_>>()
                });
                ask(&before, &after, from)
            }
            _ => None,
        }
    }

    /// Another answer to a refusal.
    fn spoil_refusal(
        &self,
        change: Change,
        images: &Images,
        from: usize,
        pairs: &mut Guarded,
    ) -> Change {
        let short = change.refusal == 2 && pairs.bytes().len() == 63;
        let mut room = Guarded::new(&[0; 64]);
        let taken = Library.next_change(images.0, images.1, from, &mut room);
        match self.0 {
            Fault::Room63Taken if short && taken.given.get() && taken.count < 32 => {
                let bytes = &room.bytes()[..2 * taken.count];
                pairs.bytes_mut()[..bytes.len()].copy_from_slice(bytes);
                taken
            }
            Fault::Room63TakenWithoutChange if short && !taken.given.get() => taken,
            Fault::NumbersWithRefusal => Change {
                refusal: change.refusal,
                given: Flag::of(false),
                ..taken
            },
            Fault::GivenWithRefusal => Change {
                given: Flag::of(true),
                ..change
            },
            Fault::ByteWhereRefused => {
                if let Some(first) = pairs.bytes_mut().first_mut() {
                    *first ^= 1;
                }
                change
            }
            _ => change,
        }
    }

    /// Another answer where there is no change.
    fn spoil_none(&self, change: Change, length: usize, pairs: &mut Guarded) -> Change {
        match self.0 {
            Fault::NoneAsChangeAt0 => given(0, 0),
            Fault::NoneWithNumbers => Change {
                start: length,
                ..change
            },
            Fault::WrittenWithoutChange => {
                pairs.bytes_mut()[0] ^= 1;
                change
            }
            _ => change,
        }
    }

    /// A change at other bytes.
    fn spoil_place(
        &self,
        change: Change,
        images: &Images,
        from: usize,
        old: &[u8],
        pairs: &mut Guarded,
    ) -> Change {
        let Change { start, count, .. } = change;
        let (length, end) = (images.0.len(), start + count);
        let mut write = |start, count| images.write(start, count, old, pairs);
        match self.0 {
            Fault::LeadingEqualByte if start > from && count < 32 => write(start - 1, count + 1),
            Fault::StartBehindFrom if start > from && end - from <= 32 => write(from, end - from),
            Fault::TrailingEqualByte if end < length && count < 32 => write(start, count + 1),
            Fault::ThirtyTwoBytes => write(start, (length - start).min(32)),
            Fault::RunOf33 if end < length && images.differ(start + 32) => write(start, 33),
            Fault::RunOf31 if count == 32 => {
                let last = (start..end - 1).rfind(|&index| images.differ(index));
                write(start, last.unwrap_or(start) - start + 1)
            }
            Fault::EndsAtEqualByte => {
                let equal = (start..end).find(|&index| !images.differ(index));
                write(start, equal.unwrap_or(end) - start)
            }
            Fault::ChangeAt0AsNone if start == 0 => {
                pairs.bytes_mut().copy_from_slice(old);
                refused(0)
            }
            _ => change,
        }
    }

    /// Other pairs of a change.
    fn spoil_pairs(&self, change: Change, images: &Images, pairs: &mut Guarded) {
        let (own, behind) = pairs.bytes_mut().split_at_mut(2 * change.count);
        for (pair, index) in own.chunks_exact_mut(2).zip(change.start..) {
            let (old, new) = (images.0[index], images.1[index]);
            let [mask, data] = [pair[0], pair[1]];
            let [mask, data] = match self.0 {
                Fault::MaskOfAllBits if mask != 0 => [0xFF, new],
                Fault::MaskOfOneBit => [mask & mask.wrapping_neg(), data],
                Fault::DataOutsideMask => [mask, new],
                Fault::OldData => [mask, old & mask],
                Fault::EqualByteMasked if mask == 0 => [0xFF, new],
                Fault::PairsExchanged => [data, mask],
                _ => [mask, data],
            };
            pair.copy_from_slice(&[mask, data]);
        }
        match self.0 {
            Fault::ClearedBehind => behind.fill(0),
            Fault::GuardByte => pairs.overrun(),
            _ => {}
        }
    }
}

impl Handler for Planted {}

impl Archive for Planted {
    fn compose(&self, request: &Request, buffer: &mut Guarded) -> Composed {
        Library.compose(request, buffer)
    }

    fn read_received_ok(&self, content: &[u8]) -> Acknowledged {
        Library.read_received_ok(content)
    }

    fn read_rejected(&self, content: &[u8]) -> Rejection {
        Library.read_rejected(content)
    }

    fn read_reply(&self, datagram: &[u8]) -> Reply {
        Library.read_reply(datagram)
    }

    fn join(
        &self,
        alias: u16,
        pool: &mut Pool,
        places: &mut Places,
        header: u32,
        payload: &[u8],
    ) -> Joined {
        Library.join(alias, pool, places, header, payload)
    }

    fn put_together(&self, earlier: Pair, later: Pair) -> Pair {
        let Pair { mask, data } = Library.put_together(earlier, later);
        let [mask, data] = match self.0 {
            Fault::EarlierWins => return Library.put_together(later, earlier),
            Fault::LaterMaskAlone => [later.mask, data & later.mask],
            Fault::EarlierMaskAlone => [earlier.mask, data & earlier.mask],
            Fault::CommonMaskAlone => {
                let mask = earlier.mask & later.mask;
                [mask, data & mask]
            }
            Fault::DataNotMasked => [mask, data | (earlier.data | later.data) & !mask],
            Fault::LaterDataNotMasked => [mask, data | later.data & mask],
            Fault::OneOrTheOther => [mask, earlier.data & earlier.mask | later.data & later.mask],
            _ => [mask, data],
        };
        Pair { mask, data }
    }

    fn next_change(&self, before: &[u8], after: &[u8], from: usize, pairs: &mut Guarded) -> Change {
        if let Some(change) = self.otherwise(before, after, from, pairs) {
            return change;
        }
        let old = pairs.bytes().to_vec();
        let change = Library.next_change(before, after, from, pairs);
        let images = Images(before, after);
        if change.refusal != 0 {
            return self.spoil_refusal(change, &images, from, pairs);
        }
        if !change.given.get() {
            return self.spoil_none(change, before.len(), pairs);
        }
        self.spoil_pairs(change, &images, pairs);
        self.spoil_place(change, &images, from, &old, pairs)
    }
}

/// The calls that are made until a difference is found, at most.
const CALLS: usize = 4_000;

/// A part of the comparison, or all of it.
type Call = fn(&Planted, &mut Random, &mut Tally) -> Result<(), String>;

/// The report on a fault, if it is found by so many of these calls.
fn found(fault: Fault, calls: usize, seed: u64, made: Call) -> Option<String> {
    let planted = Planted(fault);
    let (mut random, mut tally) = (Random::new(seed), Tally::default());
    (0..calls).find_map(|_| made(&planted, &mut random, &mut tally).err())
}

#[test]
fn nothing_is_found_where_nothing_is_planted() {
    assert_eq!(found(Fault::None, CALLS, 16, call), None);
}

#[test]
fn each_difference_is_found() {
    for (fault, begins) in FAULTS {
        for seed in 0..4 {
            let report = found(fault, CALLS, seed, call).unwrap_or_default();
            assert!(report.starts_with(begins), "{fault:?}: {report:?}");
        }
    }
}

#[test]
fn a_part_is_enough_to_find_some() {
    let next: Call = |planted, random, tally| next_call(planted, random, &mut tally.tool.changes);
    let all: Call = |planted, random, tally| walk::call(planted, random, &mut tally.tool.changes);
    let pairs: Call =
        |planted, random, tally| together::call(planted, random, &mut tally.tool.changes);
    let on_a_board: Call = board::call;
    // What is seen from 0 on, or from behind a change, and with a buffer that is long enough.
    let of_a_walk = [
        Fault::FromIgnored,
        Fault::FromPassedOver,
        Fault::LastNotCompared,
        Fault::ImagesExchanged,
        Fault::LeadingEqualByte,
        Fault::TrailingEqualByte,
        Fault::RunOf33,
        Fault::RunOf31,
        Fault::NoneAsChangeAt0,
        Fault::MaskOfAllBits,
        Fault::DataOutsideMask,
        Fault::WrittenWithoutChange,
        Fault::ClearedBehind,
        Fault::GuardByte,
    ];
    for part in [next, all, on_a_board] {
        assert_eq!(found(Fault::None, 400, 16, part), None);
        for fault in of_a_walk {
            assert!(found(fault, CALLS, 16, part).is_some(), "{fault:?}");
        }
    }
    for (fault, begins) in FAULTS {
        let of_pairs = begins == TOGETHER;
        let part = if of_pairs { pairs } else { next };
        assert!(found(fault, CALLS, 16, part).is_some(), "{fault:?}");
    }
}
