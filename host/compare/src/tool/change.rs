//! Holds the comparison of changes (C-16): of two pairs of mask and data that are put together, and
//! of the masked writes that take an old image of memory to a new one, one at a time, one after the
//! other, and on a board to which another tool writes too.

pub mod board;
pub mod cases;
pub mod images;
#[cfg(test)]
mod planted;
pub mod together;
pub mod walk;

use crate::ffi::tool::Change;
use crate::guarded::Guarded;
use crate::random::Random;
use crate::setup::{hex, same};
use crate::tally::Tally;
use crate::tool::read::untouched;
use crate::tool::said::changed;
use crate::tool::Archive;
use crate::writes::aimed::MOST_PAIRS;
use cases::ChangeTally;
use images::{any_from, any_images};
use model::ChangeRefusal;

/// The fewest bytes of a buffer for pairs.
pub const LEAST_ROOM: usize = 2 * MOST_PAIRS;

/// What is looked for: the next change between two images, at or after an index.
#[derive(Clone, Copy, Debug)]
pub struct Search<'i> {
    /// The old image.
    pub before: &'i [u8],
    /// The new one.
    pub after: &'i [u8],
    /// The index.
    pub from: usize,
}

impl Search<'_> {
    /// Whether the images differ at this index, which is within both.
    #[must_use]
    pub fn differs(&self, index: usize) -> bool {
        self.before.get(index) != self.after.get(index)
    }

    /// Where the change has to start in images of one length, and how many pairs it has to have;
    /// `None` where there has to be none.
    fn due(&self) -> Option<(usize, usize)> {
        let indices = self.from..self.before.len();
        let mut differences = indices.filter(|&index| self.differs(index));
        let first = differences.next()?;
        let last = differences.take_while(|index| index - first < MOST_PAIRS);
        let last = last.last().unwrap_or(first);
        Some((first, last - first + 1))
    }
}

/// A change, with the bytes of its pairs.
#[derive(Clone, Debug, PartialEq, Eq)]
pub struct Step {
    /// The index into both images of its first byte.
    pub start: usize,
    /// The bytes of its pairs, each a mask and then its data.
    pub pairs: Vec<u8>,
}

impl Step {
    /// How many pairs it has.
    #[must_use]
    pub const fn count(&self) -> usize {
        self.pairs.len() / 2
    }

    /// The index behind its last byte.
    #[must_use]
    pub const fn end(&self) -> usize {
        self.start + self.count()
    }
}

/// What is found: a change, that there is none, or a refusal.
pub type Found = Result<Option<Step>, ChangeRefusal>;

/// Makes one call, or some that belong together, to both sides.
pub fn call(archive: &impl Archive, random: &mut Random, tally: &mut Tally) -> Result<(), String> {
    match random.below(20) {
        0..=5 => together::call(archive, random, &mut tally.tool.changes),
        6..=16 => next_call(archive, random, &mut tally.tool.changes),
        17 | 18 => walk::call(archive, random, &mut tally.tool.changes),
        // One of these takes as long as some six of the others.
        _ => board::call(archive, random, tally),
    }
}

/// Looks for a change between two random images.
fn next_call(
    archive: &impl Archive,
    random: &mut Random,
    tally: &mut ChangeTally,
) -> Result<(), String> {
    let (before, after) = any_images(random);
    let from = any_from(random, &before, &after);
    let search = Search {
        before: &before,
        after: &after,
        from,
    };
    let room = match random.below(8) {
        0 => 0,
        1 => LEAST_ROOM - 1,
        2 => LEAST_ROOM + 1,
        3 => 100,
        _ => LEAST_ROOM,
    };
    let found = next(archive, search, &random.bytes(room))?;
    tally.next(search, room, &found);
    Ok(())
}

/// Looks for the next change on both sides, with a buffer that holds these bytes before.
pub fn next(archive: &impl Archive, search: Search, room: &[u8]) -> Result<Found, String> {
    let Search {
        before,
        after,
        from,
    } = search;
    let lent = [before, after].map(Guarded::new);
    let mut library = Guarded::new(room);
    let numbers = archive.next_change(lent[0].bytes(), lent[1].bytes(), from, &mut library);
    let mut buffer = room.to_vec();
    let found = model::next_change(before, after, from, &mut buffer);
    let compared = same(numbers == changed(found), "the answers differ")
        .and_then(|()| same(library.bytes() == buffer, "the buffers differ"))
        .and_then(|()| same(library.is_intact(), "a byte outside the buffer is changed"))
        .and_then(|()| untouched(&lent[0], before))
        .and_then(|()| untouched(&lent[1], after))
        .and_then(|()| compare_alone(search, numbers, room, library.bytes()));
    compared.map_err(|what| {
        format!(
            "looking for a change: {what}\nold      {}\nnew      {}\nfrom     {from}\n\
             before   {}\nlibrary  {numbers:?} {}\nmodel    {found:?} {}\n",
            hex(before),
            hex(after),
            hex(room),
            hex(library.bytes()),
            hex(&buffer)
        )
    })?;
    Ok(found.map(|change| {
        let change = change?;
        buffer.truncate(2 * change.count);
        Some(Step {
            start: change.start,
            pairs: buffer,
        })
    }))
}

/// Tests of the library alone what the change has to be, whatever the model does: `room` is what
/// the buffer held before, and `pairs` what it holds afterwards.
fn compare_alone(
    search: Search,
    numbers: Change,
    room: &[u8],
    pairs: &[u8],
) -> Result<(), &'static str> {
    let refusal = if search.before.len() != search.after.len() {
        1
    } else if room.len() < LEAST_ROOM {
        2
    } else {
        0
    };
    same(numbers.refusal == refusal, "another refusal is due")?;
    let due = search.due().filter(|_| refusal == 0);
    same(
        numbers.given.get() == due.is_some(),
        "whether there is a change is not as due",
    )?;
    let found = (numbers.start, numbers.count);
    let Some(due) = due else {
        same(
            found == (0, 0),
            "a number is not 0 where there is no change",
        )?;
        return same(pairs == room, "the buffer is written without a change");
    };
    same(
        found == due,
        "the change is not from the first difference to the last in reach",
    )?;
    compare_pairs(search, found, room, pairs)
}

/// The pairs of a change, and what is behind them.
fn compare_pairs(
    search: Search,
    (start, count): (usize, usize),
    room: &[u8],
    pairs: &[u8],
) -> Result<(), &'static str> {
    let (own, behind) = pairs.split_at(2 * count);
    same(
        *behind == room[2 * count..],
        "a byte is changed behind the pairs",
    )?;
    let mut own = own.chunks_exact(2).zip(start..);
    same(
        own.all(|(pair, index)| {
            let mask = search.before[index] ^ search.after[index];
            pair == [mask, search.after[index] & mask]
        }),
        "a pair is not of the bits that differ",
    )
}

#[cfg(test)]
mod tests {
    use super::*;
    use crate::ffi::Flag;

    const fn change(refusal: u32, given: bool, start: usize, count: usize) -> Change {
        Change {
            refusal,
            given: Flag::of(given),
            start,
            count,
        }
    }

    /// What is said of a change from index 0 on, with this buffer before and afterwards.
    fn alone(
        images: [&[u8]; 2],
        numbers: Change,
        room: &[u8],
        pairs: &[u8],
    ) -> Result<(), &'static str> {
        let [before, after] = images;
        let search = Search {
            before,
            after,
            from: 0,
        };
        compare_alone(search, numbers, room, pairs)
    }

    #[test]
    fn what_both_sides_do_wrongly_is_found() {
        let images = [&[1, 2, 3, 4][..], &[1, 6, 3, 0]];
        let room = [0xEE; 65];
        let mut pairs = room;
        pairs[..6].copy_from_slice(&[4, 4, 0, 0, 4, 0]);
        let good = change(0, true, 1, 3);
        assert_eq!(alone(images, good, &room, &pairs), Ok(()));
        let span = "the change is not from the first difference to the last in reach";
        for (start, count) in [(0, 4), (1, 2), (1, 4), (2, 2), (3, 1)] {
            let numbers = change(0, true, start, count);
            assert_eq!(alone(images, numbers, &room, &pairs), Err(span));
        }
        let none = change(0, false, 0, 0);
        let whether = "whether there is a change is not as due";
        assert_eq!(alone(images, none, &room, &room), Err(whether));
        let mut others = pairs;
        others[6] = 0;
        let behind = "a byte is changed behind the pairs";
        assert_eq!(alone(images, good, &room, &others), Err(behind));
        for index in 0..6 {
            let mut others = pairs;
            others[index] ^= 0x80;
            let bits = "a pair is not of the bits that differ";
            assert_eq!(alone(images, good, &room, &others), Err(bits));
        }
    }

    #[test]
    fn a_refusal_that_is_not_due_is_found() {
        let equal = [&[1, 2][..], &[1, 2]];
        let room = [0xEE; 65];
        let none = |refusal| change(refusal, false, 0, 0);
        let due = "another refusal is due";
        let refused = |images, size: usize| {
            [0, 1, 2].map(|refusal| {
                alone(images, none(refusal), &room[..size], &room[..size]) != Err(due)
            })
        };
        assert_eq!(refused(equal, 64), [true, false, false]);
        assert_eq!(refused(equal, 63), [false, false, true]);
        assert_eq!(refused([&[1], &[1, 2]], 63), [false, true, false]);
        assert_eq!(refused([&[1], &[1, 2]], 64), [false, true, false]);
        let (pairs, left) = ([0; 65], "a number is not 0 where there is no change");
        let written = "the buffer is written without a change";
        assert_eq!(alone(equal, none(0), &room, &pairs), Err(written));
        assert_eq!(
            alone(equal, change(0, false, 2, 0), &room, &room),
            Err(left)
        );
        let whether = "whether there is a change is not as due";
        assert_eq!(
            alone(equal, change(0, true, 0, 0), &room, &room),
            Err(whether)
        );
    }
}
