//! Holds the comparison of changes on a board: a tool reads an image of a writable space, and takes
//! it to a new one by masked writes, while another tool writes to other bits of the same memory.

use core::ops::Range;
use std::fmt::Write as _;

use crate::answer::Answer;
use crate::ffi::PLACES_SIZE;
use crate::generate::Board;
use crate::random::Random;
use crate::setup::{hex, Setup};
use crate::tally::Tally;
use crate::times::Clock;
use crate::tool::change::images::{altered, LONGEST};
use crate::tool::change::walk::{walk, Place};
use crate::tool::change::Step;
use crate::tool::meet::{buffer, command};
use crate::tool::read;
use crate::tool::request::Request;
use crate::tool::said::Said;
use crate::tool::Archive;
use crate::writes::aimed::{write_within, Write};
use crate::writes::boards::{bytes_of, overlapping_board, writable};

/// The most bytes of a read.
pub const MOST_READ: usize = 64;

/// The bytes of a writable space that a tool has an image of.
#[derive(Clone, Debug)]
pub struct Stretch {
    /// Where the first is.
    pub place: Place,
    /// Their indices into memory.
    pub bytes: Range<usize>,
    /// Whether they are all of the space.
    pub whole: bool,
}

/// What a tool does on a board, and what another does in between.
#[derive(Clone, Debug)]
pub struct Visit {
    /// What there is an image of.
    pub stretch: Stretch,
    /// The old image.
    pub before: Vec<u8>,
    /// The new one.
    pub after: Vec<u8>,
    /// The changes, with their commands.
    pub steps: Vec<(Step, Vec<u8>)>,
    /// The write of the other tool, if there is one, and how many changes come before it.
    pub other: Option<(Write, usize)>,
}

/// Makes a board, and takes an image of one of its spaces to another.
pub fn call(archive: &impl Archive, random: &mut Random, tally: &mut Tally) -> Result<(), String> {
    let board = overlapping_board(random);
    let mut setup = Setup::new(random, board, [0; PLACES_SIZE], Clock::at(0));
    let stretch = any_stretch(random, setup.board());
    let before = image(archive, &mut setup, &stretch, random, tally)?;
    let after = altered(random, &before);
    let steps = walk(archive, random, stretch.place, &before, &after)?;
    let other = any_other(random, setup.board(), &stretch, [&before, &after]);
    let other = other.map(|write| (write, random.between(0, steps.len())));
    let visit = Visit {
        stretch,
        before,
        after,
        steps,
        other,
    };
    visit.compare(archive, &mut setup, random, tally)?;
    tally.tool.changes.visit(&visit);
    Ok(())
}

/// The bytes of a writable space, all of them or some: not more than an image has.
fn any_stretch(random: &mut Random, board: &Board) -> Stretch {
    let count = writable(board).count();
    let space = writable(board).nth(random.below(count));
    let space = space.expect("two writable spaces at least");
    let all = bytes_of(space);
    let most = all.len().min(LONGEST);
    let count = if random.once_in(4) {
        random.between(1, most)
    } else {
        most
    };
    let start = match random.below(3) {
        0 => all.start,
        1 => all.end - count,
        _ => random.between(all.start, all.end - count),
    };
    Stretch {
        place: Place {
            space: space.number,
            address: space.lowest + (start - all.start) as u32,
        },
        bytes: start..start + count,
        whole: count == all.len(),
    }
}

/// A write of another tool, if it has one: to bits that are the same in both images, or to bytes
/// that are not in them.
fn any_other(
    random: &mut Random,
    board: &Board,
    stretch: &Stretch,
    [before, after]: [&[u8]; 2],
) -> Option<Write> {
    if random.once_in(3) {
        return None;
    }
    let mut bits = vec![0xFF; board.memory_len];
    for (bits, (old, new)) in bits[stretch.bytes.clone()]
        .iter_mut()
        .zip(before.iter().zip(after))
    {
        *bits = !(old ^ new);
    }
    Some(write_within(random, board, &bits))
}

/// Reads an image from both boards, by as many reads as there must be.
fn image(
    archive: &impl Archive,
    setup: &mut Setup,
    stretch: &Stretch,
    random: &mut Random,
    tally: &mut Tally,
) -> Result<Vec<u8>, String> {
    let mut image = Vec::with_capacity(stretch.bytes.len());
    while image.len() < stretch.bytes.len() {
        let request = Request::Read {
            space: stretch.place.space,
            address: stretch.place.address + image.len() as u32,
            count: (stretch.bytes.len() - image.len()).min(MOST_READ),
        };
        let command = command(archive, &request, random)?;
        let answer = setup.datagram(archive, &command, &buffer(random), tally)?;
        let reply = match answer {
            Answer::Replied(length) => &setup.reply()[..length],
            _ => &[],
        };
        match read::reply(archive, reply)? {
            Said::Read { data, .. } => image.extend(data.within(reply).unwrap_or_default()),
            said => return Err(format!("an image: {request:X?} is answered by {said:X?}\n")),
        }
    }
    Ok(image)
}

impl Visit {
    /// Hands all commands to both boards, and the other tool's write in between. The bits that
    /// differ are then those of the new image, those that the other tool has touched are as it has
    /// set them, and all others of memory are as they were.
    fn compare(
        &self,
        archive: &impl Archive,
        setup: &mut Setup,
        random: &mut Random,
        tally: &mut Tally,
    ) -> Result<(), String> {
        let bytes = self.stretch.bytes.clone();
        if setup.memory()[bytes.clone()] != self.before {
            return Err(self.report("the old image is not what is in memory", setup));
        }
        let expected = self.expected(setup.memory());
        for (datagram, start, count) in self.datagrams() {
            let answer = setup.datagram(archive, datagram, &buffer(random), tally)?;
            if answer != (Answer::Written { start, count }) {
                let what = format!("{} is answered by {answer:X?}", hex(datagram));
                return Err(self.report(&what, setup));
            }
        }
        if setup.memory() != expected {
            return Err(self.report("memory is not as both have set it", setup));
        }
        let read = image(archive, setup, &self.stretch, random, tally)?;
        if read != expected[bytes] {
            return Err(self.report(&format!("the space reads as {}", hex(&read)), setup));
        }
        Ok(())
    }

    /// What memory has to be in the end.
    fn expected(&self, memory: &[u8]) -> Vec<u8> {
        let mut expected = memory.to_vec();
        expected[self.stretch.bytes.clone()].copy_from_slice(&self.after);
        if let Some((write, _)) = &self.other {
            write.apply(&mut expected);
        }
        expected
    }

    /// All datagrams in their order, each with the bytes of memory that it names: the index of the
    /// first, and how many.
    fn datagrams(&self) -> Vec<(&[u8], usize, usize)> {
        let own = self.steps.iter().map(|(step, command)| {
            let start = self.stretch.bytes.start + step.start;
            (&command[..], start, step.count())
        });
        let mut all: Vec<_> = own.collect();
        if let Some((write, place)) = &self.other {
            all.insert(*place, (&write.datagram, write.start, write.masks.len()));
        }
        all
    }

    fn report(&self, what: &str, setup: &Setup) -> String {
        let mut report = format!("changes on a board: {what}\n");
        let mut line = |name: &str, text: &str| {
            let _ = writeln!(report, "{name:9} {text}");
        };
        line("table", &hex(setup.board().table()));
        line("image", &format!("{:X?}", self.stretch));
        line("old", &hex(&self.before));
        line("new", &hex(&self.after));
        for (datagram, start, count) in self.datagrams() {
            let text = format!("{}, {count} bytes from {start}", hex(datagram));
            line("datagram", &text);
        }
        if let Some((write, place)) = &self.other {
            line("other", &format!("at {place}: {write:X?}"));
        }
        line("memory", &hex(setup.memory()));
        report
    }
}

#[cfg(test)]
mod tests {
    use super::*;
    use crate::demonstration::{ALIAS, FLASH, MEMORY_LEN, TABLE, WRITE_LENGTHS};
    use crate::tool::{bytes, Library};

    /// The demonstration board with any contents.
    fn setup(random: &mut Random) -> Setup {
        let (table, flash) = (TABLE.to_vec(), FLASH.len());
        let board = Board::new(ALIAS, WRITE_LENGTHS, table, flash, MEMORY_LEN);
        Setup::new(random, board, [0; PLACES_SIZE], Clock::at(0))
    }

    /// Byte 32 of memory, which 0xFE and 0x10 have at different addresses.
    fn stretch() -> Stretch {
        Stretch {
            place: Place {
                space: 0xFE,
                address: 0x20,
            },
            bytes: 32..33,
            whole: false,
        }
    }

    /// What is said where the lowest bit of byte 32 is changed, and this write through 0x10 to the
    /// same byte comes before or behind.
    fn said(mask: u8, data: u8, place: usize) -> Result<(), String> {
        let (mut random, mut tally) = (Random::new(16), Tally::default());
        let mut setup = setup(&mut random);
        let before = image(&Library, &mut setup, &stretch(), &mut random, &mut tally)?;
        let after = vec![before[0] ^ 1];
        let steps = walk(&Library, &mut random, stretch().place, &before, &after)?;
        let digits = format!("20080000010010{mask:02X}{:02X}", data ^ before[0]);
        let write = Write {
            number: 0x10,
            address: 0x100,
            start: 32,
            masked: true,
            masks: vec![mask],
            datagram: bytes(&digits),
        };
        let visit = Visit {
            stretch: stretch(),
            before,
            after,
            steps,
            other: Some((write, place)),
        };
        visit.compare(&Library, &mut setup, &mut random, &mut tally)
    }

    #[test]
    fn two_tools_in_one_byte() {
        for place in [0, 1] {
            assert_eq!(said(0xFE, 0xFF, place), Ok(()));
            assert_eq!(said(0x80, 0x80, place), Ok(()));
        }
        // Of a bit that both write, the later is seen.
        assert_eq!(said(0x81, 0x80, 1), Ok(()));
        let lost = said(0x81, 0x80, 0).unwrap_err();
        let begins = "changes on a board: memory is not as both have set it\n";
        assert!(lost.starts_with(begins), "{lost}");
    }

    #[test]
    fn a_visit_that_is_not_as_it_should_be_is_found() {
        let (mut random, mut tally) = (Random::new(16), Tally::default());
        let mut setup = setup(&mut random);
        let before = image(&Library, &mut setup, &stretch(), &mut random, &mut tally)
            .expect("no difference");
        let after = vec![!before[0]];
        let steps = walk(&Library, &mut random, stretch().place, &before, &after);
        let good = Visit {
            stretch: stretch(),
            before,
            after,
            steps: steps.expect("no difference"),
            other: None,
        };
        let mut found = |alter: fn(&mut Visit)| {
            let mut visit = good.clone();
            alter(&mut visit);
            let mut setup = setup.clone();
            let compared = visit.compare(&Library, &mut setup, &mut random, &mut tally);
            compared.map_err(|report| report.lines().next().unwrap_or_default().to_owned())
        };
        assert_eq!(found(|_| ()), Ok(()));
        let what = |text: &str| Err(format!("changes on a board: {text}"));
        assert_eq!(
            found(|visit| visit.before[0] ^= 1),
            what("the old image is not what is in memory")
        );
        let memory = "memory is not as both have set it";
        assert_eq!(found(|visit| visit.after[0] ^= 1), what(memory));
        assert_eq!(found(|visit| visit.steps.clear()), what(memory));
        assert!(found(|visit| visit.steps[0].0.start += 1).is_err());
        assert!(found(|visit| visit.steps[0].0.pairs.clear()).is_err());
    }
}
