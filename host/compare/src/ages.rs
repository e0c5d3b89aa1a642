//! Holds the comparison of one held place at every age that a tick can tell, by a lone tick and by
//! a frame that is ignored: with an unfinished datagram, and while its source is being swallowed.
//! Of the latter also by a Middle of its own, which is swallowed or comes too late.

use crate::demonstration::{ALIAS, FLASH, MEMORY_LEN, TABLE, WRITE_LENGTHS};
use crate::ffi::{Places, PLACES, PLACES_SIZE, SENT_SIZE};
use crate::generate::{held_for, Board, Incoming, LAST_ALIAS};
use crate::layout::{any_place, set_place};
use crate::random::Random;
use crate::setup::{Handler, Setup};
use crate::tally::Tally;
use crate::times::{Clock, ROUND};

/// The ticks of the calls.
const TICKS: [u16; 7] = [0, 1, 2_999, 3_000, 3_001, 32_768, 65_535];

/// The headers of frames that are ignored, but for the source: one to another board, and one of
/// another kind.
const IGNORED: [u32; 2] = [0x1C30_0000, 0x1949_0000];
/// That of a Middle, but for the source.
const MIDDLE: u32 = 0x1C00_0000 | (ALIAS as u32) << 12;

/// Makes these calls at each of these ticks for every age, and gives their number. What is reached
/// here counts nowhere: the random calls are to reach it too.
pub fn every(handler: &impl Handler) -> Result<u64, String> {
    let mut random = Random::new(14);
    let board = Board::new(
        ALIAS,
        WRITE_LENGTHS,
        TABLE.to_vec(),
        FLASH.len(),
        MEMORY_LEN,
    );
    let setup = Setup::new(&mut random, board, [0; PLACES_SIZE], Clock::at(0));
    let mut ages = Ages {
        handler,
        setup,
        tally: Tally::default(),
        calls: 0,
    };
    for tick in TICKS {
        for age in 0..=u16::MAX {
            for swallowing in [false, true] {
                ages.at(&mut random, tick, age, swallowing)?;
            }
        }
    }
    Ok(ages.calls)
}

/// What the calls are made with.
struct Ages<'h, H: Handler> {
    handler: &'h H,
    setup: Setup,
    tally: Tally,
    calls: u64,
}

impl<H: Handler> Ages<'_, H> {
    /// Makes the calls on a place that is so old at this tick.
    fn at(
        &mut self,
        random: &mut Random,
        tick: u16,
        age: u16,
        swallowing: bool,
    ) -> Result<(), String> {
        // Any but the board's own, from which a Middle would be ignored.
        let other = usize::from(ALIAS) + random.between(1, LAST_ALIAS.into());
        let source = other as u16 & LAST_ALIAS;
        let places = one_held(random, source, tick, age, swallowing);
        // Any round but the first, in which there is no time so long ago.
        let round = 1 + (random.number() >> random.between(17, 63));
        let clock = Clock::at(ROUND * round + u64::from(tick));
        self.setup.set_places(&places, clock);
        self.setup.tick(self.handler, &mut self.tally)?;
        self.calls += 1;
        let ignored = random.pick(&IGNORED);
        let headers = if swallowing {
            &[ignored, MIDDLE][..]
        } else {
            &[ignored]
        };
        for header in headers {
            let frame = Incoming {
                header: header | u32::from(source),
                data: vec![0x20],
            };
            self.setup.set_places(&places, clock);
            let (reply, room) = ([0; 72], [0; SENT_SIZE]);
            let (handler, tally) = (self.handler, &mut self.tally);
            self.setup.frame(handler, &frame, &reply, &room, tally)?;
            self.calls += 1;
        }
        Ok(())
    }
}

/// Places of which one is held, by this source and so old at this tick; the others hold anything.
fn one_held(random: &mut Random, source: u16, tick: u16, age: u16, swallowing: bool) -> Places {
    let mut places = [0; PLACES_SIZE];
    let held = random.below(PLACES);
    for index in 0..PLACES {
        let what = (index == held).then(|| held_for(random, swallowing, source, tick, age));
        set_place(&mut places, index, any_place(random, what));
    }
    places
}
