//! Holds differences that are planted in what the library answers, one at a time. The comparison
//! finds each of them, and nothing where there is none.

use crate::ffi::tool::{Acknowledged, Bytes, Change, Composed, Joined, Pair, Rejection, Reply};
use crate::ffi::{Flag, Places, Pool};
use crate::generate::good_board;
use crate::guarded::Guarded;
use crate::joining::LAST;
use crate::layout::Held;
use crate::planted::{each, keep_ticks, put_back};
use crate::random::Random;
use crate::setup::{Handler, Setup};
use crate::tally::Tally;
use crate::times::Clock;
use crate::tool::join::Listener;
use crate::tool::request::Request;
use crate::tool::said::NOTHING;
use crate::tool::{call, meet, Archive, Library};

/// A difference.
#[derive(Clone, Copy, Debug, PartialEq, Eq)]
enum Fault {
    None,
    // Of the writer.
    Byte6ForFd,
    FeAsFd,
    W2BeforeW1,
    W2OnlyWhereItDoesNotFit,
    CountAsByte,
    CountWithTopBit,
    AddressLeastSignificantFirst,
    MaskedAsPlain,
    OddPairsTaken,
    SixtyFiveBytesTaken,
    FiveByteIdTaken,
    LengthOneMore,
    LengthOneLess,
    LengthWithRefusal,
    ByteBehindTheCommand,
    ByteWhereRefused,
    GuardByte,
    // Of the readers of Received OK and Rejected.
    PendingByReservedBit,
    TimeoutOfSevenBits,
    EmptyReceivedOkRefused,
    TwoByteReceivedOkTaken,
    OneByteCodeAsLow,
    Rejected66Refused,
    Rejected67Taken,
    NoFurtherBytesAsMissing,
    // Of the reader of replies.
    EmptyTextAsNone,
    NoTextAsEmpty,
    TextWithItsZero,
    TextWithoutZeroTaken,
    ZeroWithinTextTaken,
    FailureTextOf64Taken,
    SeventyThreeBytesTaken,
    NoDataTaken,
    SixtyFiveBytesOfDataTaken,
    StartOneMore,
    StartOneLess,
    LengthOfBytesOneLess,
    Bit1Ignored,
    Bit1Assumed,
    NoLowestSpaceAsZero,
    LowestSpaceZeroAsNone,
    NoLowestAddressAsZero,
    LowestAddressZeroAsNone,
    Byte6FormLost,
    CodeWithoutFailure,
    ReservedFlagsCleared,
    AbsentAsPresent,
    AddressReversed,
    WriteAsRead,
    // Of joining.
    PoolStartOneMore,
    PoolEndOneLess,
    FinishedAsPart,
    PlaceNotFreed,
    OutOfOrderAsTooLong,
    DamagedAsIgnored,
    PoolChangedWhereIgnored,
    OldKept,
    OldKeptWhereIgnored,
    TickKeptWhereJoined,
    BrokenFreed,
    SwallowedRefused,
    KeptAfterLast,
}

/// All of them, and how the report on each begins.
const FAULTS: [(Fault, &str); 62] = [
    (Fault::Byte6ForFd, WRITTEN),
    (Fault::W2BeforeW1, WRITTEN),
    (Fault::W2OnlyWhereItDoesNotFit, WRITTEN),
    (Fault::CountAsByte, WRITTEN),
    (Fault::OddPairsTaken, WRITTEN),
    (Fault::SixtyFiveBytesTaken, WRITTEN),
    (Fault::FiveByteIdTaken, WRITTEN),
    (Fault::LengthOneMore, WRITTEN),
    (Fault::LengthOneLess, WRITTEN),
    (Fault::LengthWithRefusal, WRITTEN),
    (Fault::FeAsFd, BUFFERS),
    (Fault::CountWithTopBit, BUFFERS),
    (Fault::AddressLeastSignificantFirst, BUFFERS),
    (Fault::MaskedAsPlain, BUFFERS),
    (Fault::ByteBehindTheCommand, BUFFERS),
    (Fault::ByteWhereRefused, BUFFERS),
    (Fault::GuardByte, GUARDS),
    (Fault::PendingByReservedBit, RECEIVED_OK),
    (Fault::TimeoutOfSevenBits, RECEIVED_OK),
    (Fault::EmptyReceivedOkRefused, RECEIVED_OK),
    (Fault::TwoByteReceivedOkTaken, RECEIVED_OK),
    (Fault::OneByteCodeAsLow, REJECTED),
    (Fault::Rejected66Refused, REJECTED),
    (Fault::Rejected67Taken, REJECTED),
    (Fault::NoFurtherBytesAsMissing, REJECTED),
    (Fault::EmptyTextAsNone, REPLY),
    (Fault::NoTextAsEmpty, REPLY),
    (Fault::TextWithItsZero, REPLY),
    (Fault::TextWithoutZeroTaken, REPLY),
    (Fault::ZeroWithinTextTaken, REPLY),
    (Fault::FailureTextOf64Taken, REPLY),
    (Fault::SeventyThreeBytesTaken, REPLY),
    (Fault::NoDataTaken, REPLY),
    (Fault::SixtyFiveBytesOfDataTaken, REPLY),
    (Fault::StartOneMore, REPLY),
    (Fault::StartOneLess, REPLY),
    (Fault::LengthOfBytesOneLess, REPLY),
    (Fault::Bit1Ignored, REPLY),
    (Fault::Bit1Assumed, REPLY),
    (Fault::NoLowestSpaceAsZero, REPLY),
    (Fault::LowestSpaceZeroAsNone, REPLY),
    (Fault::NoLowestAddressAsZero, REPLY),
    (Fault::LowestAddressZeroAsNone, REPLY),
    (Fault::Byte6FormLost, REPLY),
    (Fault::CodeWithoutFailure, REPLY),
    (Fault::ReservedFlagsCleared, REPLY),
    (Fault::AbsentAsPresent, REPLY),
    (Fault::AddressReversed, REPLY),
    (Fault::WriteAsRead, REPLY),
    (Fault::FinishedAsPart, JOINED),
    (Fault::OutOfOrderAsTooLong, JOINED),
    (Fault::DamagedAsIgnored, JOINED),
    (Fault::PoolStartOneMore, POOL),
    (Fault::PoolEndOneLess, POOL),
    (Fault::PlaceNotFreed, HELD),
    (Fault::PoolChangedWhereIgnored, STATE),
    (Fault::OldKept, OLD),
    (Fault::OldKeptWhereIgnored, OLD),
    (Fault::TickKeptWhereJoined, TICKS),
    (Fault::BrokenFreed, UNFINISHED),
    (Fault::SwallowedRefused, JOINED),
    (Fault::KeptAfterLast, UNFINISHED),
];
const WRITTEN: &str = "writing a command: the answers differ";
const BUFFERS: &str = "writing a command: the buffers differ";
const GUARDS: &str = "writing a command: a byte outside the buffer is changed";
const RECEIVED_OK: &str = "reading Received OK: the answers differ";
const REJECTED: &str = "reading Rejected: the answers differ";
const REPLY: &str = "reading a reply: the answers differ";
const JOINED: &str = "joining a frame: the answers differ";
const POOL: &str = "joining a frame: the datagram is not where it is said to be";
const HELD: &str = "joining a frame: the pool is changed for a place that did not change";
const STATE: &str = "joining a frame: a frame that is not joined changed the state";
const OLD: &str = "joining a frame: a place with something due is not dropped";
const TICKS: &str = "joining a frame: a place that changed has another tick than the call";
const UNFINISHED: &str = "joining a frame: the unfinished datagrams differ";

const YES: Flag = Flag::of(true);
const NO: Flag = Flag::of(false);

/// The library with a difference.
struct Planted(Fault);

impl Planted {
    /// What the writer is asked for instead.
    fn asked(&self, request: &Request) -> Request {
        let mut asked = request.clone();
        match (self.0, &mut asked) {
            (Fault::CountAsByte, Request::Read { count, .. }) => *count &= 0xFF,
            (Fault::OddPairsTaken, Request::WriteMasked { pairs, .. }) => {
                pairs.truncate(pairs.len() / 2 * 2);
            }
            (Fault::SixtyFiveBytesTaken, Request::Write { bytes, .. }) if bytes.len() == 65 => {
                bytes.pop();
            }
            (Fault::FiveByteIdTaken, Request::Lock { id }) if id.len() == 5 => id.push(0),
            (
                Fault::Byte6ForFd,
                Request::Read { space, .. }
                | Request::Write { space, .. }
                | Request::WriteMasked { space, .. },
            ) if *space == 0xFD => *space = 0xFC,
            _ => {}
        }
        asked
    }

    /// Spoils a command that was written, and its length.
    fn spoil(&self, request: &Request, asked: &Request, len: &mut usize, buffer: &mut Guarded) {
        let bytes = buffer.bytes_mut();
        match self.0 {
            Fault::Byte6ForFd if request != asked => bytes[6] = 0xFD,
            Fault::SixtyFiveBytesTaken if request != asked => {
                let Request::Write { bytes: data, .. } = request else {
                    return;
                };
                bytes[*len] = data[64];
                *len += 1;
            }
            Fault::FeAsFd if matches!(bytes[1], 0x02 | 0x0A | 0x42) => bytes[1] -= 1,
            Fault::CountWithTopBit if matches!(request, Request::Read { .. }) => {
                bytes[*len - 1] |= 0x80;
            }
            Fault::AddressLeastSignificantFirst if bytes[1] < 0x80 => bytes[2..6].reverse(),
            Fault::MaskedAsPlain if matches!(bytes[1], 0x08..=0x0B) => bytes[1] -= 0x08,
            Fault::LengthOneMore => *len += 1,
            Fault::LengthOneLess => *len -= 1,
            Fault::ByteBehindTheCommand => bytes[*len] ^= 1,
            Fault::GuardByte => buffer.overrun(),
            _ => {}
        }
    }

    /// What the reader of replies says of a datagram that it refuses: it takes one that differs
    /// from a reply in this way alone.
    fn taken(&self, datagram: &[u8]) -> Reply {
        let command = datagram.get(1).copied().unwrap_or(0);
        let (failed, read) = (
            matches!(command, 0x18..=0x1B | 0x58..=0x5B),
            matches!(command, 0x50..=0x53),
        );
        // The reply that it would be, and how many bytes more it has.
        let (reply, more) = match self.0 {
            Fault::TextWithoutZeroTaken if !read => ([datagram, &[0][..]].concat(), 0),
            Fault::ZeroWithinTextTaken if !read => {
                let mut reply = datagram.to_vec();
                let last = reply.len().saturating_sub(1);
                let text = &mut reply[last.min(12)..last];
                text.iter_mut().for_each(|byte| *byte = (*byte).max(1));
                (reply, 0)
            }
            Fault::FailureTextOf64Taken if failed && datagram.len() == 72 => {
                ([&datagram[..70], &datagram[71..]].concat(), 1)
            }
            Fault::SeventyThreeBytesTaken if !failed && datagram.len() == 73 => {
                ([&datagram[..71], &datagram[72..]].concat(), 1)
            }
            Fault::NoDataTaken if read => ([datagram, &[0][..]].concat(), -1),
            Fault::SixtyFiveBytesOfDataTaken if read && !datagram.is_empty() => {
                (datagram[..datagram.len() - 1].to_vec(), 1)
            }
            _ => return NOTHING,
        };
        let mut reply = Library.read_reply(&reply);
        if reply.bytes.given == NO {
            return NOTHING;
        }
        reply.bytes.len = reply.bytes.len.saturating_add_signed(more);
        reply
    }

    /// What the reader of replies says where bit 1 of the flags is as it should not be looked at.
    fn with_bit_1(&self, datagram: &[u8], set: bool) -> Reply {
        let mut other = datagram.to_vec();
        other[7] = (other[7] & !2) | (u8::from(set) << 1);
        let mut reply = Library.read_reply(&other);
        if reply.kind == 6 {
            reply.information.flags = datagram[7];
        }
        reply
    }
}

impl Handler for Planted {}

impl Archive for Planted {
    fn compose(&self, request: &Request, buffer: &mut Guarded) -> Composed {
        let (short, asked) = (buffer.bytes().len() < 72, self.asked(request));
        if self.0 == Fault::W2BeforeW1 && short {
            return Composed { refusal: 2, len: 0 };
        }
        let mut done = Library.compose(&asked, buffer);
        match (self.0, done.refusal) {
            (_, 0) => self.spoil(request, &asked, &mut done.len, buffer),
            (Fault::LengthWithRefusal, _) => done.len = 2,
            (Fault::ByteWhereRefused, _) => {
                if let Some(first) = buffer.bytes_mut().first_mut() {
                    *first ^= 1;
                }
            }
            (Fault::W2OnlyWhereItDoesNotFit, 2) => {
                let mut longer = Guarded::new(&[0; 72]);
                let longer_done = Library.compose(&asked, &mut longer);
                let room = buffer.bytes_mut().get_mut(..longer_done.len);
                if let Some(room) = room {
                    room.copy_from_slice(&longer.bytes()[..longer_done.len]);
                    done = longer_done;
                }
            }
            _ => {}
        }
        done
    }

    fn read_received_ok(&self, content: &[u8]) -> Acknowledged {
        let mut read = Library.read_received_ok(content);
        match (self.0, content) {
            (Fault::PendingByReservedBit, &[flags]) => read.pending = Flag::of(flags & 0xF0 != 0),
            (Fault::TimeoutOfSevenBits, &[flags]) => read.timeout = flags & 0x7F,
            (Fault::EmptyReceivedOkRefused, []) => read.refusal = 3,
            (Fault::TwoByteReceivedOkTaken, [first, _]) => {
                read = Library.read_received_ok(&[*first]);
            }
            _ => {}
        }
        read
    }

    fn read_rejected(&self, content: &[u8]) -> Rejection {
        let mut read = Library.read_rejected(content);
        match (self.0, content.len()) {
            (Fault::OneByteCodeAsLow, 1) => read.code = u16::from(content[0]),
            (Fault::Rejected66Refused, 66) => read = Library.read_rejected(&[0; 67]),
            (Fault::Rejected67Taken, 67) => {
                read = Library.read_rejected(&content[..66]);
                read.further.len += 1;
            }
            (Fault::NoFurtherBytesAsMissing, 2) => read.further = NOTHING.bytes,
            _ => {}
        }
        read
    }

    fn read_reply(&self, datagram: &[u8]) -> Reply {
        let mut reply = Library.read_reply(datagram);
        if reply.kind == 0 {
            return self.taken(datagram);
        }
        let Bytes { given, start, len } = &mut reply.bytes;
        let has_text = matches!(reply.kind, 2 | 4 | 5 | 6);
        let placed = matches!(reply.kind, 1..=4);
        match self.0 {
            Fault::EmptyTextAsNone if has_text && *len == 0 => reply.bytes = NOTHING.bytes,
            Fault::NoTextAsEmpty if has_text && *given == NO => {
                (*given, *start) = (YES, datagram.len());
            }
            Fault::TextWithItsZero if has_text && *given == YES => *len += 1,
            Fault::StartOneMore if *given == YES => *start += 1,
            Fault::StartOneLess if *given == YES => *start -= 1,
            Fault::LengthOfBytesOneLess if *len != 0 => *len -= 1,
            Fault::Bit1Ignored if reply.kind == 6 => return self.with_bit_1(datagram, false),
            Fault::Bit1Assumed if reply.kind == 6 => return self.with_bit_1(datagram, true),
            Fault::NoLowestSpaceAsZero if reply.kind == 5 => reply.options.has_lowest_space = YES,
            Fault::LowestSpaceZeroAsNone if reply.options.lowest_space == 0 => {
                reply.options.has_lowest_space = NO;
            }
            Fault::NoLowestAddressAsZero if reply.kind == 6 => {
                reply.information.has_lowest_address = YES;
            }
            Fault::LowestAddressZeroAsNone if reply.information.lowest_address == 0 => {
                reply.information.has_lowest_address = NO;
            }
            Fault::Byte6FormLost if placed && reply.space >= 0xFD => {
                reply.form = reply.space - 0xFC;
            }
            Fault::CodeWithoutFailure if matches!(reply.kind, 1 | 3) => reply.code = 0x1082,
            Fault::ReservedFlagsCleared => reply.information.flags &= 3,
            Fault::AbsentAsPresent if reply.kind == 6 => reply.information.present = YES,
            Fault::AddressReversed => reply.address = reply.address.swap_bytes(),
            Fault::WriteAsRead if reply.kind == 4 => reply.kind = 2,
            _ => {}
        }
        reply
    }

    fn join(
        &self,
        alias: u16,
        pool: &mut Pool,
        places: &mut Places,
        header: u32,
        payload: &[u8],
    ) -> Joined {
        let before = *places;
        if self.0 == Fault::OldKept {
            each(places, |held| Some(Held { tick: 0, ..held }));
        }
        let seen = *places;
        let mut joined = Library.join(alias, pool, places, header, payload);
        put_back(&before, &seen, places);
        match (self.0, joined.kind) {
            (Fault::OldKeptWhereIgnored, 1) => *places = before,
            (Fault::TickKeptWhereJoined, 2) => keep_ticks(&before, places),
            (Fault::PoolStartOneMore, 5) => joined.start += 1,
            (Fault::PoolEndOneLess, 5) => joined.end = joined.end.saturating_sub(1),
            (Fault::FinishedAsPart, 4) => joined.kind = 2,
            (Fault::PlaceNotFreed, 5) => *places = before,
            (Fault::OutOfOrderAsTooLong, 3) if joined.code == 0x2040 => joined.code = 0x2000,
            (Fault::DamagedAsIgnored, 0) => joined.kind = 1,
            (Fault::PoolChangedWhereIgnored, 1) => pool[575] ^= 1,
            (Fault::BrokenFreed, 3) => each(places, |held| {
                let broken = u32::from(held.source) == header & 0xFFF;
                (!broken).then_some(held)
            }),
            (Fault::SwallowedRefused, 2) if *places == before => {
                (joined.kind, joined.code) = (3, 0x2040);
            }
            (Fault::KeptAfterLast, 2) if header >> 24 == LAST => *places = before,
            _ => {}
        }
        joined
    }

    fn put_together(&self, earlier: Pair, later: Pair) -> Pair {
        Library.put_together(earlier, later)
    }

    fn next_change(&self, before: &[u8], after: &[u8], from: usize, pairs: &mut Guarded) -> Change {
        Library.next_change(before, after, from, pairs)
    }
}

/// The calls that are made until a difference is found, at most.
const CALLS: usize = 20_000;

/// What a comparison is made with.
struct Bench {
    random: Random,
    setup: Setup,
    listener: Listener,
    tally: Tally,
}

impl Bench {
    fn new(seed: u64) -> Self {
        let mut random = Random::new(seed);
        let board = good_board(&mut random);
        Self {
            setup: Setup::new(&mut random, board, [0; 64], Clock::at(0)),
            listener: Listener::new(&mut random),
            tally: Tally::default(),
            random,
        }
    }
}

/// The report on a fault, if it is found by so many of these calls.
fn found(
    fault: Fault,
    calls: usize,
    mut made: impl FnMut(&Planted, &mut Bench) -> Result<(), String>,
) -> Option<String> {
    let planted = Planted(fault);
    for world in 0..calls as u64 / 200 {
        let mut bench = Bench::new(world);
        for _ in 0..200 {
            if let Err(report) = made(&planted, &mut bench) {
                return Some(report);
            }
        }
    }
    None
}

fn any_call(planted: &Planted, bench: &mut Bench) -> Result<(), String> {
    let Bench {
        random,
        setup,
        listener,
        tally,
    } = bench;
    call(planted, setup, listener, random, tally)
}

#[test]
fn nothing_is_found_where_nothing_is_planted() {
    assert_eq!(found(Fault::None, 4_000, any_call), None);
}

#[test]
fn each_difference_is_found() {
    for (fault, begins) in FAULTS {
        let report = found(fault, CALLS, any_call).unwrap_or_default();
        // What is found while a board is asked is reported as such.
        let report = report.strip_prefix("asking a board: ").unwrap_or(&report);
        assert!(report.starts_with(begins), "{fault:?}: {report:?}");
    }
}

#[test]
fn what_a_board_answers_is_enough_to_find_some() {
    type Call = fn(&Planted, &mut Bench) -> Result<(), String>;
    let whole: Call = |planted, bench| {
        meet::whole(
            planted,
            &mut bench.setup,
            &mut bench.random,
            &mut bench.tally,
        )
    };
    let frames: Call = |planted, bench| {
        meet::frames(
            planted,
            &mut bench.setup,
            &mut bench.random,
            &mut bench.tally,
        )
    };
    for (call, faults) in [
        (
            whole,
            &[
                Fault::Byte6ForFd,
                Fault::FeAsFd,
                Fault::StartOneMore,
                Fault::NoTextAsEmpty,
                Fault::LowestSpaceZeroAsNone,
                Fault::NoLowestAddressAsZero,
                Fault::Byte6FormLost,
                Fault::NoFurtherBytesAsMissing,
            ][..],
        ),
        (
            frames,
            &[
                Fault::AddressLeastSignificantFirst,
                Fault::LengthOneLess,
                Fault::StartOneLess,
                Fault::Bit1Ignored,
                Fault::WriteAsRead,
                Fault::PoolStartOneMore,
                Fault::FinishedAsPart,
                Fault::PlaceNotFreed,
                Fault::PoolChangedWhereIgnored,
            ],
        ),
    ] {
        assert_eq!(found(Fault::None, 1_000, call), None);
        for fault in faults {
            assert!(found(*fault, CALLS, call).is_some(), "{fault:?}");
        }
    }
}
