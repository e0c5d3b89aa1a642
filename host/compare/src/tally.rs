//! Holds the counts of the cases that were reached. A comparison that never reaches a case shows
//! nothing about it, so that a count of zero is a failure.

use crate::answer::Answer;
use crate::faults::{limit_number, Damage, Faults, Wrong, LIMITS};
use crate::ffi::MOST_SPACES;
use crate::generate::COMMANDS;
use crate::layout::TableKind;
use crate::tool::cases::ToolTally;
use crate::writes::cases::WriteTally;

/// Makes an enum of cases, with their names and with the calls that reach them.
macro_rules! cases {
    ($case:ident; $($(#[$doc:meta])* $name:ident = $text:literal, $here:ident;)*) => {
        /// A case that has to be reached.
        #[derive(Clone, Copy, Debug, PartialEq, Eq)]
        pub enum $case { $($(#[$doc])* $name,)* }

        impl $case {
            const ALL: &'static [(Self, &'static str, $crate::tally::Reach)] =
                &[$((Self::$name, $text, $crate::tally::Reach::$here),)*];
        }
    };
}
pub(crate) use cases;

/// By which calls a case can be reached.
#[derive(Clone, Copy, PartialEq, Eq)]
pub(crate) enum Reach {
    /// By frames and by whole datagrams.
    Both,
    /// By frames alone.
    Frames,
    /// By neither: by the smaller calls.
    Small,
}

cases! {
    Case;
    /// B11.
    B11 = "B11 refused", Both;
    /// B12.
    B12 = "B12 refused", Both;
    /// B13.
    B13 = "B13 refused", Both;
    /// B14.
    B14 = "B14 refused", Both;
    /// B2.
    B2 = "B2 refused", Both;
    /// B3.
    B3 = "B3 refused", Both;
    /// B4.
    B4 = "B4 refused", Both;
    /// B5.
    B5 = "B5 refused", Both;
    /// B6.
    B6 = "B6 refused", Both;
    /// B7.
    B7 = "B7 refused", Frames;
    /// B2 of the first space.
    B2First = "B2 at position 0", Both;
    /// B3 of the first space.
    B3First = "B3 at position 0", Both;
    /// B4 of the first space.
    B4First = "B4 at position 0", Both;
    /// B5 of the second space; the first has none, since no space is earlier.
    B5Second = "B5 at position 1", Both;
    /// B2 with a good space before it, and with a space behind it.
    B2Middle = "B2 at 1 to 14, a space behind it", Both;
    /// B3 with a good space before it, and with a space behind it.
    B3Middle = "B3 at 1 to 14, a space behind it", Both;
    /// B4 with a good space before it, and with a space behind it.
    B4Middle = "B4 at 1 to 14, a space behind it", Both;
    /// B5 with good spaces before it, and with a space behind it.
    B5Middle = "B5 at 2 to 14, a space behind it", Both;
    /// B2 of the last space that there may be.
    B2Last = "B2 at position 15", Both;
    /// B3 of the last space that there may be.
    B3Last = "B3 at position 15", Both;
    /// B4 of the last space that there may be.
    B4Last = "B4 at position 15", Both;
    /// B5 of the last space that there may be.
    B5Last = "B5 at position 15", Both;
    /// Several bad spaces, of which the first is the refused one.
    Several = "bad spaces behind the refused one", Both;
    /// Several bad spaces, and a later one with a lower number than the refused one.
    SeveralLower = "a later bad space, lower number", Both;
    /// Several bad spaces, and a later one with a higher number than the refused one.
    SeveralHigher = "a later bad space, higher number", Both;
    /// Too many spaces, and a bad one among the first sixteen.
    B11AndSpace = "B11, with a bad space", Both;
    /// Memory too large, and a bad space.
    B12AndSpace = "B12, with a bad space", Both;
    /// Flash too large, and a bad space.
    B13AndSpace = "B13, with a bad space", Both;
    /// A bad alias, and a bad space.
    B14AndSpace = "B14, with a bad space", Both;
    /// A broken limit, and a short reply buffer.
    LimitAndShort = "limit, with a short buffer", Both;
    /// A broken limit, and a damaged state.
    LimitAndDamaged = "limit, with a damaged state", Frames;
    /// A refused space, and a short reply buffer.
    SpaceAndShort = "space, with a short buffer", Both;
    /// A refused space, and a damaged state.
    SpaceAndDamaged = "space, with a damaged state", Frames;
    /// A short reply buffer, and a damaged state.
    ShortAndDamaged = "B6, with a damaged state", Frames;
    /// Everything wrong at once.
    Everything = "limit, space, buffer and state", Frames;
    /// Ignored.
    Ignored = "ignored", Frames;
    /// Joined or swallowed, and not answered.
    Nothing = "nothing (joined or swallowed)", Frames;
    /// Out of order.
    OutOfOrder = "0x2040 transport refusal", Frames;
    /// Too long.
    TooLong = "0x2000 transport refusal", Frames;
    /// No room.
    NoRoom = "0x2020 transport refusal", Frames;
    /// A bad datagram.
    Invalid = "0x1080 rejected", Both;
    /// An unknown command.
    UnknownCommand = "0x1041 rejected", Both;
    /// Not of this protocol.
    UnknownDatagram = "0x1042 rejected", Both;
    /// A read with all bytes.
    Read = "read, whole", Both;
    /// A read cut off at the end.
    ReadShort = "read, short", Both;
    /// A failed read.
    Read1081 = "read fails 0x1081", Both;
    /// A failed read.
    Read1082 = "read fails 0x1082", Both;
    /// A write.
    Write = "write", Both;
    /// A write to an index that is not its address.
    WriteElsewhere = "write, index is not the address", Both;
    /// A write of as many bytes as there may be.
    WriteLongest = "write, 64 bytes", Both;
    /// A failed write.
    Write1081 = "write fails 0x1081", Both;
    /// A failed write.
    Write1083 = "write fails 0x1083", Both;
    /// A failed write.
    Write1082 = "write fails 0x1082", Both;
    /// A masked write.
    Masked = "masked write", Both;
    /// A masked write with a mask of zero.
    MaskedByZero = "masked write, a mask 0", Both;
    /// A masked write of as many pairs as there may be.
    MaskedLongest = "masked write, 32 pairs", Both;
    /// A failed masked write.
    Masked1081 = "masked write fails 0x1081", Both;
    /// A failed masked write.
    Masked1083 = "masked write fails 0x1083", Both;
    /// A failed masked write.
    Masked1082 = "masked write fails 0x1082", Both;
    /// 0x80.
    Options = "options", Both;
    /// 0x84 of a space from address 0.
    Information = "information, lowest 0", Both;
    /// 0x84 of another space.
    InformationLowest = "information, lowest given", Both;
    /// 0x84 of no space.
    InformationAbsent = "information, not described", Both;
    /// 0x88 taken.
    LockTaken = "lock, taken", Both;
    /// 0x88 held by another.
    LockHeld = "lock, held by another", Both;
    /// 0x88 released.
    LockReleased = "lock, released", Both;
    /// 0xA8.
    UpdateComplete = "update complete", Both;
    /// A table that is not refused, with a byte for yes that is not 1.
    TableFlags = "table, yes by a byte that is not 1", Both;
    /// A table that is not refused, with bytes behind its last space.
    TableBehind = "table, bytes behind the last space", Both;
    /// A table that is not refused, with 16 spaces.
    TableFull = "table, 16 spaces", Both;
    /// A place that was free with other bytes than zeros, opened.
    PlaceOpened = "place opened, over other bytes", Small;
    /// A place that was held with other bytes than the library writes, appended to.
    PlaceAppended = "place appended to, over other bytes", Small;
    /// A place that was held with other bytes than the library writes, finished or refused by a
    /// Last.
    PlaceFreed = "place freed, over other bytes", Small;
    /// The same with a datagram that is broken: its source is being swallowed.
    PlaceBroken = "place broken, over other bytes", Small;
    /// The same with a source that is being swallowed, by a Middle.
    PlaceSwallowed = "place swallowed on, over other bytes", Small;
    /// The same by a First.
    PlaceReopened = "place reopened, over other bytes", Small;
    /// The same by a Single or a Last.
    SwallowedFreed = "swallowed place freed, other bytes", Small;
    /// A place that was held with other bytes than the library writes, dropped by a tick.
    PlaceDropped = "place dropped, over other bytes", Small;
    /// A place that is held with other bytes than the library writes, and keeps them.
    HeldKept = "place held, other bytes kept", Small;
    /// The same with a source that is being swallowed.
    SwallowedKept = "swallowed place, other bytes kept", Small;
    /// The same by a Middle that is swallowed at the very tick that the place has.
    SwallowedInPlace = "Middle swallowed, other bytes kept", Small;
    /// A place that is free with other bytes than zeros, and keeps them.
    FreeKept = "place free, other bytes kept", Small;
    /// A Single of a source for which nothing is kept.
    SingleAlone = "Single, nothing kept", Small;
    /// A First of such a source.
    FirstOpens = "First, nothing kept", Small;
    /// A First of such a source while eight others have a place.
    FirstWithoutRoom = "First, nothing kept and no room", Small;
    /// The same, and one of the eight is being swallowed.
    NoRoomBesideSwallowed = "First, no room beside a swallowed", Small;
    /// A Middle of a source for which nothing is kept.
    StrayMiddle = "Middle, nothing kept", Small;
    /// A Last of such a source.
    StrayLast = "Last, nothing kept", Small;
    /// A Middle that is joined.
    MiddleAppends = "Middle, joined", Small;
    /// A Last that finishes a datagram.
    LastFinishes = "Last, finishes a datagram", Small;
    /// A Last that is refused, after which nothing is kept.
    LastTooLong = "Last past 72 bytes, place freed", Small;
    /// A Single that breaks a datagram: its source is being swallowed.
    BrokenBySingle = "broken by a Single", Small;
    /// A First that does.
    BrokenByFirst = "broken by a First", Small;
    /// An empty Middle that does.
    BrokenByEmptyMiddle = "broken by an empty Middle", Small;
    /// A Middle past 72 bytes that does.
    BrokenByLongMiddle = "broken by a Middle past 72 bytes", Small;
    /// A Middle that is swallowed.
    MiddleSwallowed = "Middle swallowed", Small;
    /// One without a byte.
    EmptyMiddleSwallowed = "empty Middle swallowed", Small;
    /// The Last up to which Middles are.
    LastSwallowed = "Last swallowed, place freed", Small;
    /// A Single of a source that is being swallowed.
    SingleAfterBroken = "Single, its source was swallowed", Small;
    /// A First of such a source.
    FirstAfterBroken = "First, its source was swallowed", Small;
    /// The same where all eight places are taken, its own among them.
    FirstAfterBrokenFull = "the same, all eight places taken", Small;
    /// A session of tools whose frames are lost.
    LostSession = "session, frames lost on the way", Small;
    /// One was dropped before a frame that is not ignored.
    DroppedByFrame = "dropped, at a frame", Small;
    /// One was dropped before a frame that is ignored.
    DroppedByIgnored = "dropped, at an ignored frame", Small;
    /// One was dropped at a lone tick.
    DroppedByTick = "dropped, at a lone tick", Small;
    /// The greatest age that stays, before a frame that is not ignored.
    Kept3000ByFrame = "3,000 back, kept at a frame", Small;
    /// The same before a frame that is ignored.
    Kept3000ByIgnored = "3,000 back, kept at an ignored one", Small;
    /// The same at a lone tick.
    Kept3000ByTick = "3,000 back, kept at a lone tick", Small;
    /// The least age that does not, before a frame that is not ignored.
    Dropped3001ByFrame = "3,001 back, dropped at a frame", Small;
    /// The same before a frame that is ignored.
    Dropped3001ByIgnored = "3,001 back, dropped at an ignored", Small;
    /// The same at a lone tick.
    Dropped3001ByTick = "3,001 back, dropped at a lone tick", Small;
    /// One was kept whose tick is of the round before.
    RoundKept = "kept, the count went round", Small;
    /// One was dropped whose tick is greater than the call's.
    RoundDropped = "dropped, the count went round", Small;
    /// One was kept at a time that 32 bits do not hold.
    LateKept = "kept, time over 32 bits", Small;
    /// One was dropped at such a time.
    LateDropped = "dropped, time over 32 bits", Small;
    /// All that there may be were dropped.
    EightDropped = "eight dropped at once", Small;
    /// One was dropped and another kept.
    DroppedBeside = "dropped, another kept", Small;
    /// Both edges in one call.
    BothEdges = "one 3,000 back, another 3,001", Small;
    /// One was kept longer than its First alone would have kept it.
    Renewed = "kept over 3,000 after its First", Small;
    /// One was dropped that an ignored frame of its source would have kept if that renewed.
    IgnoredSince = "dropped, its source ignored since", Small;
    /// One was dropped that a refused frame of another would have kept if that renewed.
    RefusedSince = "dropped, another refused since", Small;
    /// One whose source is being swallowed was dropped before a frame that is not ignored.
    SwallowedDroppedByFrame = "swallowed, dropped at a frame", Small;
    /// The same before a frame that is ignored.
    SwallowedDroppedByIgnored = "swallowed, dropped at an ignored", Small;
    /// The same at a lone tick.
    SwallowedDroppedByTick = "swallowed, dropped at a lone tick", Small;
    /// The greatest age that stays, of a source that is being swallowed.
    SwallowedKept3000 = "swallowed, 3,000 back, kept", Small;
    /// The least age that does not.
    SwallowedDropped3001 = "swallowed, 3,001 back, dropped", Small;
    /// One was kept longer than its refusal alone would have kept it.
    SwallowedRenewed = "kept over 3,000 after its refusal", Small;
    /// One was dropped that its own refusal would have kept if that renewed.
    BrokenSince = "dropped, its own refused since", Small;
    /// A Single that counted as if nothing were unfinished.
    SingleAfterDrop = "Single, its source's was dropped", Small;
    /// A First that did.
    FirstAfterDrop = "First, its source's was dropped", Small;
    /// A Middle that did.
    MiddleAfterDrop = "Middle, its source's was dropped", Small;
    /// A Last that did.
    LastAfterDrop = "Last, its source's was dropped", Small;
    /// A First that had room only because one of eight was dropped.
    RoomAfterDrop = "First, one of eight was dropped", Small;
    /// As many ticks since the last call as there may be.
    LongestGap = "61,999 ticks since the last call", Small;
    /// A call that is not refused, and one that is since the last that is not.
    RefusedBetween = "refused call between two others", Small;
    /// A refusal of the board or the buffer, with something that was due and stays.
    RefusedDue = "refused, what is due stays", Small;
    /// B7 of a frame, with something that was due and stays.
    B7Due = "B7, what is due stays", Small;
    /// B7 for nothing but a source over 4,095 that is being swallowed.
    B7Wide = "B7, a swallowed source over 4,095", Small;
    /// B7 for nothing but a datagram of a source that is being swallowed in a place behind it.
    B7SwallowedBehind = "B7, swallowed behind its datagram", Small;
    /// B7 for nothing but the same with the places the other way round.
    B7SwallowedBefore = "B7, swallowed before its datagram", Small;
    /// B7 for nothing but a source that is being swallowed twice.
    B7TwiceSwallowed = "B7, source swallowed twice", Small;
    /// A frame that is not refused, with a length over 72 where a source is being swallowed.
    LongSwallowed = "no B7, a swallowed length over 72", Small;
    /// A frame on places with ages of any kind.
    OldFrame = "any age, frame", Small;
    /// A lone tick on such places.
    OldTick = "any age, lone tick", Small;
    /// One was kept.
    OldKept = "any age, kept", Small;
    /// One was dropped.
    OldDropped = "any age, dropped", Small;
    /// All that there may be were dropped.
    OldEight = "any age, eight dropped at once", Small;
    /// One was as old as none is by the calls of a good driver.
    Old65000 = "any age, over 64,999", Small;
    /// One was as old as a tick can tell.
    OldMost = "any age, 65,535", Small;
    /// A world that begins with eight places that are all too old, at a frame that is not ignored.
    StartEightByFrame = "start, eight too old, at a frame", Small;
    /// The same at a frame that is ignored.
    StartEightByIgnored = "start, eight too old, at an ignored", Small;
    /// The same at a lone tick.
    StartEightByTick = "start, eight too old, lone tick", Small;
    /// The same with a datagram in each of them.
    StartEightDatagrams = "start, eight datagrams too old", Small;
    /// The same with eight sources that are being swallowed.
    StartEightSwallowed = "start, eight swallowed, too old", Small;
    /// The same with some of either.
    StartEightMixed = "start, eight of both sorts, too old", Small;
    /// The same with ticks that are all of an earlier count.
    StartEightEarlier = "start, eight too old, earlier count", Small;
    /// The same with a First of a ninth source, which has room.
    StartNinth = "start, eight too old, First of a ninth", Small;
    /// A world that begins with a place whose tick is of an earlier count, and that stays.
    StartEarlierKept = "start, earlier count, kept", Small;
    /// The same with one that is dropped.
    StartEarlierDropped = "start, earlier count, dropped", Small;
    /// The same with one that stays, whose source is being swallowed.
    StartEarlierSwallowed = "start, earlier count, swallowed kept", Small;
    /// A lone tick.
    Tick = "lone tick", Small;
    /// A lone tick that is refused.
    TickB7 = "lone tick, B7 refused", Small;
    /// A lone tick that is refused, with something that was due and stays.
    TickB7Due = "lone tick, B7, what is due stays", Small;
    /// A lone tick that is refused for nothing but a source over 4,095 that is being swallowed.
    TickB7Wide = "tick B7, swallowed source over 4,095", Small;
    /// The same for a datagram of a source that is being swallowed in a place behind it.
    TickB7SwallowedBehind = "tick B7, swallowed behind datagram", Small;
    /// The same with the places the other way round.
    TickB7SwallowedBefore = "tick B7, swallowed before datagram", Small;
    /// The same for a source that is being swallowed twice.
    TickB7TwiceSwallowed = "tick B7, source swallowed twice", Small;
    /// A lone tick that is not refused, with a length over 72 where a source is being swallowed.
    TickLongSwallowed = "tick, a swallowed length over 72", Small;
    /// A lone tick for a board that a frame is refused for, which it is not asked for.
    TickBadBoard = "lone tick, the board is bad", Small;
    /// A lone tick where a frame had a buffer that is too short, which it is not asked for.
    TickShort = "lone tick, the buffer is short", Small;
    /// A datagram of several frames.
    Joined = "datagram finished by a Last", Small;
    /// No frame is sent.
    SentNone = "frames sent, none", Small;
    /// One is sent.
    SentOne = "frames sent, one", Small;
    /// Some are sent.
    SentSeveral = "frames sent, two to nine", Small;
    /// As many as there may be are sent.
    SentTen = "frames sent, ten", Small;
    /// A cut datagram in one frame.
    CutSingle = "cut, one frame", Small;
    /// A cut datagram in several frames.
    CutSeveral = "cut, several frames", Small;
    /// B9.
    CutB9Length = "cut, B9 over 72 bytes", Small;
    /// B9.
    CutB9Alias = "cut, B9 alias over 4,095", Small;
    /// Received OK.
    ReceivedOk = "Received OK frame", Small;
    /// Rejected.
    Rejected = "Rejected frame", Small;
    /// No frame.
    TransportRefused = "transport reply, alias over 4,095", Small;
    /// A good line.
    LineGood = "line, good", Small;
    /// A bad line.
    LineBad = "line, bad", Small;
    /// A printed frame.
    Printed = "frame printed", Small;
    /// A frame that does not fit.
    PrintedNot = "frame printed, no room", Small;
    /// A frame over 8 bytes.
    PrintedLong = "frame printed, over 8 bytes", Small;
    /// A frame line in one chunk.
    NextGood = "next line, good in one chunk", Small;
    /// A frame line that began in an earlier chunk.
    NextGoodCarried = "next line, good over two chunks", Small;
    /// Another line.
    NextBad = "next line, bad", Small;
    /// A line that only its carry makes too long.
    NextTooLong = "next line, carried one is too long", Small;
    /// No newline in the chunk.
    NextOpen = "next line, no newline", Small;
    /// No newline in the chunk, and more than is carried.
    NextOpenTooLong = "next line, no newline and too long", Small;
    /// Nothing left of the chunk.
    NextNothing = "next line, chunk is read already", Small;
    /// From an index behind the chunk.
    NextBehind = "next line, from behind the chunk", Small;
    /// A carry with a length that no text leads to.
    NextOverfull = "next line, carry of over 29 bytes", Small;
    /// A frame line without its newline.
    LastGood = "last line, good", Small;
    /// Another line without its newline.
    LastBad = "last line, bad", Small;
    /// Nothing is left.
    LastNone = "last line, none", Small;
    /// A carry with a length that no text leads to.
    LastOverfull = "last line, carry of over 29 bytes", Small;
    /// A session of lines in chunks.
    Session = "session, in chunks", Small;
    /// One whose last line lacks its newline.
    SessionOpen = "session, last newline missing", Small;
}

impl Case {
    /// The cases of times, in their order.
    #[cfg(test)]
    pub fn of_times() -> impl Iterator<Item = Self> {
        let cases = Self::ALL.iter().map(|&(case, ..)| case);
        cases
            .skip_while(|&case| case != Self::DroppedByFrame)
            .take_while(|&case| case != Self::Joined)
    }
}

/// How a datagram came.
#[derive(Clone, Copy, Debug, PartialEq, Eq)]
pub enum By {
    /// In frames.
    Frames,
    /// Whole.
    Whole,
}

/// How many sets of limits there are, that of none among them.
const SETS: usize = 1 << LIMITS;

/// The counts.
#[derive(Clone, Debug)]
pub struct Tally {
    cases: [Vec<u64>; 2],
    /// Of the refusals by a limit, by the set of all that are broken.
    limits: [[u64; SETS]; 2],
    /// Of the refused spaces, by their position.
    positions: [[u64; MOST_SPACES]; 2],
    commands: [[u64; 256]; 2],
    /// Of writes that add up.
    pub writes: WriteTally,
    /// Of the tool's half.
    pub tool: ToolTally,
}

impl Default for Tally {
    fn default() -> Self {
        Self {
            cases: [vec![0; Case::ALL.len()], vec![0; Case::ALL.len()]],
            limits: [[0; SETS]; 2],
            positions: [[0; MOST_SPACES]; 2],
            commands: [[0; 256]; 2],
            writes: WriteTally::default(),
            tool: ToolTally::default(),
        }
    }
}

impl Tally {
    /// Counts a case of the smaller calls.
    pub fn count(&mut self, case: Case) {
        self.cases[0][case as usize] += 1;
    }

    /// Counts a case of the smaller calls if it is one.
    pub fn count_if(&mut self, is: bool, case: Case) {
        self.cases[0][case as usize] += u64::from(is);
    }

    /// How often a case of the smaller calls was counted.
    #[cfg(test)]
    pub fn counted(&self, case: Case) -> u64 {
        self.cases[0][case as usize]
    }

    /// Counts what is to be seen of a table that is not refused.
    pub fn table(&mut self, by: By, kind: TableKind) {
        let TableKind {
            other_flags,
            bytes_behind,
            full,
        } = kind;
        for (is, case) in [
            (other_flags, Case::TableFlags),
            (bytes_behind, Case::TableBehind),
            (full, Case::TableFull),
        ] {
            self.cases[by as usize][case as usize] += u64::from(is);
        }
    }

    /// Counts what is to be seen of a refusal with an error of the caller: what was refused, and
    /// what else was wrong and did not decide.
    pub fn refused(&mut self, by: By, number: u8, position: Option<usize>, wrong: &Wrong) {
        let by = by as usize;
        let Wrong {
            faults,
            short,
            damaged,
        } = *wrong;
        let (limit, space) = (number >= limit_number(0), position.is_some());
        if limit {
            self.broken_limit(by, number, &faults);
        }
        if let Some(position) = position {
            self.refused_space(by, number, position, &faults);
        }
        let all = limit && faults.has_bad_space() && short && damaged;
        for (is, case) in [
            (limit && short, Case::LimitAndShort),
            (limit && damaged, Case::LimitAndDamaged),
            (space && short, Case::SpaceAndShort),
            (space && damaged, Case::SpaceAndDamaged),
            (number == 6 && damaged, Case::ShortAndDamaged),
            (all, Case::Everything),
        ] {
            self.cases[by][case as usize] += u64::from(is);
        }
    }

    /// Counts what B7 refuses where it is one thing alone and of a source that is being swallowed;
    /// at a frame, or else at a lone tick.
    pub fn damaged(&mut self, damage: &Damage, at_a_frame: bool) {
        let cases = if at_a_frame {
            [
                Case::B7Wide,
                Case::B7SwallowedBehind,
                Case::B7SwallowedBefore,
                Case::B7TwiceSwallowed,
            ]
        } else {
            [
                Case::TickB7Wide,
                Case::TickB7SwallowedBehind,
                Case::TickB7SwallowedBefore,
                Case::TickB7TwiceSwallowed,
            ]
        };
        let what = [
            damage.wide_swallowed,
            damage.swallowed_behind,
            damage.swallowed_before,
            damage.twice_swallowed,
        ];
        for (is, case) in what.into_iter().zip(cases) {
            self.count_if(is && damage.is_single(), case);
        }
    }

    /// Counts where a refused space stands, and which bad ones stand behind it.
    fn refused_space(&mut self, by: usize, number: u8, position: usize, faults: &Faults) {
        self.positions[by][position] += 1;
        if let Some(case) = case_of_position(number, position, faults.count) {
            self.cases[by][case as usize] += 1;
        }
        let later = || faults.spaces[position + 1..].iter().flatten();
        for (is, case) in [
            (later().count() != 0, Case::Several),
            (later().any(|&other| other < number), Case::SeveralLower),
            (later().any(|&other| other > number), Case::SeveralHigher),
        ] {
            self.cases[by][case as usize] += u64::from(is);
        }
    }

    /// Counts which limits were broken with the one that decided, and whether a space was bad.
    fn broken_limit(&mut self, by: usize, number: u8, faults: &Faults) {
        self.limits[by][faults.broken()] += 1;
        let bad = faults.has_bad_space();
        for (is, case) in [
            (number == 11, Case::B11AndSpace),
            (number == 12, Case::B12AndSpace),
            (number == 13, Case::B13AndSpace),
            (number == 14, Case::B14AndSpace),
        ] {
            self.cases[by][case as usize] += u64::from(is && bad);
        }
    }

    /// Counts the answer of a call, with the finished datagram, if there is one, the lock before
    /// it and the reply; false where it is not one of document 01.
    #[must_use]
    pub fn answer(
        &mut self,
        by: By,
        answer: Answer,
        datagram: Option<&[u8]>,
        lock: [u8; 6],
        reply: &[u8],
    ) -> bool {
        let by = by as usize;
        if let Some(&[_, command, ..]) = datagram {
            let done = answer.is_of_datagram() && !matches!(answer, Answer::Rejected(_));
            self.commands[by][usize::from(command)] += u64::from(done);
        }
        let datagram = datagram.unwrap_or(&[]);
        let Some(case) = case_of(answer, datagram, lock, reply) else {
            return false;
        };
        self.cases[by][case as usize] += 1;
        if case == Case::Masked && masked_by_zero(datagram) {
            self.cases[by][Case::MaskedByZero as usize] += 1;
        }
        if let Answer::Written { start, count } = answer {
            self.written(by, case, datagram, start, count);
        }
        true
    }

    /// Counts what is to be seen of a write or masked write that is done.
    fn written(&mut self, by: usize, case: Case, datagram: &[u8], start: usize, count: usize) {
        let address = datagram
            .get(2..)
            .and_then(<[u8]>::first_chunk)
            .map(|bytes| u32::from_be_bytes(*bytes) as usize);
        for (is, case) in [
            (address != Some(start), Case::WriteElsewhere),
            (case == Case::Write && count == 64, Case::WriteLongest),
            (case == Case::Masked && count == 32, Case::MaskedLongest),
        ] {
            self.cases[by][case as usize] += u64::from(is);
        }
    }

    /// Counts how many frames are sent for a frame.
    pub fn sent(&mut self, count: usize) {
        self.count(match count {
            0 => Case::SentNone,
            1 => Case::SentOne,
            2..=9 => Case::SentSeveral,
            _ => Case::SentTen,
        });
    }

    /// Prints the counts; false where one that has to be reached is zero.
    #[must_use]
    pub fn print(&self) -> bool {
        let mut all = true;
        println!("{:36} {:>12} {:>12}", "case", "frames", "whole");
        for &(case, name, reach) in Case::ALL {
            let counts = [0, 1].map(|by| self.cases[by][case as usize]);
            all &= print_row(name, counts, reach);
        }
        for set in 1..SETS {
            let counts = [0, 1].map(|by| self.limits[by][set]);
            all &= print_row(&name_of_limits(set), counts, Reach::Both);
        }
        for position in 0..MOST_SPACES {
            let counts = [0, 1].map(|by| self.positions[by][position]);
            let name = format!("space refused, position {position}");
            all &= print_row(&name, counts, Reach::Both);
        }
        for command in COMMANDS {
            let counts = [0, 1].map(|by| self.commands[by][usize::from(command)]);
            let name = format!("command 0x{command:02X}, received OK");
            all &= print_row(&name, counts, Reach::Both);
        }
        all &= self.writes.print();
        all &= self.tool.print();
        all
    }
}

/// Prints the counts of a case; false where it was not reached as it has to be.
pub(crate) fn print_row(name: &str, counts: [u64; 2], reach: Reach) -> bool {
    let [frames, whole] = counts;
    let missing = frames == 0 || (reach == Reach::Both && whole == 0);
    let mark = if missing { "  NEVER REACHED" } else { "" };
    if reach == Reach::Both {
        println!("{name:36} {frames:12} {whole:12}{mark}");
    } else {
        println!("{name:36} {frames:12} {:>12}{mark}", "-");
    }
    !missing
}

/// The name of a set of broken limits.
fn name_of_limits(set: usize) -> String {
    let mut name = "limits broken:".to_owned();
    for limit in (0..LIMITS).filter(|limit| set >> limit & 1 != 0) {
        name += &format!(" B{}", limit_number(limit));
    }
    name
}

/// The case of a refused space, of so many; `None` for one that is the last of fewer than sixteen.
fn case_of_position(number: u8, position: usize, count: usize) -> Option<Case> {
    let behind = position + 1 < count;
    Some(match (number, position) {
        (2, 0) => Case::B2First,
        (3, 0) => Case::B3First,
        (4, 0) => Case::B4First,
        (5, 1) => Case::B5Second,
        (2, 15) => Case::B2Last,
        (3, 15) => Case::B3Last,
        (4, 15) => Case::B4Last,
        (5, 15) => Case::B5Last,
        (2, _) if behind => Case::B2Middle,
        (3, _) if behind => Case::B3Middle,
        (4, _) if behind => Case::B4Middle,
        (5, _) if behind => Case::B5Middle,
        _ => return None,
    })
}

/// The case of an answer; `None` for one that document 01 does not know.
fn case_of(answer: Answer, datagram: &[u8], lock: [u8; 6], reply: &[u8]) -> Option<Case> {
    let command = datagram.get(1).copied();
    Some(match answer {
        Answer::CallError { number, .. } => case_of_call_error(number)?,
        Answer::Ignored => Case::Ignored,
        Answer::Nothing => Case::Nothing,
        Answer::TransportRefusal(0x2040) => Case::OutOfOrder,
        Answer::TransportRefusal(0x2000) => Case::TooLong,
        Answer::TransportRefusal(0x2020) => Case::NoRoom,
        Answer::Rejected(0x1080) => Case::Invalid,
        Answer::Rejected(0x1041) => Case::UnknownCommand,
        Answer::Rejected(0x1042) => Case::UnknownDatagram,
        Answer::Written { .. } => match command? {
            0x00..=0x03 => Case::Write,
            0x08..=0x0B => Case::Masked,
            _ => return None,
        },
        Answer::UpdateComplete if command? == 0xA8 => Case::UpdateComplete,
        Answer::Replied(length) => {
            let reply = reply.get(..length)?;
            let code = u16::from_be_bytes(*reply.last_chunk()?);
            match (command?, *reply.get(1)?, code) {
                (0x40..=0x43, 0x50..=0x53, _) => {
                    // The head of the reply is as long as that of the request without its count.
                    let count = usize::from(datagram.last()? & 0x7F);
                    if length - (datagram.len() - 1) < count {
                        Case::ReadShort
                    } else {
                        Case::Read
                    }
                }
                (0x40..=0x43, 0x58..=0x5B, 0x1081) => Case::Read1081,
                (0x40..=0x43, 0x58..=0x5B, 0x1082) => Case::Read1082,
                (0x00..=0x03, 0x18..=0x1B, 0x1081) => Case::Write1081,
                (0x00..=0x03, 0x18..=0x1B, 0x1083) => Case::Write1083,
                (0x00..=0x03, 0x18..=0x1B, 0x1082) => Case::Write1082,
                (0x08..=0x0B, 0x18..=0x1B, 0x1081) => Case::Masked1081,
                (0x08..=0x0B, 0x18..=0x1B, 0x1083) => Case::Masked1083,
                (0x08..=0x0B, 0x18..=0x1B, 0x1082) => Case::Masked1082,
                (0x80, 0x82, _) => Case::Options,
                (0x84, 0x87, _) if length == 8 => Case::Information,
                (0x84, 0x87, _) => Case::InformationLowest,
                (0x84, 0x86, _) => Case::InformationAbsent,
                (0x88, 0x8A, _) => {
                    let id = datagram.get(2..)?;
                    if id == [0; 6] {
                        Case::LockReleased
                    } else if lock == [0; 6] {
                        Case::LockTaken
                    } else {
                        Case::LockHeld
                    }
                }
                _ => return None,
            }
        }
        _ => return None,
    })
}

/// The case of an error of the caller; `None` for one that no call is refused with.
const fn case_of_call_error(number: u8) -> Option<Case> {
    Some(match number {
        2 => Case::B2,
        3 => Case::B3,
        4 => Case::B4,
        5 => Case::B5,
        6 => Case::B6,
        7 => Case::B7,
        11 => Case::B11,
        12 => Case::B12,
        13 => Case::B13,
        14 => Case::B14,
        _ => return None,
    })
}

fn masked_by_zero(datagram: &[u8]) -> bool {
    let head = match datagram.get(1) {
        Some(0x08) => 7,
        _ => 6,
    };
    datagram
        .get(head..)
        .is_some_and(|pairs| pairs.iter().step_by(2).any(|&mask| mask == 0))
}

#[cfg(test)]
mod tests {
    use super::*;

    /// Of five spaces, the second and the fourth bad.
    const FAULTS: Faults = Faults {
        limits: [false; LIMITS],
        spaces: {
            let mut spaces = [None; MOST_SPACES];
            (spaces[1], spaces[3]) = (Some(4), Some(2));
            spaces
        },
        count: 5,
    };

    const fn wrong(faults: Faults) -> Wrong {
        Wrong {
            faults,
            short: true,
            damaged: false,
        }
    }

    /// The cases of which a refusal, by frames, counts one.
    fn counted(number: u8, position: Option<usize>, wrong: &Wrong) -> (Vec<Case>, Tally) {
        let mut tally = Tally::default();
        tally.refused(By::Frames, number, position, wrong);
        assert_eq!(tally.cases[By::Whole as usize], Tally::default().cases[0]);
        let cases = Case::ALL.iter().map(|&(case, ..)| case);
        let cases = cases.filter(|&case| tally.cases[0][case as usize] == 1);
        (cases.collect(), tally)
    }

    #[test]
    fn a_refused_space_is_counted_by_its_position() {
        let (cases, tally) = counted(4, Some(1), &wrong(FAULTS));
        let expected = [
            Case::B4Middle,
            Case::Several,
            Case::SeveralLower,
            Case::SpaceAndShort,
        ];
        assert_eq!(cases, expected);
        assert_eq!(tally.positions[0][1], 1);
        assert_eq!(tally.limits, Tally::default().limits);
    }

    #[test]
    fn a_limit_is_counted_with_what_else_is_wrong() {
        let limits = [false, true, false, true];
        let mut wrong = wrong(Faults { limits, ..FAULTS });
        let (cases, tally) = counted(12, None, &wrong);
        assert_eq!(cases, [Case::B12AndSpace, Case::LimitAndShort]);
        assert_eq!(tally.limits[0][0b1010], 1);
        assert_eq!(tally.positions, Tally::default().positions);
        assert_eq!(name_of_limits(0b1010), "limits broken: B12 B14");
        wrong.damaged = true;
        let (cases, _) = counted(12, None, &wrong);
        assert!(cases.contains(&Case::Everything));
    }

    #[test]
    fn first_middle_and_last() {
        assert_eq!(case_of_position(2, 0, 1), Some(Case::B2First));
        // The last of fewer than sixteen is neither in the middle nor the last that there may be.
        assert_eq!(case_of_position(3, 14, 15), None);
        assert_eq!(case_of_position(3, 14, 16), Some(Case::B3Middle));
        assert_eq!(case_of_position(4, 15, 16), Some(Case::B4Last));
        assert_eq!(case_of_position(5, 1, 16), Some(Case::B5Second));
        assert_eq!(case_of_position(5, 2, 16), Some(Case::B5Middle));
    }
}
