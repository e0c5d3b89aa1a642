//! Holds the counts of the cases of the tool's half that were reached, which have to be reached as
//! those of the board's half have.

use crate::tally::{cases, print_row, By, Reach};
use crate::tool::change::cases::ChangeTally;
use crate::tool::request::{Request, LONGEST_DATAGRAM};
use crate::tool::said::{Part, Place, Said};
use model::ToolRefusal;

cases! {
    ToolCase;
    /// A count or length out of range, and a short buffer.
    W1Short = "W1, with a short buffer", Small;
    /// The longest command.
    Longest = "command of 71 bytes", Small;
    /// The shortest command.
    Shortest = "command of 2 bytes", Small;
    /// A lock that is released.
    ZeroId = "command, lock with an ID of zeros", Small;
    /// Commands of two unlike requests.
    Unlike = "two unlike requests", Small;
    /// Commands of two unlike requests that have all bytes but one in common.
    UnlikeByOne = "two unlike requests, one byte apart", Small;
    /// Commands of the same request.
    Alike = "the same request twice", Small;
    /// A Received OK without its byte.
    OkEmpty = "Received OK read, no byte", Small;
    /// A Received OK that announces a reply.
    OkPending = "Received OK read, reply pending", Small;
    /// A Received OK that does not.
    OkNotPending = "Received OK read, none pending", Small;
    /// No timeout value.
    OkTimeoutNone = "Received OK read, timeout 0", Small;
    /// Some timeout value.
    OkTimeout = "Received OK read, timeout 1 to 14", Small;
    /// The greatest timeout value.
    OkTimeoutMost = "Received OK read, timeout 15", Small;
    /// Reserved bits that are not zero.
    OkReserved = "Received OK read, reserved bits set", Small;
    /// W3 of one byte too many.
    OkTwo = "Received OK read, W3 of 2 bytes", Small;
    /// W3 of more.
    OkMore = "Received OK read, W3 of more", Small;
    /// W3 of many more bytes than there may be.
    RejectedMore = "Rejected read, W3 of over 67 bytes", Small;
    /// A reply as the language has it.
    AsMade = "reply read, not spoilt", Small;
    /// A reply that was spoilt and is one still.
    StillGood = "reply read, spoilt and still one", Small;
    /// The longest reply.
    Of72 = "reply read, 72 bytes", Small;
    /// Byte 6 for a space that the control bits could name.
    Byte6High = "reply read, 0xFD to 0xFF by byte 6", Small;
    /// The fewest bytes of data.
    DataOne = "reply read, 1 byte of data", Small;
    /// The most bytes of data.
    DataMost = "reply read, 64 bytes of data", Small;
    /// No lowest space.
    OptionsNone = "options read, no lowest space", Small;
    /// Lowest space 0.
    OptionsZero = "options read, lowest space 0", Small;
    /// Another lowest space.
    OptionsLowest = "options read, lowest space", Small;
    /// Of a space that is not there.
    InformationAbsent = "information read, not present", Small;
    /// No lowest address.
    InformationNone = "information read, no lowest address", Small;
    /// Lowest address 0, given.
    InformationZero = "information read, lowest address 0", Small;
    /// Another lowest address.
    InformationLowest = "information read, lowest address", Small;
    /// Reserved bits that are not zero.
    InformationReserved = "information read, reserved bits set", Small;
    /// A lock that nobody holds.
    LockZero = "lock read, nobody's", Small;
    /// A lock that is held.
    LockSome = "lock read, held", Small;
    /// W3 of nothing.
    W3Empty = "W3, no byte", Small;
    /// W3 of a byte 0 alone.
    W3Alone = "W3, byte 0 alone", Small;
    /// W3 of another byte 0.
    W3Byte0 = "W3, byte 0 is not 0x20", Small;
    /// W3 of a byte 1 that no reply has.
    W3Unknown = "W3, no such reply", Small;
    /// W3 of one byte too many.
    W3Of73 = "W3, a reply but for its 73 bytes", Small;
    /// W3 of more.
    W3Over73 = "W3, over 73 bytes", Small;
    /// W3 of a reply that ends before its data.
    W3ReadCut = "W3, read cut", Small;
    /// W3 of no data.
    W3Data0 = "W3, read of no bytes", Small;
    /// W3 of too much data.
    W3Data65 = "W3, read of 65 bytes", Small;
    /// W3 of a reply to a write that ends early.
    W3WrittenCut = "W3, write done, cut", Small;
    /// W3 of a reply to a write with something behind it.
    W3WrittenLonger = "W3, write done, bytes behind it", Small;
    /// W3 of a failure reply that ends before its code is whole.
    W3FailureCut = "W3, failure cut", Small;
    /// W3 of a failure reply whose text lacks its zero byte.
    W3FailureOpen = "W3, failure, text without its zero", Small;
    /// W3 of a failure reply whose text has another zero byte.
    W3FailureZero = "W3, failure, zero within the text", Small;
    /// W3 of a failure reply whose text alone is too long.
    W3Failure64 = "W3, failure, text of 64 bytes", Small;
    /// W3 of options that end early.
    W3OptionsCut = "W3, options cut", Small;
    /// W3 of options whose text lacks its zero byte.
    W3OptionsOpen = "W3, options, text without its zero", Small;
    /// W3 of options whose text has another zero byte.
    W3OptionsZero = "W3, options, zero within the text", Small;
    /// W3 of information that ends before its flags.
    W3InformationCut = "W3, information cut", Small;
    /// W3 of information that ends before the lowest address that its flags announce.
    W3LowestCut = "W3, information, lowest address cut", Small;
    /// W3 of information whose text lacks its zero byte.
    W3InformationOpen = "W3, information, no zero", Small;
    /// W3 of information whose text has another zero byte.
    W3InformationZero = "W3, information, zero within", Small;
    /// W3 of a lock that ends early.
    W3LockCut = "W3, lock cut", Small;
    /// W3 of a lock with something behind it.
    W3LockLonger = "W3, lock, bytes behind it", Small;
    /// A read with all bytes.
    MetRead = "asked: read, whole", Both;
    /// A read cut off at the end.
    MetReadShort = "asked: read, short", Both;
    /// A failed read.
    MetRead1081 = "asked: read fails 0x1081", Both;
    /// A failed read.
    MetRead1082 = "asked: read fails 0x1082", Both;
    /// A write.
    MetWrite = "asked: write", Both;
    /// A failed write.
    MetWrite1081 = "asked: write fails 0x1081", Both;
    /// A failed write.
    MetWrite1083 = "asked: write fails 0x1083", Both;
    /// A failed write.
    MetWrite1082 = "asked: write fails 0x1082", Both;
    /// A masked write.
    MetMasked = "asked: masked write", Both;
    /// A failed masked write.
    MetMasked1081 = "asked: masked write fails 0x1081", Both;
    /// A failed masked write.
    MetMasked1083 = "asked: masked write fails 0x1083", Both;
    /// A failed masked write.
    MetMasked1082 = "asked: masked write fails 0x1082", Both;
    /// The options, with lowest space 0.
    MetOptionsZero = "asked: options, lowest space 0", Both;
    /// The options.
    MetOptions = "asked: options", Both;
    /// The information on a space from address 0.
    MetInformation = "asked: information, lowest 0", Both;
    /// The information on another space.
    MetInformationLowest = "asked: information, lowest given", Both;
    /// The information on a space that is not described.
    MetInformationAbsent = "asked: information, not described", Both;
    /// The lock, taken.
    MetLockTaken = "asked: lock, taken", Both;
    /// The lock, held by another.
    MetLockHeld = "asked: lock, held by another", Both;
    /// The lock, released.
    MetLockReleased = "asked: lock, released", Both;
    /// Update Complete.
    MetUpdateComplete = "asked: update complete", Both;
    /// Rejected.
    Met1080 = "asked: rejected 0x1080", Both;
    /// Rejected.
    Met1041 = "asked: rejected 0x1041", Both;
    /// Rejected.
    Met1042 = "asked: rejected 0x1042", Both;
    /// Rejected.
    Met2040 = "asked: refused 0x2040", Frames;
    /// Rejected.
    Met2000 = "asked: refused 0x2000", Frames;
    /// Rejected.
    Met2020 = "asked: refused 0x2020", Frames;
    /// A datagram that is one byte longer than the command.
    Shorter = "command shorter by byte 6", Small;
    /// A datagram that is as long as the command, and the same.
    Same = "command the same as the datagram", Small;
    /// A count with its top bit set.
    TopBit = "command without the count's top bit", Small;
    /// A command in one frame.
    AskedSingle = "command in one frame", Small;
    /// A command in some frames.
    AskedSeveral = "command in two to eight frames", Small;
    /// A command in as many frames as there may be.
    AskedNine = "command in nine frames", Small;
    /// A frame was lost or came twice.
    AskedBadly = "command, a frame lost or twice", Small;
    /// A reply in one frame.
    HeardSingle = "reply joined, of one frame", Small;
    /// A reply in some frames.
    HeardSeveral = "reply joined, of two to eight", Small;
    /// A reply in as many frames as there may be.
    HeardNine = "reply joined, of nine frames", Small;
    /// A reply while other boards' datagrams were unfinished.
    HeardBeside = "reply joined, others unfinished", Small;
    /// A damaged state.
    JoinDamaged = "join, damaged state", Small;
    /// Not for the tool.
    JoinIgnored = "join, ignored", Small;
    /// For a tool that can have no frame.
    JoinWide = "join, alias over 4,095", Small;
    /// Joined or swallowed.
    JoinPart = "join, joined", Small;
    /// The same for a tool that has an alias that no board can have.
    JoinZero = "join, joined for alias 0", Small;
    /// Out of order.
    Join2040 = "join, 0x2040", Small;
    /// Too long.
    Join2000 = "join, 0x2000", Small;
    /// No room.
    Join2020 = "join, 0x2020", Small;
    /// A datagram that is the frame's data.
    JoinInFrame = "join, datagram in the frame", Small;
    /// A datagram in the pool.
    JoinInPool = "join, datagram in the pool", Small;
    /// A datagram without a byte that is the frame's data.
    JoinEmptyFrame = "join, empty datagram in the frame", Small;
    /// A datagram without a byte in the pool.
    JoinEmptyPool = "join, empty datagram in the pool", Small;
    /// The longest datagram.
    JoinLongest = "join, datagram of 72 bytes", Small;
    /// One was dropped for its tick, which a caller has put there.
    JoinDropped = "join, dropped by its tick", Small;
    /// One was kept with a tick that a caller has put there.
    JoinOtherTick = "join, kept with a tick not 0", Small;
    /// A datagram is broken: its board is being swallowed.
    JoinBroken = "join, broken", Small;
    /// A Middle is swallowed.
    JoinSwallowed = "join, Middle swallowed", Small;
    /// A Last is swallowed.
    JoinLastSwallowed = "join, Last swallowed", Small;
    /// A Single of a board that was being swallowed.
    JoinSingleAfter = "join, Single, its board swallowed", Small;
    /// A First of such a board.
    JoinFirstAfter = "join, First, its board swallowed", Small;
}

/// The kinds of request, in the order of the counts.
const REQUESTS: [&str; 7] = [
    "read",
    "write",
    "masked write",
    "options",
    "information",
    "lock",
    "update complete",
];
/// Lengths and counts that have to be reached, of a read, a write and a masked write.
const LENGTHS: [usize; 10] = [0, 1, 2, 63, 64, 65, 66, 255, 256, 320];
/// Lengths of an ID that have to be reached.
const ID_LENGTHS: [usize; 5] = [0, 5, 6, 7, 262];
/// Lengths of a buffer that have to be reached by requests that are in range.
const BUFFERS: [usize; 8] = [0, 1, 8, 70, 71, 72, 73, 100];
/// Spaces that have to be reached, of a read, a write and a masked write.
const SPACES: [u8; 6] = [0x00, 0xFB, 0xFC, 0xFD, 0xFE, 0xFF];
/// Lengths of a Rejected that have to be reached.
const REJECTED: [usize; 8] = [0, 1, 2, 3, 64, 65, 66, 67];
/// The replies that name a space, in the order of the counts.
const PLACED: [&str; 4] = ["read", "read failed", "write done", "write failed"];
/// How they name it.
const FORMS: [&str; 4] = ["byte 6", "0xFD", "0xFE", "0xFF"];
/// The replies that may have a text, in the order of the counts, and the most bytes that it has
/// without its zero byte.
const TEXTS: [(&str, usize); 5] = [
    ("read failed", 62),
    ("write failed", 62),
    ("options", 64),
    ("information", 63),
    ("lowest given", 59),
];
/// What a text may be.
const TEXT_KINDS: [&str; 4] = ["no text", "empty text", "a text", "longest text"];

/// The counts of the tool's half.
#[derive(Clone, Debug)]
pub struct ToolTally {
    cases: [Vec<u64>; 2],
    /// Of the requests, those that are composed, refused by W1 and by W2.
    written: [[u64; 3]; 7],
    /// Of counts and lengths.
    lengths: [[u64; 10]; 3],
    ids: [u64; 5],
    /// Of buffers, for requests in range.
    buffers: [u64; 8],
    /// Of spaces, for requests that are composed.
    spaces: [[u64; 6]; 3],
    rejected: [u64; 8],
    forms: [[u64; 4]; 4],
    texts: [[u64; 4]; 5],
    /// Of datagrams in the pool, by the place.
    places: [u64; 8],
    /// Of changes.
    pub changes: ChangeTally,
}

impl Default for ToolTally {
    fn default() -> Self {
        Self {
            cases: [vec![0; ToolCase::ALL.len()], vec![0; ToolCase::ALL.len()]],
            written: [[0; 3]; 7],
            lengths: [[0; 10]; 3],
            ids: [0; 5],
            buffers: [0; 8],
            spaces: [[0; 6]; 3],
            rejected: [0; 8],
            forms: [[0; 4]; 4],
            texts: [[0; 4]; 5],
            places: [0; 8],
            changes: ChangeTally::default(),
        }
    }
}

/// Counts a number among those that have to be reached, if it is one of them.
pub(crate) fn count_among<T: PartialEq>(counts: &mut [u64], numbers: &[T], number: &T) {
    for (count, _) in counts
        .iter_mut()
        .zip(numbers)
        .filter(|(_, other)| *other == number)
    {
        *count += 1;
    }
}

impl ToolTally {
    /// Counts a case.
    pub fn count(&mut self, case: ToolCase) {
        self.cases[0][case as usize] += 1;
    }

    /// Counts a case of a board that was asked.
    pub fn met(&mut self, by: By, case: ToolCase) {
        self.cases[by as usize][case as usize] += 1;
    }

    /// Counts a case if it is one.
    pub fn count_if(&mut self, is: bool, case: ToolCase) {
        self.cases[0][case as usize] += u64::from(is);
    }

    /// Counts a request that was to be written into a buffer of so many bytes.
    pub fn written(&mut self, request: &Request, room: usize, written: Result<usize, ToolRefusal>) {
        let kind = kind_of(request);
        let outcome = match written {
            Ok(_) => 0,
            Err(ToolRefusal::W1) => 1,
            Err(_) => 2,
        };
        self.written[kind][outcome] += 1;
        match request {
            Request::Read { count, .. } => count_among(&mut self.lengths[0], &LENGTHS, count),
            Request::Write { bytes, .. } => {
                count_among(&mut self.lengths[1], &LENGTHS, &bytes.len());
            }
            Request::WriteMasked { pairs, .. } => {
                count_among(&mut self.lengths[2], &LENGTHS, &pairs.len());
            }
            Request::Lock { id } => count_among(&mut self.ids, &ID_LENGTHS, &id.len()),
            Request::Options | Request::Information { .. } | Request::UpdateComplete => {}
        }
        if outcome == 1 {
            self.count_if(room < LONGEST_DATAGRAM, ToolCase::W1Short);
            return;
        }
        count_among(&mut self.buffers, &BUFFERS, &room);
        let Ok(length) = written else {
            return;
        };
        if let Request::Read { space, .. }
        | Request::Write { space, .. }
        | Request::WriteMasked { space, .. } = request
        {
            count_among(&mut self.spaces[kind], &SPACES, space);
        }
        self.count_if(length == 71, ToolCase::Longest);
        self.count_if(length == 2, ToolCase::Shortest);
        let zero = matches!(request, Request::Lock { id } if *id == [0; 6]);
        self.count_if(zero, ToolCase::ZeroId);
    }

    /// Counts a Received OK.
    pub fn received_ok(&mut self, content: &[u8]) {
        let flags = match *content {
            [] => {
                self.count(ToolCase::OkEmpty);
                return;
            }
            [flags] => flags,
            [_, _] => return self.count(ToolCase::OkTwo),
            _ => return self.count(ToolCase::OkMore),
        };
        self.count(if flags & 0x80 == 0 {
            ToolCase::OkNotPending
        } else {
            ToolCase::OkPending
        });
        self.count(match flags & 0x0F {
            0 => ToolCase::OkTimeoutNone,
            15 => ToolCase::OkTimeoutMost,
            _ => ToolCase::OkTimeout,
        });
        self.count_if(flags & 0x70 != 0, ToolCase::OkReserved);
    }

    /// Counts a Rejected.
    pub fn rejected(&mut self, content: &[u8]) {
        count_among(&mut self.rejected, &REJECTED, &content.len());
        self.count_if(content.len() > 67, ToolCase::RejectedMore);
    }

    /// Counts what a reply datagram says.
    pub fn said(&mut self, datagram: &[u8], said: Said) {
        let text_of = |text: Option<Part>| text.map(|part| part.len);
        let (placed, text) = match said {
            Said::Refused(_) => {
                self.count(cause_of_w3(datagram));
                return;
            }
            Said::Read { place, data } => {
                self.count_if(data.len == 1, ToolCase::DataOne);
                self.count_if(data.len == 64, ToolCase::DataMost);
                (Some((0, place)), None)
            }
            Said::ReadFailed { place, text, .. } => (Some((1, place)), Some((0, text_of(text)))),
            Said::Written { place } => (Some((2, place)), None),
            Said::WriteFailed { place, text, .. } => (Some((3, place)), Some((1, text_of(text)))),
            Said::Options { lowest, text, .. } => {
                self.count(match lowest {
                    None => ToolCase::OptionsNone,
                    Some(0) => ToolCase::OptionsZero,
                    Some(_) => ToolCase::OptionsLowest,
                });
                (None, Some((2, text_of(text))))
            }
            Said::Information {
                present,
                flags,
                lowest,
                text,
                ..
            } => {
                self.count_if(!present, ToolCase::InformationAbsent);
                self.count_if(flags & 0xFC != 0, ToolCase::InformationReserved);
                self.count(match lowest {
                    None => ToolCase::InformationNone,
                    Some(0) => ToolCase::InformationZero,
                    Some(_) => ToolCase::InformationLowest,
                });
                let group = 3 + usize::from(lowest.is_some());
                (None, Some((group, text_of(text))))
            }
            Said::Lock { id } => {
                self.count(if id.within(datagram) == Some(&[0; 6]) {
                    ToolCase::LockZero
                } else {
                    ToolCase::LockSome
                });
                (None, None)
            }
        };
        self.count_if(datagram.len() == LONGEST_DATAGRAM, ToolCase::Of72);
        if let Some((reply, Place { space, form, .. })) = placed {
            self.forms[reply][usize::from(form)] += 1;
            self.count_if(form == 0 && space >= 0xFD, ToolCase::Byte6High);
        }
        if let Some((group, text)) = text {
            let kind = match text {
                None => 0,
                Some(0) => 1,
                Some(length) if length < TEXTS[group].1 => 2,
                Some(_) => 3,
            };
            self.texts[group][kind] += 1;
        }
    }

    /// Counts a datagram in the pool, of so many bytes from this index on.
    pub fn in_pool(&mut self, start: usize, length: usize) {
        self.places[start / LONGEST_DATAGRAM] += 1;
        self.count(ToolCase::JoinInPool);
        self.count_if(length == 0, ToolCase::JoinEmptyPool);
        self.count_if(length == LONGEST_DATAGRAM, ToolCase::JoinLongest);
    }

    /// Prints the counts; false where one that has to be reached is zero.
    #[must_use]
    pub fn print(&self) -> bool {
        let mut all = true;
        let mut row = |name: &str, count| all &= print_row(name, [count, 0], Reach::Small);
        for (kind, counts) in REQUESTS.iter().zip(self.written) {
            row(&format!("command: {kind}"), counts[0]);
            // Some requests have nothing that could be out of range.
            if matches!(*kind, "read" | "write" | "masked write" | "lock") {
                row(&format!("command: {kind}, W1"), counts[1]);
            }
            row(&format!("command: {kind}, W2"), counts[2]);
        }
        for (kind, counts) in REQUESTS.iter().zip(self.lengths) {
            for (length, count) in LENGTHS.iter().zip(counts) {
                row(&format!("command: {kind} of {length}"), count);
            }
        }
        for (length, count) in ID_LENGTHS.iter().zip(self.ids) {
            row(&format!("command: lock, ID of {length}"), count);
        }
        for (room, count) in BUFFERS.iter().zip(self.buffers) {
            row(&format!("command: buffer of {room}"), count);
        }
        for (kind, counts) in REQUESTS.iter().zip(self.spaces) {
            for (space, count) in SPACES.iter().zip(counts) {
                row(&format!("command: {kind}, space 0x{space:02X}"), count);
            }
        }
        for (length, count) in REJECTED.iter().zip(self.rejected) {
            row(&format!("Rejected read, {length} bytes"), count);
        }
        for (reply, counts) in PLACED.iter().zip(self.forms) {
            for (form, count) in FORMS.iter().zip(counts) {
                row(&format!("reply: {reply}, by {form}"), count);
            }
        }
        for ((reply, _), counts) in TEXTS.iter().zip(self.texts) {
            for (kind, count) in TEXT_KINDS.iter().zip(counts) {
                row(&format!("reply: {reply}, {kind}"), count);
            }
        }
        for (place, count) in self.places.iter().enumerate() {
            row(&format!("join, datagram in place {place}"), *count);
        }
        for &(case, name, reach) in ToolCase::ALL {
            let counts = [0, 1].map(|by| self.cases[by][case as usize]);
            all &= print_row(name, counts, reach);
        }
        all & self.changes.print()
    }
}

/// The index of a request's kind.
const fn kind_of(request: &Request) -> usize {
    match request {
        Request::Read { .. } => 0,
        Request::Write { .. } => 1,
        Request::WriteMasked { .. } => 2,
        Request::Options => 3,
        Request::Information { .. } => 4,
        Request::Lock { .. } => 5,
        Request::UpdateComplete => 6,
    }
}

/// What a datagram has that makes it no reply.
fn cause_of_w3(datagram: &[u8]) -> ToolCase {
    match *datagram {
        [] => ToolCase::W3Empty,
        // Without the last byte but one it would be a reply.
        [.., _, _] if datagram.len() == 73 && is_reply_but_for_a_byte(datagram) => ToolCase::W3Of73,
        _ if datagram.len() > LONGEST_DATAGRAM => ToolCase::W3Over73,
        [first, ..] if first != 0x20 => ToolCase::W3Byte0,
        [_] => ToolCase::W3Alone,
        [_, command, ref rest @ ..] => {
            let head = if command & 0x03 == 0 { 5 } else { 4 };
            let behind = rest.get(head..).map(<[u8]>::len);
            match (command, behind) {
                (0x50..=0x53, None) => ToolCase::W3ReadCut,
                (0x50..=0x53, Some(0)) => ToolCase::W3Data0,
                (0x50..=0x53, _) => ToolCase::W3Data65,
                (0x10..=0x13, None) => ToolCase::W3WrittenCut,
                (0x10..=0x13, _) => ToolCase::W3WrittenLonger,
                (0x18..=0x1B | 0x58..=0x5B, None | Some(0 | 1)) => ToolCase::W3FailureCut,
                (0x18..=0x1B | 0x58..=0x5B, Some(behind)) => match rest.last() {
                    Some(0) if behind > 2 + 63 => ToolCase::W3Failure64,
                    Some(0) => ToolCase::W3FailureZero,
                    _ => ToolCase::W3FailureOpen,
                },
                (0x82, _) => match *rest {
                    [_, _, _, _, _, .., 0] => ToolCase::W3OptionsZero,
                    [_, _, _, _, _, ..] => ToolCase::W3OptionsOpen,
                    _ => ToolCase::W3OptionsCut,
                },
                (0x86 | 0x87, _) => match *rest {
                    [_, _, _, _, _, flags, ref behind @ ..] => match *behind {
                        _ if flags & 2 != 0 && behind.len() < 4 => ToolCase::W3LowestCut,
                        [.., 0] => ToolCase::W3InformationZero,
                        _ => ToolCase::W3InformationOpen,
                    },
                    _ => ToolCase::W3InformationCut,
                },
                (0x8A, _) if rest.len() < 6 => ToolCase::W3LockCut,
                (0x8A, _) => ToolCase::W3LockLonger,
                _ => ToolCase::W3Unknown,
            }
        }
    }
}

/// Whether options or information of 73 bytes would be a reply if the text were one byte shorter.
fn is_reply_but_for_a_byte(datagram: &[u8]) -> bool {
    let [0x20, command, .., _, 0] = *datagram else {
        return false;
    };
    let head = match command {
        0x82 => 7,
        0x86 | 0x87 if datagram[7] & 2 == 0 => 8,
        0x86 | 0x87 => 12,
        _ => return false,
    };
    !datagram[head..72].contains(&0)
}

#[cfg(test)]
mod tests {
    use super::*;

    fn cause(head: &[u8], length: usize) -> ToolCase {
        let mut datagram = head.to_vec();
        datagram.resize(length.max(head.len() + 1) - 1, 0x41);
        datagram.push(0);
        assert_eq!(Said::of_model(&datagram), Said::Refused(3), "{datagram:X?}");
        cause_of_w3(&datagram)
    }

    #[test]
    fn what_makes_a_datagram_no_reply() {
        // By the control bits a text of 64 bytes makes 72 in all; by byte 6, where it makes 73, it
        // is too long in any case.
        let failed = [0x20, 0x59, 0, 0, 0, 0, 0x10, 0x82];
        assert_eq!(cause(&failed, 72), ToolCase::W3Failure64);
        assert_eq!(cause(&failed, 73), ToolCase::W3Over73);
        let options = [0x20, 0x82, 0xE0, 0, 0xF2, 0xFF, 0];
        assert_eq!(cause(&options, 73), ToolCase::W3Of73);
        assert_eq!(cause(&options, 74), ToolCase::W3Over73);
        let lowest = [0x20, 0x87, 0, 0, 0, 0, 0, 2, 0, 0, 0, 0];
        assert_eq!(cause(&lowest, 73), ToolCase::W3Of73);
        assert_eq!(cause_of_w3(&lowest[..11]), ToolCase::W3LowestCut);
        assert_eq!(cause_of_w3(&lowest[..7]), ToolCase::W3InformationCut);
        assert_eq!(cause(&[0x20, 0x51, 0, 0, 0, 0], 71), ToolCase::W3Data65);
        assert_eq!(cause(&[0x20, 0x8A, 0, 0, 0, 0], 0), ToolCase::W3LockCut);
        assert_eq!(
            cause(&[0x20, 0x11, 0, 0, 0, 0], 0),
            ToolCase::W3WrittenLonger
        );
        assert_eq!(cause(&[0x21, 0x82], 0), ToolCase::W3Byte0);
        assert_eq!(cause(&[0x20, 0x84], 0), ToolCase::W3Unknown);
    }

    #[test]
    fn a_text_is_counted_by_its_length() {
        let mut tally = ToolTally::default();
        for (length, kind) in [
            (6, None),
            (7, None),
            (8, Some(1)),
            (9, Some(2)),
            (72, Some(3)),
        ] {
            let mut datagram = vec![0x41; length];
            datagram[..2].copy_from_slice(&[0x20, 0x82]);
            if length > 7 {
                datagram[length - 1] = 0;
            }
            let said = Said::of_model(&datagram);
            tally.said(&datagram, said);
            let counts = tally.texts[2];
            assert_eq!(counts[kind.unwrap_or(0)], 1 + u64::from(length == 7));
        }
        assert_eq!(tally.texts[2], [2, 1, 1, 1]);
        assert_eq!(tally.cases[0][ToolCase::OptionsNone as usize], 1);
        assert_eq!(tally.cases[0][ToolCase::Of72 as usize], 1);
    }
}
