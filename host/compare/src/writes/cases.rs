//! Holds the counts of the cases of writes that add up, which have to be reached as all others
//! have.

use crate::answer::Answer;
use crate::ffi::Numbers;
use crate::generate::{Board, LARGEST_STORE};
use crate::tally::{cases, print_row};
use crate::writes::aimed::{Write, MOST_BYTES, MOST_PAIRS};
use crate::writes::boards::{bytes_of, writable};
use crate::writes::lists::MOST;
use crate::writes::pairs::Seen;
use crate::writes::Judged;
use model::Space;

cases! {
    WriteCase;
    /// A byte of memory is in two writable spaces.
    Overlap = "board: writable spaces overlap", Small;
    /// A byte of memory is in a writable space and in one that is read-only.
    OverReadOnly = "board: read-only over writable", Small;
    /// A space lies in flash.
    Flash = "board: a space in flash", Small;
    /// 0xFD or 0xFE is described and writable.
    Named = "board: 0xFD or 0xFE writable", Small;
    /// Neither is.
    NotNamed = "board: neither 0xFD nor 0xFE", Small;
    /// The least memory that can be written to.
    OneByte = "board: memory of 1 byte", Small;
    /// The most memory.
    Largest = "board: memory of 65,536 bytes", Small;
    /// A plain write by the control bits.
    PlainByBits = "adding up: plain, by control bits", Small;
    /// A plain write by byte 6, to a space that the control bits could name.
    PlainByByte6 = "adding up: plain, FD, FE by byte 6", Small;
    /// A plain write by byte 6, to another space.
    PlainElsewhere = "adding up: plain, another space", Small;
    /// A masked write by the control bits.
    MaskedByBits = "adding up: masked, by control bits", Small;
    /// A masked write by byte 6, to a space that the control bits could name.
    MaskedByByte6 = "adding up: masked, FD, FE by byte 6", Small;
    /// A masked write by byte 6, to another space.
    MaskedElsewhere = "adding up: masked, another space", Small;
    /// The fewest bytes.
    PlainOne = "adding up: plain, 1 byte", Small;
    /// The most.
    PlainMost = "adding up: plain, 64 bytes", Small;
    /// The fewest pairs.
    MaskedOne = "adding up: masked, 1 pair", Small;
    /// The most.
    MaskedMost = "adding up: masked, 32 pairs", Small;
    /// A write from the lowest address of its space on.
    AtLowest = "adding up: from the lowest address", Small;
    /// A write up to the highest.
    AtHighest = "adding up: up to the highest address", Small;
    /// A write of the last byte of memory.
    LastByte = "adding up: last byte of memory", Small;
    /// A write of the last byte of the largest memory.
    LastOfLargest = "adding up: byte 65,535 of memory", Small;
    /// A mask of no bit.
    MaskNone = "adding up: a mask of no bit", Small;
    /// A mask of one.
    MaskOne = "adding up: a mask of one bit", Small;
    /// A mask of all.
    MaskAll = "adding up: a mask of all bits", Small;
    /// Another mask.
    MaskSome = "adding up: another mask", Small;
    /// Data that are not zero outside their mask.
    DataOutside = "adding up: data outside the mask", Small;
    /// A masked write of which all masks are zero.
    AllMasksNone = "adding up: masked, touches nothing", Small;
    /// Two plain writes that share no bit.
    PlainPlainApart = "pair apart: plain, plain", Small;
    /// A plain and a masked one that share none.
    PlainMaskedApart = "pair apart: plain, masked", Small;
    /// Two masked ones that share none.
    MaskedMaskedApart = "pair apart: masked, masked", Small;
    /// They touch the same byte of memory through the same space.
    ApartOneSpace = "pair apart: same byte, one space", Small;
    /// They do through two spaces, in which it has different addresses.
    ApartTwoSpaces = "pair apart: same byte, two spaces", Small;
    /// They do through two spaces, in which it has one address.
    ApartOneAddress = "pair apart: same byte, one address", Small;
    /// They begin at one address in two spaces, and name no common byte of memory.
    ApartEqualAddress = "pair apart: one address, two bytes", Small;
    /// A masked one names a byte of a plain one with a mask of no bit.
    ApartMaskNone = "pair apart: no bit of a plain byte", Small;
    /// They name no common byte, and begin at different addresses.
    ApartElsewhere = "pair apart: no common byte", Small;
    /// Two plain writes that share a bit.
    PlainPlainShared = "pair shares a bit: plain, plain", Small;
    /// A plain and a masked one that share one.
    PlainMaskedShared = "pair shares a bit: plain, masked", Small;
    /// Two masked ones that share one.
    MaskedMaskedShared = "pair shares a bit: masked, masked", Small;
    /// Through one space.
    SharedOneSpace = "pair shares a bit: one space", Small;
    /// Through two spaces, and the byte has different addresses.
    SharedTwoSpaces = "pair shares a bit: two spaces", Small;
    /// Through two spaces, and the byte has one address.
    SharedOneAddress = "pair shares a bit: one address", Small;
    /// The two orders leave different memories.
    OrderMatters = "pair shares a bit: order matters", Small;
    /// They leave the same.
    OrderDoesNot = "pair shares a bit: same either way", Small;
    /// The same write twice.
    Twice = "pair: the same write twice", Small;
    /// Both name the last byte of memory.
    BothLastByte = "pair: both to the last byte", Small;
    /// A list without a datagram.
    ListEmpty = "list: empty", Small;
    /// The longest list.
    ListMost = "list: 12 datagrams", Small;
    /// A list of accepted writes alone.
    ListOfWrites = "list: accepted writes alone", Small;
    /// A list with a write or masked write that fails.
    ListRefused = "list: with a refused write", Small;
    /// A list with a datagram that is rejected.
    ListRejected = "list: with a rejected datagram", Small;
    /// A list with a read.
    ListRead = "list: with a read", Small;
    /// A list with a lock.
    ListLock = "list: with a lock", Small;
    /// A list with Update Complete.
    ListUpdateComplete = "list: with Update Complete", Small;
    /// A list with options or information.
    ListAsked = "list: with options or information", Small;
    /// An accepted write comes behind another datagram.
    ListWriteBehind = "list: a write behind another", Small;
    /// An accepted write touches a bit that the accepted one before it has touched.
    ListOver = "list: a write over the one before", Small;
    /// A list with datagrams of which none is an accepted write.
    ListNothing = "list: no accepted write", Small;
    /// A list that is cut with datagrams on both sides.
    ListCut = "list: cut within", Small;
    /// One that is cut with nothing on one side.
    ListCutAtEnd = "list: cut at an end", Small;
    /// Both tools write.
    BothWrite = "two tools: both write", Small;
    /// One of them does.
    OneWrites = "two tools: one writes", Small;
    /// Both have plain writes.
    BothPlain = "two tools: both with plain writes", Small;
    /// Both touch the same byte of memory.
    BothInByte = "two tools: in the same byte", Small;
    /// They do through two spaces.
    BothInByteTwoSpaces = "two tools: the same, two spaces", Small;
    /// A write of one comes between two of the other.
    Between = "two tools: a write between two", Small;
    /// The two ways are not the same.
    TwoWays = "two tools: two different ways", Small;
}

/// The counts.
#[derive(Clone, Debug)]
pub struct WriteTally {
    cases: Vec<u64>,
}

impl Default for WriteTally {
    fn default() -> Self {
        Self {
            cases: vec![0; WriteCase::ALL.len()],
        }
    }
}

impl WriteTally {
    fn count(&mut self, case: WriteCase) {
        self.cases[case as usize] += 1;
    }

    /// Counts each of these that is one.
    fn count_all<const N: usize>(&mut self, cases: [(bool, WriteCase); N]) {
        for (is, case) in cases {
            self.cases[case as usize] += u64::from(is);
        }
    }

    /// Counts what is to be seen of a board.
    pub fn board(&mut self, board: &Board) {
        let over = |read_only: bool| {
            writable(board).any(|one| {
                let mut others = board.spaces().iter();
                others.any(|other| {
                    other.number != one.number && other.read_only == read_only && meet(one, other)
                })
            })
        };
        let named = writable(board).any(|space| space.number >= 0xFD);
        let in_flash = board.spaces().iter().any(|space| space.in_flash);
        self.count_all([
            (over(false), WriteCase::Overlap),
            (over(true), WriteCase::OverReadOnly),
            (in_flash, WriteCase::Flash),
            (named, WriteCase::Named),
            (!named, WriteCase::NotNamed),
            (board.memory_len == 1, WriteCase::OneByte),
            (board.memory_len == LARGEST_STORE, WriteCase::Largest),
        ]);
    }

    /// Counts what is to be seen of an accepted write.
    fn write(&mut self, write: &Write, board: &Board) {
        let by_bits = write.datagram[1] & 0x03 != 0;
        self.count(match (write.masked, by_bits, write.number >= 0xFD) {
            (false, true, _) => WriteCase::PlainByBits,
            (false, false, true) => WriteCase::PlainByByte6,
            (false, false, false) => WriteCase::PlainElsewhere,
            (true, true, _) => WriteCase::MaskedByBits,
            (true, false, true) => WriteCase::MaskedByByte6,
            (true, false, false) => WriteCase::MaskedElsewhere,
        });
        let (count, end) = (write.masks.len(), write.range().end);
        let space = writable(board).find(|space| space.number == write.number);
        let bytes = space.map(bytes_of).unwrap_or_default();
        let last = end == board.memory_len;
        self.count_all([
            (!write.masked && count == 1, WriteCase::PlainOne),
            (!write.masked && count == MOST_BYTES, WriteCase::PlainMost),
            (write.masked && count == 1, WriteCase::MaskedOne),
            (write.masked && count == MOST_PAIRS, WriteCase::MaskedMost),
            (bytes.start == write.start, WriteCase::AtLowest),
            (bytes.end == end, WriteCase::AtHighest),
            (last, WriteCase::LastByte),
            (last && end == LARGEST_STORE, WriteCase::LastOfLargest),
        ]);
        if write.masked {
            self.masks(write);
        }
    }

    /// Counts the masks of a masked write.
    fn masks(&mut self, write: &Write) {
        let has = |is: fn(u8) -> bool| write.masks.iter().any(|&mask| is(mask));
        let pairs = &write.datagram[write.datagram.len() - 2 * write.masks.len()..];
        let mut pairs = pairs.chunks_exact(2);
        self.count_all([
            (has(|mask| mask == 0), WriteCase::MaskNone),
            (has(|mask| mask.count_ones() == 1), WriteCase::MaskOne),
            (has(|mask| mask == 0xFF), WriteCase::MaskAll),
            (
                has(|mask| (2..8).contains(&mask.count_ones())),
                WriteCase::MaskSome,
            ),
            (
                pairs.any(|pair| pair[1] & !pair[0] != 0),
                WriteCase::DataOutside,
            ),
            (!has(|mask| mask != 0), WriteCase::AllMasksNone),
        ]);
    }

    /// Counts two writes that were made in either order.
    pub fn pair(&mut self, one: &Write, other: &Write, seen: Seen, board: &Board) {
        self.write(one, board);
        self.write(other, board);
        if seen.apart {
            self.apart(one, other);
        } else {
            self.shared(one, other, seen.order_matters);
        }
        let last = |write: &Write| write.range().end == board.memory_len;
        self.count_all([
            (one == other, WriteCase::Twice),
            (last(one) && last(other), WriteCase::BothLastByte),
        ]);
    }

    /// Counts two writes that share no bit.
    fn apart(&mut self, one: &Write, other: &Write) {
        self.count(match (one.masked, other.masked) {
            (false, false) => WriteCase::PlainPlainApart,
            (true, true) => WriteCase::MaskedMaskedApart,
            _ => WriteCase::PlainMaskedApart,
        });
        let named = !one.common(other).is_empty();
        let touched = one.shares_a_byte_with(other);
        let one_space = one.number == other.number;
        let one_address = one.has_the_addresses_of(other);
        let begin_at_one = one.address == other.address;
        self.count_all([
            (touched && one_space, WriteCase::ApartOneSpace),
            (
                touched && !one_space && !one_address,
                WriteCase::ApartTwoSpaces,
            ),
            (
                touched && !one_space && one_address,
                WriteCase::ApartOneAddress,
            ),
            (!named && begin_at_one, WriteCase::ApartEqualAddress),
            (!named && !begin_at_one, WriteCase::ApartElsewhere),
            (
                named && one.masked != other.masked,
                WriteCase::ApartMaskNone,
            ),
        ]);
    }

    /// Counts two writes that share a bit.
    fn shared(&mut self, one: &Write, other: &Write, order_matters: bool) {
        self.count(match (one.masked, other.masked) {
            (false, false) => WriteCase::PlainPlainShared,
            (true, true) => WriteCase::MaskedMaskedShared,
            _ => WriteCase::PlainMaskedShared,
        });
        self.count(if one.number == other.number {
            WriteCase::SharedOneSpace
        } else if one.has_the_addresses_of(other) {
            WriteCase::SharedOneAddress
        } else {
            WriteCase::SharedTwoSpaces
        });
        self.count(if order_matters {
            WriteCase::OrderMatters
        } else {
            WriteCase::OrderDoesNot
        });
    }

    /// Counts a list with these answers, which was cut behind so many.
    pub fn list(&mut self, list: &[Judged], answers: &[Numbers], cut: usize) {
        let mut kinds: Vec<WriteCase> = Vec::new();
        for (judged, &answer) in list.iter().zip(answers) {
            let kind = kind_of(&judged.datagram, Answer::from(answer));
            kinds.extend(kind.filter(|kind| !kinds.contains(kind)));
        }
        for &kind in &kinds {
            self.count(kind);
        }
        let accepted: Vec<&Judged> = list.iter().filter(|judged| judged.accepted).collect();
        let over = |two: &[&Judged]| two[0].effect.shares_a_bit_with(&two[1].effect);
        let behind = |two: &[Judged]| !two[0].accepted && two[1].accepted;
        let some = !list.is_empty();
        let within = (1..list.len()).contains(&cut);
        self.count_all([
            (!some, WriteCase::ListEmpty),
            (list.len() == MOST, WriteCase::ListMost),
            (
                some && accepted.len() == list.len(),
                WriteCase::ListOfWrites,
            ),
            (list.windows(2).any(behind), WriteCase::ListWriteBehind),
            (accepted.windows(2).any(over), WriteCase::ListOver),
            (some && accepted.is_empty(), WriteCase::ListNothing),
            (within, WriteCase::ListCut),
            (some && !within, WriteCase::ListCutAtEnd),
        ]);
    }

    /// Counts the writes of two tools, which came in these two ways.
    pub fn interleaving(&mut self, lists: &[Vec<Write>; 2], ways: &[Vec<usize>; 2], board: &Board) {
        let [first, second] = lists;
        for write in lists.iter().flatten() {
            self.write(write, board);
        }
        let plain = |list: &[Write]| list.iter().any(|write| !write.masked);
        let in_byte = |two_spaces: bool| {
            first.iter().any(|one| {
                second.iter().any(|other| {
                    let spaces = !two_spaces || one.number != other.number;
                    spaces && one.shares_a_byte_with(other)
                })
            })
        };
        let between = |way: &Vec<usize>| {
            let turns = way.windows(2).filter(|two| two[0] != two[1]);
            turns.count() > 1
        };
        self.count_all([
            (
                !first.is_empty() && !second.is_empty(),
                WriteCase::BothWrite,
            ),
            (first.is_empty() != second.is_empty(), WriteCase::OneWrites),
            (plain(first) && plain(second), WriteCase::BothPlain),
            (in_byte(false), WriteCase::BothInByte),
            (in_byte(true), WriteCase::BothInByteTwoSpaces),
            (ways.iter().any(between), WriteCase::Between),
            (ways[0] != ways[1], WriteCase::TwoWays),
        ]);
    }

    /// Prints the counts; false where one is zero.
    #[must_use]
    pub fn print(&self) -> bool {
        let mut all = true;
        for &(case, name, reach) in WriteCase::ALL {
            all &= print_row(name, [self.cases[case as usize], 0], reach);
        }
        all
    }
}

/// Whether two spaces have a byte of memory in common.
fn meet(one: &Space, other: &Space) -> bool {
    let (first, second) = (bytes_of(one), bytes_of(other));
    !one.in_flash && !other.in_flash && first.start < second.end && second.start < first.end
}

/// The case of a datagram in a list that is no accepted write.
const fn kind_of(datagram: &[u8], answer: Answer) -> Option<WriteCase> {
    Some(match (answer, datagram) {
        (Answer::Rejected(_), _) => WriteCase::ListRejected,
        (Answer::UpdateComplete, _) => WriteCase::ListUpdateComplete,
        (Answer::Replied(_), [_, 0x00..=0x0B, ..]) => WriteCase::ListRefused,
        (Answer::Replied(_), [_, 0x40..=0x43, ..]) => WriteCase::ListRead,
        (Answer::Replied(_), [_, 0x80 | 0x84, ..]) => WriteCase::ListAsked,
        (Answer::Replied(_), [_, 0x88, ..]) => WriteCase::ListLock,
        _ => return None,
    })
}

#[cfg(test)]
mod tests {
    use super::*;

    /// A masked write of one byte with this mask, or else a plain one.
    fn write(number: u8, address: u32, start: usize, mask: Option<u8>) -> Write {
        let pair = [mask.unwrap_or(0xFF), 0x5A];
        let data = if mask.is_some() {
            &pair[..]
        } else {
            &pair[1..]
        };
        let command = if mask.is_some() { 0x08 } else { 0x00 };
        let head = [&[0x20, command][..], &address.to_be_bytes(), &[number]].concat();
        Write {
            number,
            address,
            start,
            masked: mask.is_some(),
            masks: vec![pair[0]],
            datagram: [&head, data].concat(),
        }
    }

    /// The cases that were counted.
    fn counted(count: impl FnOnce(&mut WriteTally)) -> Vec<WriteCase> {
        let mut tally = WriteTally::default();
        count(&mut tally);
        let cases = WriteCase::ALL.iter().map(|&(case, ..)| case);
        let cases = cases.filter(|&case| tally.cases[case as usize] != 0);
        cases.collect()
    }

    #[test]
    fn writes_that_are_apart() {
        use WriteCase as Case;
        let low = write(0xFD, 3, 3, Some(0x0F));
        let apart = |other: &Write| counted(|tally| tally.apart(&low, other));
        let masked = |case| [Case::MaskedMaskedApart, case];
        let high = |number, address, start| write(number, address, start, Some(0xF0));
        assert_eq!(apart(&high(0xFD, 3, 3)), masked(Case::ApartOneSpace));
        assert_eq!(apart(&high(0x10, 7, 3)), masked(Case::ApartTwoSpaces));
        assert_eq!(apart(&high(0xFE, 3, 3)), masked(Case::ApartOneAddress));
        assert_eq!(apart(&high(0xFE, 3, 4)), masked(Case::ApartEqualAddress));
        assert_eq!(apart(&high(0xFE, 4, 4)), masked(Case::ApartElsewhere));
        let plain = write(0xFE, 3, 4, None);
        assert_eq!(
            apart(&plain),
            [Case::PlainMaskedApart, Case::ApartEqualAddress]
        );
        let none = write(0xFE, 3, 4, Some(0));
        assert_eq!(
            counted(|tally| tally.apart(&plain, &none)),
            [Case::PlainMaskedApart, Case::ApartMaskNone]
        );
    }

    #[test]
    fn writes_that_share_a_bit() {
        use WriteCase as Case;
        let one = write(0xFD, 3, 3, None);
        let shared = |other: &Write, order| counted(|tally| tally.shared(&one, other, order));
        assert_eq!(
            shared(&one, false),
            [
                Case::PlainPlainShared,
                Case::SharedOneSpace,
                Case::OrderDoesNot
            ]
        );
        assert_eq!(
            shared(&write(0x10, 7, 3, Some(1)), true),
            [
                Case::PlainMaskedShared,
                Case::SharedTwoSpaces,
                Case::OrderMatters
            ]
        );
        assert_eq!(
            shared(&write(0xFE, 3, 3, None), true),
            [
                Case::PlainPlainShared,
                Case::SharedOneAddress,
                Case::OrderMatters
            ]
        );
    }

    #[test]
    fn writes_of_two_tools() {
        use WriteCase as Case;
        let board = Board::new(0x22B, 0, Vec::new(), 0, 48);
        let tools = |first: &[Write], second: &[Write], ways: &[Vec<usize>; 2]| {
            let lists = [first.to_vec(), second.to_vec()];
            let cases = counted(|tally| tally.interleaving(&lists, ways, &board));
            let own = |case: &&Case| (Case::BothWrite as usize..).contains(&(**case as usize));
            cases.iter().filter(own).copied().collect::<Vec<_>>()
        };
        let low = write(0xFD, 3, 3, Some(0x0F));
        let high = write(0xFE, 3, 3, Some(0xF0));
        let one_way = vec![0, 0, 1];
        let both = [low.clone(), low.clone()];
        assert_eq!(
            tools(&both, &[high], &[one_way.clone(), vec![0, 1, 0]]),
            [
                Case::BothWrite,
                Case::BothInByte,
                Case::BothInByteTwoSpaces,
                Case::Between,
                Case::TwoWays
            ]
        );
        let plain = write(0xFD, 4, 4, None);
        let other = write(0xFD, 5, 5, None);
        assert_eq!(
            tools(&[plain], &[other], &[vec![0, 1], vec![0, 1]]),
            [Case::BothWrite, Case::BothPlain]
        );
        assert_eq!(
            tools(&both, &[], &[vec![0, 0], vec![0, 0]]),
            [Case::OneWrites]
        );
    }
}
