//! Holds what a board has to say to a request. It is worked out from document 01, the description of
//! the board and its contents, and shares nothing with either side.

use crate::generate::Board;
use crate::tally::By;
use crate::tool::cases::{ToolCase, ToolTally};
use crate::tool::request::{Request, FIRST_BY_BITS};
use crate::tool::said::{Part, Place, Said};
use model::{Lock, Space};

const UNKNOWN_SPACE: u16 = 0x1081;
const OUT_OF_BOUNDS: u16 = 0x1082;
const READ_ONLY: u16 = 0x1083;

/// What a board has before it is asked.
#[derive(Clone, Copy, Debug)]
pub struct Asked<'b> {
    /// Its description.
    pub board: &'b Board,
    /// Its flash.
    pub flash: &'b [u8],
    /// Its memory.
    pub memory: &'b [u8],
    /// Its lock memory.
    pub lock: Lock,
}

/// What it has to say, and what it has afterwards.
#[derive(Clone, Debug, PartialEq, Eq)]
pub struct Expected {
    /// The reply that Received OK announces; `None` where it announces none.
    pub reply: Option<Said>,
    /// The bytes that the reply has as its data or as the lock.
    pub bytes: Vec<u8>,
    /// The index into memory and the bytes that are there afterwards, where some are written.
    pub written: Option<(usize, Vec<u8>)>,
    /// The lock memory afterwards.
    pub lock: Lock,
    /// Which case it is.
    case: ToolCase,
}

impl Expected {
    /// Of this request, whose space is named by byte 6, or else by the control bits.
    #[must_use]
    pub fn of(request: &Request, by_byte_6: bool, asked: &Asked) -> Self {
        let place = |space: u8, address| Place {
            space,
            form: if by_byte_6 {
                0
            } else {
                space.wrapping_sub(FIRST_BY_BITS - 1)
            },
            address,
        };
        match *request {
            Request::Read {
                space,
                address,
                count,
            } => asked.read(place(space, address), count),
            Request::Write {
                space,
                address,
                ref bytes,
            } => {
                let place = place(space, address);
                match asked.index(place, bytes.len()) {
                    Ok(at) => asked.written(ToolCase::MetWrite, at, bytes.clone()),
                    Err(code) => asked.write_failed(place, code, WRITE_FAILURES),
                }
            }
            Request::WriteMasked {
                space,
                address,
                ref pairs,
            } => {
                let place = place(space, address);
                match asked.index(place, pairs.len() / 2) {
                    Ok(at) => asked.written(ToolCase::MetMasked, at, asked.masked(at, pairs)),
                    Err(code) => asked.write_failed(place, code, MASKED_FAILURES),
                }
            }
            Request::Options => asked.options(),
            Request::Information { space } => asked.information(space),
            Request::Lock { ref id } => asked.locked(id),
            Request::UpdateComplete => asked.nothing(ToolCase::MetUpdateComplete),
        }
    }

    /// Counts it.
    pub fn count(&self, by: By, tally: &mut ToolTally) {
        tally.met(by, self.case);
    }
}

/// The cases of a write that fails with 0x1081, 0x1083 and 0x1082.
type Failures = [ToolCase; 3];
const WRITE_FAILURES: Failures = [
    ToolCase::MetWrite1081,
    ToolCase::MetWrite1083,
    ToolCase::MetWrite1082,
];
const MASKED_FAILURES: Failures = [
    ToolCase::MetMasked1081,
    ToolCase::MetMasked1083,
    ToolCase::MetMasked1082,
];

impl Asked<'_> {
    /// The described space with this number.
    fn space(&self, number: u8) -> Option<&Space> {
        self.board.spaces().iter().find(|s| s.number == number)
    }

    /// Received OK without a reply, and no change.
    const fn nothing(&self, case: ToolCase) -> Expected {
        Expected {
            reply: None,
            bytes: Vec::new(),
            written: None,
            lock: self.lock,
            case,
        }
    }

    fn says(&self, case: ToolCase, reply: Said) -> Expected {
        Expected {
            reply: Some(reply),
            ..self.nothing(case)
        }
    }

    fn read(&self, place: Place, count: usize) -> Expected {
        let Place { space, address, .. } = place;
        let failed = |code, case| {
            let text = None;
            self.says(case, Said::ReadFailed { place, code, text })
        };
        let described = match self.space(space) {
            Some(described) => described,
            None if space < FIRST_BY_BITS => return failed(UNKNOWN_SPACE, ToolCase::MetRead1081),
            None => return failed(OUT_OF_BOUNDS, ToolCase::MetRead1082),
        };
        if address < described.lowest || address > described.highest {
            return failed(OUT_OF_BOUNDS, ToolCase::MetRead1082);
        }
        let left = (described.highest - address) as usize + 1;
        let store = if described.in_flash {
            self.flash
        } else {
            self.memory
        };
        let at = described.offset as usize + (address - described.lowest) as usize;
        let bytes = store[at..at + count.min(left)].to_vec();
        let data = Part {
            start: place.head(),
            len: bytes.len(),
        };
        let case = if left < count {
            ToolCase::MetReadShort
        } else {
            ToolCase::MetRead
        };
        Expected {
            bytes,
            ..self.says(case, Said::Read { place, data })
        }
    }

    /// The index into memory of so many bytes that are to be written, or the code that refuses it.
    fn index(&self, place: Place, count: usize) -> Result<usize, u16> {
        let Place { space, address, .. } = place;
        let described = self.space(space);
        if described.is_none() && space < FIRST_BY_BITS {
            return Err(UNKNOWN_SPACE);
        }
        if described.map_or(space == 0xFF, |described| described.read_only) {
            return Err(READ_ONLY);
        }
        let described = described.ok_or(OUT_OF_BOUNDS)?;
        let last = u64::from(address) + count as u64 - 1;
        if address < described.lowest || last > u64::from(described.highest) {
            return Err(OUT_OF_BOUNDS);
        }
        Ok(described.offset as usize + (address - described.lowest) as usize)
    }

    fn written(&self, case: ToolCase, at: usize, bytes: Vec<u8>) -> Expected {
        Expected {
            written: Some((at, bytes)),
            ..self.nothing(case)
        }
    }

    /// What is in memory from this index on after a masked write.
    fn masked(&self, at: usize, pairs: &[u8]) -> Vec<u8> {
        let (pairs, _) = pairs.as_chunks();
        let old = &self.memory[at..];
        old.iter()
            .zip(pairs)
            .map(|(old, &[mask, data])| old & !mask | data & mask)
            .collect()
    }

    fn write_failed(
        &self,
        place: Place,
        code: u16,
        [unknown, read_only, out]: Failures,
    ) -> Expected {
        let case = match code {
            UNKNOWN_SPACE => unknown,
            READ_ONLY => read_only,
            _ => out,
        };
        let text = None;
        self.says(case, Said::WriteFailed { place, code, text })
    }

    fn options(&self) -> Expected {
        let numbers = self.board.spaces().iter().map(|space| space.number);
        let lowest = numbers.chain([FIRST_BY_BITS]).min();
        let case = match lowest {
            Some(0) => ToolCase::MetOptionsZero,
            _ => ToolCase::MetOptions,
        };
        let said = Said::Options {
            commands: 0xE000,
            write_lengths: self.board.write_lengths,
            highest: 0xFF,
            lowest,
            text: None,
        };
        self.says(case, said)
    }

    fn information(&self, space: u8) -> Expected {
        let described = self.space(space);
        let lowest = described.map(|space| space.lowest).filter(|&low| low != 0);
        let case = match (described, lowest) {
            (None, _) => ToolCase::MetInformationAbsent,
            (Some(_), None) => ToolCase::MetInformation,
            (Some(_), Some(_)) => ToolCase::MetInformationLowest,
        };
        let read_only = described.is_some_and(|space| space.read_only);
        let said = Said::Information {
            present: described.is_some(),
            space,
            highest: described.map_or(0, |space| space.highest),
            flags: u8::from(read_only) + 2 * u8::from(lowest.is_some()),
            lowest,
            text: None,
        };
        self.says(case, said)
    }

    fn locked(&self, id: &[u8]) -> Expected {
        let free = self.lock == [0; 6];
        let released = id == [0; 6];
        let mut lock = self.lock;
        if free || released {
            lock.copy_from_slice(id);
        }
        let case = match (released, free) {
            (true, _) => ToolCase::MetLockReleased,
            (false, true) => ToolCase::MetLockTaken,
            (false, false) => ToolCase::MetLockHeld,
        };
        let id = Part { start: 2, len: 6 };
        Expected {
            bytes: lock.to_vec(),
            lock,
            ..self.says(case, Said::Lock { id })
        }
    }
}

#[cfg(test)]
mod tests {
    use super::*;
    use crate::demonstration::{ALIAS, FLASH, MEMORY_LEN, TABLE, WRITE_LENGTHS};
    use crate::tool::bytes;

    /// What the demonstration board, with memory of 0 to 47, has to say to a datagram.
    fn said(datagram: &str, lock: Lock) -> Expected {
        let board = Board::new(
            ALIAS,
            WRITE_LENGTHS,
            TABLE.to_vec(),
            FLASH.len(),
            MEMORY_LEN,
        );
        let memory: Vec<u8> = (0..MEMORY_LEN as u8).collect();
        let datagram = bytes(datagram);
        let request = Request::in_datagram(&datagram).expect("a request");
        let asked = Asked {
            board: &board,
            flash: &FLASH,
            memory: &memory,
            lock,
        };
        Expected::of(&request, datagram[1] & 3 == 0, &asked)
    }

    #[test]
    fn the_replies_of_document_01() {
        for (datagram, reply) in [
            ("20410000001F40", "20510000001F1F"),
            ("20410000002001", "2059000000201082"),
            (
                "204300000000C0",
                "2053000000003C6364692F3E00000000000000000000",
            ),
            ("20400000010E1002", "20500000010E102E2F"),
            ("20400000010E1001", "20500000010E102E"),
            ("20400000000011C0", "20580000000011 1081"),
            ("20010000001F1122", "20190000001F1082"),
            ("20000000000012FF", "20180000000012 1081"),
            ("20030000002001", "201B000000201083"),
            ("208410", "2087100000010F0200000100"),
            ("208411", "2086110000000000"),
            ("2080", "2082E000F2FF10"),
            ("2088000000000001", "208A000000000001"),
        ] {
            let said = said(datagram, [0; 6]);
            let reply = bytes(&reply.replace(' ', ""));
            assert_eq!(said.reply, Some(Said::of_model(&reply)), "{datagram}");
            assert!(reply.ends_with(&said.bytes), "{datagram}");
            assert_eq!(said.written, None, "{datagram}");
        }
    }

    #[test]
    fn what_a_write_leaves_in_memory() {
        for (datagram, at, expected) in [
            ("200100000002ABCD", 2, "ABCD"),
            ("20020000002F11", 47, "11"),
            ("20000000010E101122", 46, "1122"),
            // Under the masks FF, 0F and 00 over 21, 22 and 23.
            ("20080000010110FF550F5A00FF", 33, "552A23"),
        ] {
            let said = said(datagram, [0; 6]);
            assert_eq!(said.reply, None, "{datagram}");
            assert_eq!(said.written, Some((at, bytes(expected))), "{datagram}");
        }
        let complete = said("20A8", [7; 6]);
        assert_eq!((complete.reply, complete.written), (None, None));
        assert_eq!(complete.lock, [7; 6]);
    }

    #[test]
    fn the_lock_before_and_afterwards() {
        let (free, held) = ([0; 6], [9, 0, 0, 0, 0, 0]);
        let one = [0, 0, 0, 0, 0, 1];
        for (datagram, before, after) in [
            ("2088000000000001", free, one),
            ("2088000000000001", held, held),
            ("2088000000000000", held, free),
            ("2088000000000000", free, free),
        ] {
            let said = said(datagram, before);
            assert_eq!((said.lock, said.bytes), (after, after.to_vec()));
        }
    }
}
