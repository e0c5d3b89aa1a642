//! Holds the board description, its check (B11 to B14, then B2 to B5) and the windows of its
//! spaces.

use crate::CallError;

/// The most spaces a description may hold.
pub const MOST_SPACES: usize = 16;
/// The most bytes that flash, and that memory, may have.
pub const LARGEST_STORE: usize = 65_536;
/// The last alias; aliases have 12 bits.
pub const LAST_ALIAS: u16 = 4_095;

/// One address space of the board.
#[derive(Clone, Copy, Debug, PartialEq, Eq)]
pub struct Space {
    /// The number by which commands name the space.
    pub number: u8,
    /// The lowest address, included.
    pub lowest: u32,
    /// The highest address, included.
    pub highest: u32,
    /// Read-only, or else writable.
    pub read_only: bool,
    /// In flash, or else in working memory.
    pub in_flash: bool,
    /// Where in flash or memory the byte at the lowest address lies.
    pub offset: u32,
}

/// What the board is: its alias, its Write Lengths byte and its spaces in order.
#[derive(Clone, Copy, Debug, PartialEq, Eq)]
pub struct Description<'a> {
    /// The board's own alias; one that is not 1–4,095 is refused with B14.
    pub alias: u16,
    /// The Write Lengths byte, sent as given.
    pub write_lengths: u8,
    /// The spaces in order; more than 16 are refused with B11.
    pub spaces: &'a [Space],
}

impl Space {
    /// How many bytes the space has; at least one where lowest is not above highest.
    const fn size(&self) -> u64 {
        self.highest as u64 - self.lowest as u64 + 1
    }

    /// B2, B3 and B4 for this space, which is at this position of the description.
    fn check(&self, position: usize, flash_len: usize, memory_len: usize) -> Result<(), CallError> {
        if self.lowest > self.highest {
            return Err(CallError::B2LowestAboveHighest(position));
        }
        let store_len = if self.in_flash { flash_len } else { memory_len };
        if u64::from(self.offset) + self.size() > store_len as u64 {
            return Err(CallError::B3WindowPastEnd(position));
        }
        if !self.read_only && (self.in_flash || self.number == 0xFF) {
            return Err(CallError::B4MustBeReadOnly(position));
        }
        Ok(())
    }

    /// Where in its flash or memory the space lies. The description has been checked.
    fn range(&self) -> core::ops::Range<usize> {
        let start = self.offset as usize;
        start..start + self.size() as usize
    }

    /// The bytes of the space from `address` to the highest address; `None` where the address is
    /// outside. The description has been checked.
    pub(crate) fn bytes_from<'s>(
        &self,
        flash: &'s [u8],
        memory: &'s [u8],
        address: u32,
    ) -> Option<&'s [u8]> {
        let store = if self.in_flash { flash } else { memory };
        let window = &store[self.range()];
        let start = address.checked_sub(self.lowest)? as usize;
        window.get(start..).filter(|bytes| !bytes.is_empty())
    }

    /// Where in memory the `count` bytes of a writable space from `address` are; `None` where any
    /// of them is outside. The description has been checked, so a writable space is one in memory.
    pub(crate) fn range_to_write(
        &self,
        address: u32,
        count: usize,
    ) -> Option<core::ops::Range<usize>> {
        let window = self.range();
        let start = window.start + address.checked_sub(self.lowest)? as usize;
        let end = start + count;
        (end <= window.end).then_some(start..end)
    }
}

impl Description<'_> {
    /// The described space with this number.
    pub(crate) fn space(&self, number: u8) -> Option<&Space> {
        self.spaces.iter().find(|space| space.number == number)
    }

    /// The lowest number among the described spaces and 0xFD.
    pub(crate) fn lowest_number(&self) -> u8 {
        self.spaces
            .iter()
            .fold(0xFD, |lowest, space| lowest.min(space.number))
    }
}

/// The limits, each with its own number: B11, B12, B13 and B14, in this order.
fn check_limits(
    description: &Description,
    flash_len: usize,
    memory_len: usize,
) -> Result<(), CallError> {
    if description.spaces.len() > MOST_SPACES {
        return Err(CallError::B11TooManySpaces);
    }
    if memory_len > LARGEST_STORE {
        return Err(CallError::B12MemoryTooLarge);
    }
    if flash_len > LARGEST_STORE {
        return Err(CallError::B13FlashTooLarge);
    }
    if !(1..=LAST_ALIAS).contains(&description.alias) {
        return Err(CallError::B14AliasOutOfRange);
    }
    Ok(())
}

/// The check that comes first at each call: B11 to B14, then space by space B2 to B5.
pub fn check_description(
    description: &Description,
    flash_len: usize,
    memory_len: usize,
) -> Result<(), CallError> {
    check_limits(description, flash_len, memory_len)?;
    // One bit for each of the 256 numbers an earlier space may have used.
    let mut used = [0u64; 4];
    for (position, space) in description.spaces.iter().enumerate() {
        space.check(position, flash_len, memory_len)?;
        let word = &mut used[usize::from(space.number >> 6)];
        let bit = 1u64 << (space.number & 0x3F);
        if *word & bit != 0 {
            return Err(CallError::B5NumberUsedTwice(position));
        }
        *word |= bit;
    }
    Ok(())
}
