//! Holds the tool's search for the masked writes that take one image of memory to another, with its
//! own refusals.

use crate::bits::ByteEffect;

/// The most pairs of one masked write.
const MOST_PAIRS: usize = 32;

/// A masked write that takes a part of an old image to the new one.
#[derive(Clone, Copy, Debug, PartialEq, Eq, Hash)]
pub struct Change {
    /// The index into both images of its first byte, which differs.
    pub start: usize,
    /// How many bytes it has, 1 to 32. The last one differs too.
    pub count: usize,
}

/// Why no change is looked for. These are the search's own, and none of C-12's.
#[derive(Clone, Copy, Debug, PartialEq, Eq, PartialOrd, Ord, Hash)]
pub enum ChangeRefusal {
    /// Two images of different length.
    LengthsDiffer,
    /// A lent buffer under 64 bytes.
    BufferTooShort,
}

impl ChangeRefusal {
    /// The number that the C edge gives it.
    #[must_use]
    pub const fn number(self) -> u8 {
        match self {
            Self::LengthsDiffer => 1,
            Self::BufferTooShort => 2,
        }
    }
}

impl core::fmt::Display for ChangeRefusal {
    fn fmt(&self, out: &mut core::fmt::Formatter<'_>) -> core::fmt::Result {
        out.write_str(match self {
            Self::LengthsDiffer => "images of different length",
            Self::BufferTooShort => "a buffer under 64 bytes",
        })
    }
}

impl core::error::Error for ChangeRefusal {}

/// Finds the next change at or after the index `from`, and puts down its pairs at the start of the
/// lent buffer, for each byte its mask and then its data.
///
/// It starts at the first byte at or after `from` that differs, and ends with the last one that
/// differs among the 32 from there on. Each mask has exactly the bits that differ, and the data
/// are the new ones of these bits and zero outside. `None` where no byte at or after `from`
/// differs, which is not a change at index 0. The bytes behind the pairs, and the whole buffer
/// where there is no change, stay as they were.
///
/// Images of different length are refused first, then a buffer under 64 bytes, also where there is
/// no change; both leave the whole buffer as it was.
pub fn next_change(
    before: &[u8],
    after: &[u8],
    from: usize,
    pairs: &mut [u8],
) -> Result<Option<Change>, ChangeRefusal> {
    if before.len() != after.len() {
        return Err(ChangeRefusal::LengthsDiffer);
    }
    if pairs.len() < 2 * MOST_PAIRS {
        return Err(ChangeRefusal::BufferTooShort);
    }
    let length = before.len();
    let differs = |index: &usize| before[*index] != after[*index];
    let Some(start) = (from..length).find(differs) else {
        return Ok(None);
    };
    let reach = length.min(start + MOST_PAIRS);
    let last = (start..reach).rfind(differs).unwrap_or(start);
    for (place, index) in pairs.chunks_exact_mut(2).zip(start..=last) {
        let (mask, data) = ByteEffect::between(before[index], after[index]).pair();
        place.copy_from_slice(&[mask, data]);
    }
    let count = last - start + 1;
    Ok(Some(Change { start, count }))
}
