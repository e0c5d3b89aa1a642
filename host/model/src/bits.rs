//! Holds what is done to one byte of memory, bit by bit: each of the eight is kept, cleared or set.

/// What is done to one bit.
#[derive(Clone, Copy, Debug, PartialEq, Eq)]
enum Bit {
    Kept,
    Cleared,
    Set,
}

impl Bit {
    /// A bit that is written, and so touched, whatever it was.
    const fn written(value: bool) -> Self {
        if value {
            Self::Set
        } else {
            Self::Cleared
        }
    }
}

/// What is done to the eight bits of a byte, the least significant first.
#[derive(Clone, Copy, Debug, PartialEq, Eq)]
pub(crate) struct ByteEffect([Bit; 8]);

impl ByteEffect {
    /// All eight bits are kept.
    pub(crate) const NONE: Self = Self([Bit::Kept; 8]);

    /// What one byte of a plain write does: all eight bits are written.
    pub(crate) fn plain(data: u8) -> Self {
        Self(bits(data).map(Bit::written))
    }

    /// What one pair of a masked write does: the bits that the mask has at 1 are written.
    pub(crate) fn masked(mask: u8, data: u8) -> Self {
        let (mask, data) = (bits(mask), bits(data));
        Self(core::array::from_fn(|place| {
            if mask[place] {
                Bit::written(data[place])
            } else {
                Bit::Kept
            }
        }))
    }

    /// What takes one byte to another and touches only bits that differ.
    pub(crate) fn between(before: u8, after: u8) -> Self {
        let (before, after) = (bits(before), bits(after));
        Self(core::array::from_fn(|place| {
            if before[place] == after[place] {
                Bit::Kept
            } else {
                Bit::written(after[place])
            }
        }))
    }

    /// This and then the later one: of a bit that both write, the later one is seen.
    pub(crate) fn then(self, later: Self) -> Self {
        Self(core::array::from_fn(|place| match later.0[place] {
            Bit::Kept => self.0[place],
            written => written,
        }))
    }

    /// What a byte is afterwards.
    pub(crate) fn applied_to(self, before: u8) -> u8 {
        let before = bits(before);
        byte(core::array::from_fn(|place| match self.0[place] {
            Bit::Kept => before[place],
            Bit::Cleared => false,
            Bit::Set => true,
        }))
    }

    /// The pair of a masked write that does this: mask, and data that are zero outside the mask.
    pub(crate) fn pair(self) -> (u8, u8) {
        (
            byte(self.0.map(|bit| bit != Bit::Kept)),
            byte(self.0.map(|bit| bit == Bit::Set)),
        )
    }

    /// Whether there is a bit that both write.
    pub(crate) fn shares_a_bit_with(self, other: Self) -> bool {
        self.0
            .iter()
            .zip(&other.0)
            .any(|(own, other)| *own != Bit::Kept && *other != Bit::Kept)
    }
}

/// Puts two pairs of mask and data together: the one pair that does to every byte what the earlier
/// and then the later do, the later winning bit by bit.
///
/// Its data are zero outside its mask. What the data of the two are outside their own masks does
/// not matter.
#[must_use]
pub fn put_together(earlier: (u8, u8), later: (u8, u8)) -> (u8, u8) {
    ByteEffect::masked(earlier.0, earlier.1)
        .then(ByteEffect::masked(later.0, later.1))
        .pair()
}

/// What each bit counts, the least significant first.
const WEIGHTS: [u8; 8] = [1, 2, 4, 8, 16, 32, 64, 128];

/// The bits of a byte, the least significant first.
fn bits(byte: u8) -> [bool; 8] {
    WEIGHTS.map(|weight| byte / weight % 2 == 1)
}

/// The byte that has these bits.
fn byte(bits: [bool; 8]) -> u8 {
    bits.iter()
        .zip(WEIGHTS)
        .map(|(bit, weight)| if *bit { weight } else { 0 })
        .sum()
}
