//! Holds what accepted writes and masked writes do to memory, apart from any content of it (C-16).

use crate::bits::ByteEffect;
use crate::datagram::{command_of, Addressed};
use crate::description::Description;

/// What a list of writes does to a memory, whatever its content: each bit of each byte is kept,
/// cleared or set.
///
/// Two effects are equal where they do the same to every content of memory, and only there.
#[derive(Clone, Debug, PartialEq, Eq)]
pub struct Effect {
    bytes: Vec<ByteEffect>,
}

impl Effect {
    /// Nothing is done to a memory of this length. It is the effect of the empty list.
    #[must_use]
    pub fn none(memory_len: usize) -> Self {
        Self {
            bytes: vec![ByteEffect::NONE; memory_len],
        }
    }

    /// What a whole datagram does to a memory of this length; nothing, where it is no accepted
    /// write.
    ///
    /// The description is one that no call refuses with such a memory.
    ///
    /// # Panics
    ///
    /// May panic where a call refuses the description with an error of the caller.
    #[must_use]
    pub fn of(description: &Description, memory_len: usize, datagram: &[u8]) -> Self {
        let mut effect = Self::none(memory_len);
        if let Some((range, written)) = accepted(description, datagram) {
            effect.bytes[range].copy_from_slice(&written);
        }
        effect
    }

    /// This and then the later one put together: of a bit that both write, the later one is seen.
    ///
    /// # Panics
    ///
    /// Where the two are for memories of different length.
    #[must_use]
    pub fn then(&self, later: &Self) -> Self {
        let bytes = self.beside(later).map(|(own, later)| own.then(later));
        Self {
            bytes: bytes.collect(),
        }
    }

    /// Does it to a memory.
    ///
    /// # Panics
    ///
    /// Where the memory has not the length that the effect is for.
    pub fn apply(&self, memory: &mut [u8]) {
        assert_eq!(self.bytes.len(), memory.len(), "one length of memory");
        for (byte, done) in memory.iter_mut().zip(&self.bytes) {
            *byte = done.applied_to(*byte);
        }
    }

    /// Mask and data for each byte of memory; the data are zero outside the mask.
    #[must_use]
    pub fn pairs(&self) -> Vec<(u8, u8)> {
        self.bytes.iter().map(|done| done.pair()).collect()
    }

    /// Whether there is a bit of memory that both touch, be it with the same value.
    ///
    /// # Panics
    ///
    /// Where the two are for memories of different length.
    #[must_use]
    pub fn shares_a_bit_with(&self, other: &Self) -> bool {
        self.beside(other)
            .any(|(own, other)| own.shares_a_bit_with(other))
    }

    /// What this and the other do to each byte of the memory.
    fn beside<'e>(
        &'e self,
        other: &'e Self,
    ) -> impl Iterator<Item = (ByteEffect, ByteEffect)> + 'e {
        assert_eq!(self.bytes.len(), other.bytes.len(), "one length of memory");
        self.bytes.iter().copied().zip(other.bytes.iter().copied())
    }
}

/// Whether the board answers a whole datagram as a write or masked write that succeeds, with
/// Received OK 0x00. Update Complete, which is answered so too, is no write.
///
/// The description is one that no call refuses. No content of flash, memory or lock matters.
///
/// # Panics
///
/// May panic where a call refuses the description with an error of the caller.
#[must_use]
pub fn is_accepted_write(description: &Description, datagram: &[u8]) -> bool {
    accepted(description, datagram).is_some()
}

/// Where in memory an accepted write writes, and what it does to each byte there; `None` for any
/// other datagram.
fn accepted(
    description: &Description,
    datagram: &[u8],
) -> Option<(core::ops::Range<usize>, Vec<ByteEffect>)> {
    let command = command_of(datagram).ok()?;
    let addressed = Addressed::of(datagram).ok()?;
    let written: Vec<_> = match command {
        0x00..=0x03 => {
            let data = addressed.data().ok()?;
            data.iter().copied().map(ByteEffect::plain).collect()
        }
        0x08..=0x0B => {
            let pairs = addressed.pairs().ok()?.chunks_exact(2);
            pairs
                .map(|pair| ByteEffect::masked(pair[0], pair[1]))
                .collect()
        }
        _ => return None,
    };
    let range = addressed.range_to_write(description, written.len()).ok()?;
    Some((range, written))
}
