//! Holds bytes with a guard before and behind them, for what is lent to the library: a byte that
//! it writes outside what it was lent is seen.

const GUARD: usize = 64;
const MARK: u8 = 0xA5;

/// Bytes between two guards.
#[derive(Clone, Debug)]
pub struct Guarded {
    all: Vec<u8>,
}

impl Guarded {
    /// These bytes, guarded.
    #[must_use]
    pub fn new(bytes: &[u8]) -> Self {
        let mut guarded = Self { all: Vec::new() };
        guarded.set(bytes);
        guarded
    }

    /// Takes other bytes, of any length.
    pub fn set(&mut self, bytes: &[u8]) {
        self.all.clear();
        self.all.reserve(2 * GUARD + bytes.len());
        self.all.resize(GUARD, MARK);
        self.all.extend_from_slice(bytes);
        self.all.resize(self.all.len() + GUARD, MARK);
    }

    /// The bytes.
    #[must_use]
    pub fn bytes(&self) -> &[u8] {
        &self.all[GUARD..self.all.len() - GUARD]
    }

    /// The bytes, to be lent.
    pub fn bytes_mut(&mut self) -> &mut [u8] {
        let end = self.all.len() - GUARD;
        &mut self.all[GUARD..end]
    }

    /// The bytes, where there are always so many.
    ///
    /// # Panics
    ///
    /// Where there are more or fewer.
    #[must_use]
    pub fn array<const N: usize>(&self) -> &[u8; N] {
        self.bytes().try_into().expect("bytes of one size")
    }

    /// The same, to be lent.
    ///
    /// # Panics
    ///
    /// Where there are more or fewer.
    pub fn array_mut<const N: usize>(&mut self) -> &mut [u8; N] {
        self.bytes_mut().try_into().expect("bytes of one size")
    }

    /// Whether the guards are as they were.
    #[must_use]
    pub fn is_intact(&self) -> bool {
        let (before, rest) = self.all.split_at(GUARD);
        let behind = &rest[rest.len() - GUARD..];
        before == [MARK; GUARD] && behind == [MARK; GUARD]
    }

    /// Changes the byte behind the bytes, as a library would that writes too far.
    #[cfg(test)]
    pub fn overrun(&mut self) {
        let end = self.all.len() - GUARD;
        self.all[end] ^= 1;
    }
}

#[cfg(test)]
mod tests {
    use super::Guarded;

    #[test]
    fn a_byte_past_the_end_is_seen() {
        let mut guarded = Guarded::new(b"abc");
        guarded.bytes_mut()[2] = 0;
        assert!(guarded.is_intact());
        guarded.overrun();
        assert!(!guarded.is_intact());
    }
}
