//! Holds the reception state: what is kept for up to eight sources, each with an unfinished
//! datagram or being swallowed after a broken one, its check (B7), and its timeout.

use crate::datagram::LONGEST_DATAGRAM;
use crate::description::LAST_ALIAS;
use crate::CallError;

/// The most sources for which something may be kept: each has one unfinished datagram or is being
/// swallowed.
pub const MOST_UNFINISHED: usize = 8;
/// How many ticks back the last accepted frame of a source may be while its place stays: at
/// exactly 3,000 it stays, at more it is dropped.
pub const RECEPTION_TIMEOUT: u64 = 3_000;

/// What is kept for one source, as it goes into and comes out of a reception state: its unfinished
/// datagram, or that the source is being swallowed.
#[derive(Clone, Copy, Debug, PartialEq, Eq, PartialOrd, Ord)]
pub struct Unfinished<'a> {
    /// The alias of the tool that sends it; damaged where over 4,095.
    pub source: u16,
    /// The stored length; damaged where over 72, unless the source is being swallowed.
    pub length: usize,
    /// The bytes joined so far, as many as the stored length says but never over 72.
    pub bytes: &'a [u8],
    /// The time of its source's last accepted frame, in ticks. No time is damaged.
    pub last_accepted: u64,
    /// Whether the source is being swallowed. Then there is no datagram, and length and bytes say
    /// nothing: on the way in any will do and neither is looked at, on the way out the length is 0
    /// and the bytes are empty.
    pub swallowed: bool,
}

/// What a reception state has for one source.
#[derive(Clone, Copy, Debug, PartialEq, Eq)]
pub enum Kept<'a> {
    /// Nothing: no place is kept for the source.
    Nothing,
    /// The bytes of its unfinished datagram. Where it was opened with none, they are empty, which
    /// is not the same as nothing.
    Bytes(&'a [u8]),
    /// Only that the source is being swallowed.
    Swallowed,
}

#[derive(Clone, Copy, Debug)]
struct Place {
    source: u16,
    /// How many bytes have been joined. It is 0 while the source is being swallowed, so that the
    /// check need not ask which of the two the place is for.
    length: usize,
    bytes: [u8; LONGEST_DATAGRAM],
    last_accepted: u64,
}

impl Place {
    const FREE: Self = Self {
        source: 0,
        length: 0,
        bytes: [0; LONGEST_DATAGRAM],
        last_accepted: 0,
    };
}

/// What is kept for up to eight sources: of each its unfinished datagram, or that it is being
/// swallowed.
#[derive(Clone, Debug)]
pub struct Reception {
    /// Bit `n` says that place `n` is kept for its source.
    in_use: u8,
    /// Bit `n` says that the source of place `n` is being swallowed; else the place holds an
    /// unfinished datagram. Only places in use have their bit here.
    swallowed: u8,
    /// No last accepted frame of a place in use is earlier than this. It spares a walk through the
    /// places: while this is not more than 3,000 ticks back, none of them is.
    earliest: u64,
    places: [Place; MOST_UNFINISHED],
}

impl Default for Reception {
    fn default() -> Self {
        Self::new()
    }
}

impl Reception {
    /// The state at the start: nothing unfinished.
    #[must_use]
    pub const fn new() -> Self {
        Self {
            in_use: 0,
            swallowed: 0,
            earliest: u64::MAX,
            places: [Place::FREE; MOST_UNFINISHED],
        }
    }

    /// A state with these entries, damaged ones among them; `None` where there are over eight.
    ///
    /// Of the bytes, as many are kept as the length says and at most 72; bytes that are missing
    /// are zero. Where the source is being swallowed, neither length nor bytes are kept.
    #[must_use]
    pub fn from_unfinished(entries: &[Unfinished]) -> Option<Self> {
        if entries.len() > MOST_UNFINISHED {
            return None;
        }
        let mut reception = Self::new();
        for (index, entry) in entries.iter().enumerate() {
            let place = &mut reception.places[index];
            place.source = entry.source;
            if entry.swallowed {
                reception.swallowed |= 1 << index;
            } else {
                place.length = entry.length;
                let kept = entry.bytes.len().min(entry.length).min(LONGEST_DATAGRAM);
                place.bytes[..kept].copy_from_slice(&entry.bytes[..kept]);
            }
            place.last_accepted = entry.last_accepted;
            reception.earliest = reception.earliest.min(entry.last_accepted);
            reception.in_use |= 1 << index;
        }
        Some(reception)
    }

    /// What is kept, one entry for each place in use. Their order says nothing.
    pub fn unfinished(&self) -> impl Iterator<Item = Unfinished<'_>> {
        indices(self.in_use).map(|index| {
            let place = &self.places[index];
            Unfinished {
                source: place.source,
                length: place.length,
                bytes: &place.bytes[..place.length.min(LONGEST_DATAGRAM)],
                last_accepted: place.last_accepted,
                swallowed: self.is_swallowed(index),
            }
        })
    }

    /// What is kept for this source.
    #[must_use]
    pub fn kept_for(&self, source: u16) -> Kept<'_> {
        match self.find(source) {
            None => Kept::Nothing,
            Some(index) if self.is_swallowed(index) => Kept::Swallowed,
            Some(index) => {
                let place = &self.places[index];
                Kept::Bytes(&place.bytes[..place.length.min(LONGEST_DATAGRAM)])
            }
        }
    }

    /// Whether both states keep the same unfinished datagrams, and swallow the same sources, with
    /// the same times, in whatever order.
    #[must_use]
    pub fn keeps_the_same_as(&self, other: &Self) -> bool {
        let count_in = |state: &Self, entry: Unfinished| {
            state.unfinished().filter(|found| *found == entry).count()
        };
        self.in_use.count_ones() == other.in_use.count_ones()
            && self
                .unfinished()
                .all(|entry| count_in(self, entry) == count_in(other, entry))
    }

    /// B7: every length at most 72, every source at most 4,095, no source twice. A source that is
    /// being swallowed is a source like any other, but has no length. Nothing is asked of times.
    pub fn check(&self) -> Result<(), CallError> {
        let mut left = self.in_use;
        while left != 0 {
            let place = &self.places[left.trailing_zeros() as usize];
            left &= left - 1;
            if place.length > LONGEST_DATAGRAM
                || place.source > LAST_ALIAS
                || indices(left).any(|later| self.places[later].source == place.source)
            {
                return Err(CallError::B7BadReceptionState);
            }
        }
        Ok(())
    }

    /// The place that is kept for this source.
    pub(crate) fn find(&self, source: u16) -> Option<usize> {
        indices(self.in_use).find(|&index| self.places[index].source == source)
    }

    /// Whether this place, which is in use, is kept only because its source is being swallowed.
    pub(crate) const fn is_swallowed(&self, index: usize) -> bool {
        self.swallowed >> index & 1 == 1
    }

    /// Frees the places whose source's last accepted frame is more than 3,000 ticks back at this
    /// time. The state has been checked.
    pub(crate) fn drop_due(&mut self, time: u64) {
        if is_due(self.earliest, time) {
            self.drop_each_due(time);
        }
    }

    /// The same, one place after the other.
    #[cold]
    fn drop_each_due(&mut self, time: u64) {
        self.earliest = u64::MAX;
        for index in indices(self.in_use) {
            let last_accepted = self.places[index].last_accepted;
            if is_due(last_accepted, time) {
                self.free(index);
            } else {
                self.earliest = self.earliest.min(last_accepted);
            }
        }
    }

    /// Opens a datagram in a free place with a frame of this time; false, with no change, where
    /// all eight are in use. The data are at most 8 bytes.
    pub(crate) fn open(&mut self, source: u16, data: &[u8], time: u64) -> bool {
        let index = self.in_use.trailing_ones() as usize;
        let Some(place) = self.places.get_mut(index) else {
            return false;
        };
        place.source = source;
        place.length = data.len();
        place.bytes[..data.len()].copy_from_slice(data);
        place.last_accepted = time;
        self.earliest = self.earliest.min(time);
        self.in_use |= 1 << index;
        true
    }

    /// Appends the data of a frame of this time to the datagram in this place; false, with no
    /// change, where the total would go past 72 bytes.
    pub(crate) fn append(&mut self, index: usize, data: &[u8], time: u64) -> bool {
        let place = &mut self.places[index];
        let total = place.length + data.len();
        let Some(room) = place.bytes.get_mut(place.length..total) else {
            return false;
        };
        room.copy_from_slice(data);
        place.length = total;
        place.last_accepted = time;
        self.earliest = self.earliest.min(time);
        true
    }

    /// Gives up the datagram in this place and keeps the place: from now on its source is being
    /// swallowed. The time stays that of the last accepted frame, as the frame that broke the
    /// datagram is not accepted.
    pub(crate) fn swallow(&mut self, index: usize) {
        self.places[index].length = 0;
        self.swallowed |= 1 << index;
    }

    /// Notes a frame of this time that was swallowed, and so accepted, in this place.
    pub(crate) fn renew(&mut self, index: usize, time: u64) {
        self.places[index].last_accepted = time;
        self.earliest = self.earliest.min(time);
    }

    /// The bytes joined so far in this place. The state has been checked.
    pub(crate) fn joined(&self, index: usize) -> &[u8] {
        let place = &self.places[index];
        &place.bytes[..place.length]
    }

    /// Frees this place.
    pub(crate) fn free(&mut self, index: usize) {
        self.in_use &= !(1 << index);
        self.swallowed &= self.in_use;
    }
}

/// Whether a frame accepted at the first time is more than 3,000 ticks back at the second. One
/// that lies after it is not back at all.
const fn is_due(last_accepted: u64, time: u64) -> bool {
    time.saturating_sub(last_accepted) > RECEPTION_TIMEOUT
}

/// The numbers of the bits at 1.
fn indices(bits: u8) -> impl Iterator<Item = usize> {
    let mut left = bits;
    core::iter::from_fn(move || {
        if left == 0 {
            return None;
        }
        let index = left.trailing_zeros() as usize;
        left &= left - 1;
        Some(index)
    })
}
