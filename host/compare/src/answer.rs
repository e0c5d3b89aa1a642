//! Holds the answers of both sides in one common form.

use crate::ffi::{Numbers, NO_POSITION};
use model::{CallError, FrameAnswer};

/// What comes of a call, whichever side made it.
#[derive(Clone, Copy, Debug, PartialEq, Eq)]
pub enum Answer {
    /// Refused with an error of the caller.
    CallError {
        /// The number after the letter B.
        number: u8,
        /// The position of the refused space, counted from 0; `None` where no space is refused.
        position: Option<usize>,
    },
    /// The frame is ignored.
    Ignored,
    /// The frame is joined or swallowed, and not answered.
    Nothing,
    /// Refused by the transport with this code.
    TransportRefusal(u16),
    /// Rejected with this code.
    Rejected(u16),
    /// Received OK with flags 0x00 to a write or masked write.
    Written {
        /// The index into memory of the first byte written.
        start: usize,
        /// How many bytes are written.
        count: usize,
    },
    /// Received OK with flags 0x00 to Update Complete.
    UpdateComplete,
    /// Received OK with flags 0x80, and a reply of this many bytes.
    Replied(usize),
    /// Numbers of the library that mean nothing: an unknown kind, an unknown error, a number that
    /// its kind does not name and that is not 0, a position where there is none, or none where
    /// there is one, or a byte that is always 0 and is not.
    Malformed(Numbers),
}

impl Answer {
    /// How many frames document 01 has the board send for a frame with this answer: a reply is
    /// cut into pieces of eight bytes, and goes behind Received OK.
    #[must_use]
    pub const fn frames(self) -> usize {
        match self {
            Self::CallError { .. } | Self::Ignored | Self::Nothing | Self::Malformed(_) => 0,
            Self::Replied(length) => 1 + if length <= 8 { 1 } else { length.div_ceil(8) },
            _ => 1,
        }
    }

    /// Whether it is a refusal because of the board description: by a limit or by a space.
    #[must_use]
    pub const fn is_of_description(self) -> bool {
        matches!(
            self,
            Self::CallError {
                number: 2..=5 | 11..=14,
                ..
            }
        )
    }

    /// Whether it is the answer to a finished datagram.
    #[must_use]
    pub const fn is_of_datagram(self) -> bool {
        matches!(
            self,
            Self::Rejected(_) | Self::Written { .. } | Self::UpdateComplete | Self::Replied(_)
        )
    }
}

impl From<Numbers> for Answer {
    /// The number of frames is no part of it.
    fn from(numbers: Numbers) -> Self {
        let Numbers {
            kind,
            code,
            error,
            flags,
            changed_at,
            changed_len,
            reply_len,
            frame_count: _,
            position,
            unused,
        } = numbers;
        // Only a refused space has a position.
        let (number, position) = match (kind, error, position) {
            _ if unused != 0 => return Self::Malformed(numbers),
            (0, 2..=5, 0..=15) => (error, Some(usize::from(position))),
            (0, 6 | 7 | 11..=14, NO_POSITION) | (1.., 0, NO_POSITION) => (error, None),
            _ => return Self::Malformed(numbers),
        };
        match (kind, flags, code, changed_at, changed_len, reply_len) {
            (0, 0, 0, 0, 0, 0) => Self::CallError { number, position },
            (1, 0, 0, 0, 0, 0) => Self::Ignored,
            (2, 0, 0, 0, 0, 0) => Self::Nothing,
            (3, 0, _, 0, 0, 0) => Self::TransportRefusal(code),
            (4, 0, _, 0, 0, 0) => Self::Rejected(code),
            (5, 0x00, 0, _, 1..=64, 0) => Self::Written {
                start: changed_at as usize,
                count: changed_len as usize,
            },
            (6, 0x80, 0, 0, 0, _) => Self::Replied(usize::from(reply_len)),
            (7, 0x00, 0, 0, 0, 0) => Self::UpdateComplete,
            _ => Self::Malformed(numbers),
        }
    }
}

impl From<CallError> for Answer {
    fn from(error: CallError) -> Self {
        Self::CallError {
            number: error.number(),
            position: error.position(),
        }
    }
}

impl From<Result<model::Answer, CallError>> for Answer {
    fn from(result: Result<model::Answer, CallError>) -> Self {
        match result {
            Err(error) => Self::from(error),
            Ok(model::Answer::Rejected(code)) => Self::Rejected(code),
            Ok(model::Answer::Written { start, count }) => Self::Written { start, count },
            Ok(model::Answer::UpdateComplete) => Self::UpdateComplete,
            Ok(model::Answer::Replied(length)) => Self::Replied(length),
        }
    }
}

impl From<Result<FrameAnswer, CallError>> for Answer {
    fn from(result: Result<FrameAnswer, CallError>) -> Self {
        match result {
            Err(error) => Self::from(error),
            Ok(FrameAnswer::Ignored) => Self::Ignored,
            Ok(FrameAnswer::Nothing) => Self::Nothing,
            Ok(FrameAnswer::TransportRefusal(code)) => Self::TransportRefusal(code),
            Ok(FrameAnswer::Handled(answer)) => Self::from(Ok(answer)),
        }
    }
}

#[cfg(test)]
mod tests {
    use super::*;

    const NONE: Numbers = Numbers {
        kind: 0,
        code: 0,
        error: 0,
        flags: 0,
        changed_at: 0,
        changed_len: 0,
        reply_len: 0,
        frame_count: 0,
        position: NO_POSITION,
        unused: 0,
    };

    const fn of(kind: u32) -> Numbers {
        Numbers { kind, ..NONE }
    }

    const fn refused(error: u8, position: u8) -> Numbers {
        Numbers {
            error,
            position,
            ..NONE
        }
    }

    const fn call_error(number: u8, position: Option<usize>) -> Answer {
        Answer::CallError { number, position }
    }

    /// The numbers of each kind, what they say, and how many frames are sent.
    fn good() -> [(Numbers, Answer, usize); 9] {
        let (mut refusal, mut rejected) = (of(3), of(4));
        (refusal.code, rejected.code) = (0x2020, 0x1080);
        let (mut written, mut replied) = (of(5), of(6));
        (written.changed_at, written.changed_len) = (65_472, 64);
        (replied.flags, replied.reply_len) = (0x80, 10);
        let (start, count) = (65_472, 64);
        [
            (refused(3, 12), call_error(3, Some(12)), 0),
            (refused(6, NO_POSITION), call_error(6, None), 0),
            (of(1), Answer::Ignored, 0),
            (of(2), Answer::Nothing, 0),
            (refusal, Answer::TransportRefusal(0x2020), 1),
            (rejected, Answer::Rejected(0x1080), 1),
            (written, Answer::Written { start, count }, 1),
            (replied, Answer::Replied(10), 3),
            (of(7), Answer::UpdateComplete, 1),
        ]
    }

    #[test]
    fn the_numbers_of_each_kind() {
        for (numbers, answer, frames) in good() {
            assert_eq!(Answer::from(numbers), answer);
            assert_eq!(answer.frames(), frames);
        }
    }

    #[test]
    fn numbers_that_their_kind_does_not_name_are_found() {
        for (numbers, ..) in good() {
            let mut spoilt = vec![numbers; 10];
            spoilt[0].kind |= 0x100;
            spoilt[1].flags |= 1;
            spoilt[2].error |= 0x80;
            spoilt[3].code |= 1;
            spoilt[4].changed_at |= 1;
            spoilt[5].changed_len |= 1;
            spoilt[6].reply_len |= 1;
            spoilt[7].position ^= 0x80;
            spoilt[8].changed_len |= 0x100;
            spoilt[9].unused |= 0x80;
            // Where the kind names the number, it may be another one.
            spoilt.retain(|spoilt| match numbers.kind {
                3 | 4 => spoilt.code == numbers.code,
                5 => spoilt.changed_at == numbers.changed_at,
                6 => spoilt.reply_len == numbers.reply_len,
                _ => true,
            });
            assert!(spoilt.len() >= 8);
            for numbers in spoilt {
                assert_eq!(Answer::from(numbers), Answer::Malformed(numbers));
            }
        }
        let mut written = of(5);
        for changed_len in [0, 65, 255, 0x101, 0x4000_0001] {
            written.changed_len = changed_len;
            assert_eq!(Answer::from(written), Answer::Malformed(written));
        }
    }

    #[test]
    fn the_errors_and_their_positions() {
        for number in 2..=5 {
            for position in 0..=15 {
                let expected = call_error(number, Some(usize::from(position)));
                assert_eq!(Answer::from(refused(number, position)), expected);
            }
        }
        for number in [6, 7, 11, 12, 13, 14] {
            let numbers = refused(number, NO_POSITION);
            assert_eq!(Answer::from(numbers), call_error(number, None));
        }
        let last = Answer::from(CallError::B5NumberUsedTwice(15));
        assert_eq!(last, Answer::from(refused(5, 15)));
        // The first position is one, and none is none.
        let first = Answer::from(CallError::B2LowestAboveHighest(0));
        assert_eq!(first, Answer::from(refused(2, 0)));
        assert_ne!(first, call_error(2, None));
        let none = Answer::from(CallError::B11TooManySpaces);
        assert_eq!(none, Answer::from(refused(11, NO_POSITION)));
        assert_ne!(none, call_error(11, Some(0)));
    }

    #[test]
    fn another_error_or_position_is_found() {
        let mut good = 0;
        for number in 0..=255 {
            for position in 0..=255 {
                let numbers = refused(number, position);
                match number {
                    2..=5 if position <= 15 => good += 1,
                    6 | 7 | 11..=14 if position == NO_POSITION => good += 1,
                    _ => assert_eq!(Answer::from(numbers), Answer::Malformed(numbers)),
                }
            }
        }
        assert_eq!(good, 4 * 16 + 6);
    }

    #[test]
    fn a_position_where_there_is_none_is_found() {
        // Nor is it 0: a blank is not a zero.
        for (numbers, ..) in good() {
            if numbers.position != NO_POSITION {
                continue;
            }
            for position in [0, 1, 15, 16, 254] {
                let spoilt = Numbers {
                    position,
                    ..numbers
                };
                assert_eq!(Answer::from(spoilt), Answer::Malformed(spoilt));
            }
        }
    }

    #[test]
    fn no_position_where_there_is_one_is_found() {
        for number in 2..=5 {
            for position in [16, 17, 254, NO_POSITION] {
                let numbers = refused(number, position);
                assert_eq!(Answer::from(numbers), Answer::Malformed(numbers));
            }
        }
    }

    #[test]
    fn the_refusals_because_of_the_description() {
        for number in [2, 3, 4, 5, 11, 12, 13, 14] {
            assert!(call_error(number, None).is_of_description());
        }
        for number in [6, 7, 9] {
            assert!(!call_error(number, None).is_of_description());
        }
        assert!(!Answer::Ignored.is_of_description());
    }
}
