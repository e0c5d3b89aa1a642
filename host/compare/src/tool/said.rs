//! Holds what a reader finds in one common form, and the numbers by which the library has to say
//! it: those that a kind does not name are 0, and what is missing is told apart from 0 and from an
//! empty text.

use crate::ffi::tool::{
    Acknowledged, Bytes, Change, Composed, Information, Options, Rejection, Reply,
};
use crate::ffi::Flag;
use model::{ChangeRefusal, NamedSpace, ReceivedOk, RejectedContent, ToolRefusal};

/// How many bytes the code of a Rejected has where it is whole.
pub const BEHIND_CODE: usize = 2;
/// Where the lock stands in its reply.
const LOCK: Part = Part { start: 2, len: 6 };

/// Bytes in what was read.
#[derive(Clone, Copy, Debug, PartialEq, Eq)]
pub struct Part {
    /// The index of the first.
    pub start: usize,
    /// How many they are.
    pub len: usize,
}

impl Part {
    /// Where these bytes stand in the whole that they are a part of; of others the index leads out
    /// of it.
    #[must_use]
    pub fn of(part: &[u8], whole: &[u8]) -> Self {
        Self {
            start: part.as_ptr().addr().wrapping_sub(whole.as_ptr().addr()),
            len: part.len(),
        }
    }

    /// The bytes of the whole that it names; `None` where it leads out of it.
    #[must_use]
    pub fn within(self, whole: &[u8]) -> Option<&[u8]> {
        whole.get(self.start..)?.get(..self.len)
    }
}

/// The space and the address that a reply to a read or a write has.
#[derive(Clone, Copy, Debug, PartialEq, Eq)]
pub struct Place {
    /// The number of the space.
    pub space: u8,
    /// How it is named: 0 by byte 6, else by these control bits.
    pub form: u8,
    /// The address.
    pub address: u32,
}

impl Place {
    /// How many bytes of a reply are in front of what is behind space and address.
    #[must_use]
    pub const fn head(self) -> usize {
        if self.form == 0 {
            7
        } else {
            6
        }
    }

    fn of_model(space: NamedSpace, address: u32) -> Self {
        Self {
            space: space.number(),
            form: match space {
                NamedSpace::Byte6(_) => 0,
                NamedSpace::Fd => 1,
                NamedSpace::Fe => 2,
                NamedSpace::Ff => 3,
            },
            address,
        }
    }
}

/// What a reply datagram says, whichever side read it.
#[derive(Clone, Copy, Debug, PartialEq, Eq)]
pub enum Said {
    /// Nothing: refused by W3, and by no other number.
    Refused(u8),
    /// The bytes that were read.
    Read {
        /// From where.
        place: Place,
        /// The bytes.
        data: Part,
    },
    /// A read that failed.
    ReadFailed {
        /// From where.
        place: Place,
        /// The code.
        code: u16,
        /// The text, if there is one, without its zero byte, as in all of these.
        text: Option<Part>,
    },
    /// A write that is done.
    Written {
        /// To where.
        place: Place,
    },
    /// A write that failed.
    WriteFailed {
        /// To where.
        place: Place,
        /// The code.
        code: u16,
        /// The text.
        text: Option<Part>,
    },
    /// The options.
    Options {
        /// The bits of the commands.
        commands: u16,
        /// The Write Lengths byte.
        write_lengths: u8,
        /// The highest space.
        highest: u8,
        /// The lowest, if it is given.
        lowest: Option<u8>,
        /// The text.
        text: Option<Part>,
    },
    /// The information on a space.
    Information {
        /// Whether the space is there.
        present: bool,
        /// The number of the space.
        space: u8,
        /// The highest address.
        highest: u32,
        /// The flags.
        flags: u8,
        /// The lowest address, if it is given.
        lowest: Option<u32>,
        /// The text.
        text: Option<Part>,
    },
    /// Who holds the lock.
    Lock {
        /// The ID.
        id: Part,
    },
}

impl Said {
    /// What the model says of this datagram.
    #[must_use]
    pub fn of_model(datagram: &[u8]) -> Self {
        let part = |bytes| Part::of(bytes, datagram);
        match model::read_reply(datagram) {
            Err(refusal) => Self::Refused(refusal.number()),
            Ok(model::Reply::Read {
                space,
                address,
                data,
            }) => Self::Read {
                place: Place::of_model(space, address),
                data: part(data),
            },
            Ok(model::Reply::ReadFailed {
                space,
                address,
                code,
                text,
            }) => Self::ReadFailed {
                place: Place::of_model(space, address),
                code,
                text: text.map(part),
            },
            Ok(model::Reply::Written { space, address }) => Self::Written {
                place: Place::of_model(space, address),
            },
            Ok(model::Reply::WriteFailed {
                space,
                address,
                code,
                text,
            }) => Self::WriteFailed {
                place: Place::of_model(space, address),
                code,
                text: text.map(part),
            },
            Ok(model::Reply::Options {
                commands,
                write_lengths,
                highest_space,
                lowest_space,
                text,
            }) => Self::Options {
                commands,
                write_lengths,
                highest: highest_space,
                lowest: lowest_space,
                text: text.map(part),
            },
            Ok(model::Reply::Information {
                present,
                space,
                highest,
                flags,
                lowest,
                text,
            }) => Self::Information {
                present,
                space,
                highest,
                flags,
                lowest,
                text: text.map(part),
            },
            // The model gives a copy, which is to be what stands in the datagram.
            Ok(model::Reply::Lock { id }) => Self::Lock {
                id: if LOCK.within(datagram) == Some(&id) {
                    LOCK
                } else {
                    part(&id)
                },
            },
        }
    }

    /// The numbers by which the library has to say it.
    #[must_use]
    pub const fn numbers(self) -> Reply {
        match self {
            Self::Refused(3) => NOTHING,
            // The library has no such kind.
            Self::Refused(other) => Reply {
                kind: 0x100 + other as u32,
                ..NOTHING
            },
            Self::Read { place, data } => about(1, place, 0, given(Some(data))),
            Self::ReadFailed { place, code, text } => about(2, place, code, given(text)),
            Self::Written { place } => about(3, place, 0, given(None)),
            Self::WriteFailed { place, code, text } => about(4, place, code, given(text)),
            Self::Options {
                commands,
                write_lengths,
                highest,
                lowest,
                text,
            } => Reply {
                kind: 5,
                options: Options {
                    commands,
                    write_lengths,
                    highest_space: highest,
                    has_lowest_space: Flag::of(lowest.is_some()),
                    lowest_space: match lowest {
                        Some(space) => space,
                        None => 0,
                    },
                },
                bytes: given(text),
                ..NOTHING
            },
            Self::Information {
                present,
                space,
                highest,
                flags,
                lowest,
                text,
            } => Reply {
                kind: 6,
                space,
                information: Information {
                    highest_address: highest,
                    lowest_address: match lowest {
                        Some(address) => address,
                        None => 0,
                    },
                    flags,
                    present: Flag::of(present),
                    has_lowest_address: Flag::of(lowest.is_some()),
                },
                bytes: given(text),
                ..NOTHING
            },
            Self::Lock { id } => Reply {
                kind: 7,
                bytes: given(Some(id)),
                ..NOTHING
            },
        }
    }
}

/// All numbers 0 and all flags no.
pub const NOTHING: Reply = Reply {
    kind: 0,
    address: 0,
    code: 0,
    space: 0,
    form: 0,
    options: Options {
        commands: 0,
        write_lengths: 0,
        highest_space: 0,
        has_lowest_space: Flag::of(false),
        lowest_space: 0,
    },
    information: Information {
        highest_address: 0,
        lowest_address: 0,
        flags: 0,
        present: Flag::of(false),
        has_lowest_address: Flag::of(false),
    },
    bytes: given(None),
};

/// The numbers of bytes that may be missing.
const fn given(part: Option<Part>) -> Bytes {
    match part {
        Some(Part { start, len }) => Bytes {
            given: Flag::of(true),
            start,
            len,
        },
        None => Bytes {
            given: Flag::of(false),
            start: 0,
            len: 0,
        },
    }
}

/// The numbers of a reply to a read or a write.
const fn about(kind: u32, place: Place, code: u16, bytes: Bytes) -> Reply {
    Reply {
        kind,
        address: place.address,
        code,
        space: place.space,
        form: place.form,
        bytes,
        ..NOTHING
    }
}

/// The numbers by which the library has to say what came of writing a command.
#[must_use]
pub const fn composed(written: Result<usize, ToolRefusal>) -> Composed {
    match written {
        Ok(len) => Composed { refusal: 0, len },
        Err(refusal) => Composed {
            refusal: refusal.number() as u32,
            len: 0,
        },
    }
}

/// The numbers by which the library has to say what the next change is.
#[must_use]
pub const fn changed(found: Result<Option<model::Change>, ChangeRefusal>) -> Change {
    let (refusal, found) = match found {
        Ok(found) => (0, found),
        Err(refusal) => (refusal.number() as u32, None),
    };
    let (start, count) = match found {
        Some(model::Change { start, count }) => (start, count),
        None => (0, 0),
    };
    Change {
        refusal,
        given: Flag::of(found.is_some()),
        start,
        count,
    }
}

/// The numbers by which the library has to say what a Received OK says.
#[must_use]
pub const fn acknowledged(read: Result<ReceivedOk, ToolRefusal>) -> Acknowledged {
    match read {
        Ok(ReceivedOk {
            reply_pending,
            timeout,
        }) => Acknowledged {
            refusal: 0,
            pending: Flag::of(reply_pending),
            timeout,
        },
        Err(refusal) => Acknowledged {
            refusal: refusal.number() as u32,
            pending: Flag::of(false),
            timeout: 0,
        },
    }
}

/// The numbers by which the library has to say what a Rejected with a content of `size` bytes says.
/// Further bytes go up to the end, so that they start at the end where there are none.
#[must_use]
pub const fn rejection(size: usize, read: Result<RejectedContent<'_>, ToolRefusal>) -> Rejection {
    match read {
        Ok(RejectedContent { code, further }) => Rejection {
            refusal: 0,
            code,
            further: given(Some(Part {
                start: size - further.len(),
                len: further.len(),
            })),
        },
        Err(refusal) => Rejection {
            refusal: refusal.number() as u32,
            code: 0,
            further: given(None),
        },
    }
}

#[cfg(test)]
mod tests {
    use super::*;
    use crate::tool::bytes;

    fn said(digits: &str) -> Said {
        Said::of_model(&bytes(digits))
    }

    #[test]
    fn what_is_missing_is_not_0_and_not_empty() {
        let flag = Flag::of;
        let options = |digits| said(digits).numbers();
        let (none, zero) = (options("2082E000F2FF"), options("2082E000F2FF00"));
        assert_eq!(none.options.has_lowest_space, flag(false));
        assert_eq!(zero.options.has_lowest_space, flag(true));
        assert_eq!(zero.options.lowest_space, none.options.lowest_space);
        let empty = options("2082E000F2FF0000");
        assert_eq!(
            (zero.bytes.given, empty.bytes.given),
            (flag(false), flag(true))
        );
        assert_eq!((empty.bytes.start, empty.bytes.len), (7, 0));
        let (none, zero) = (said("2087100000010F00"), said("2087100000010F0200000000"));
        assert_ne!(none.numbers(), zero.numbers());
        assert_eq!(zero.numbers().information.has_lowest_address, flag(true));
        assert_eq!(zero.numbers().information.lowest_address, 0);
    }

    #[test]
    fn the_parts_are_where_the_bytes_stand() {
        let place = Place {
            space: 0xFD,
            form: 0,
            address: 0x0100,
        };
        let data = Part { start: 7, len: 2 };
        assert_eq!(said("205000000100FDABCD"), Said::Read { place, data });
        let place = Place { form: 1, ..place };
        let data = Part { start: 6, len: 3 };
        assert_eq!(said("205100000100FDABCD"), Said::Read { place, data });
        let text = Some(Part { start: 8, len: 1 });
        let (code, failed) = (0x1082, said("20190000010010824100"));
        assert_eq!(failed, Said::WriteFailed { place, code, text });
        assert_eq!(said("208A010203040506"), Said::Lock { id: LOCK });
        assert_eq!(LOCK.within(&[0; 7]), None);
    }

    #[test]
    fn a_refusal_of_another_number_is_no_reply() {
        assert_eq!(said("20"), Said::Refused(3));
        assert_eq!(Said::Refused(3).numbers(), NOTHING);
        assert_ne!(Said::Refused(1).numbers(), NOTHING);
    }

    #[test]
    fn the_numbers_of_the_smaller_readings() {
        assert_eq!(
            composed(Ok(71)),
            Composed {
                refusal: 0,
                len: 71
            }
        );
        assert_eq!(
            composed(Err(ToolRefusal::W2)),
            Composed { refusal: 2, len: 0 }
        );
        let further =
            |content: &[u8]| rejection(content.len(), model::read_rejected(content)).further;
        assert_eq!(further(&[]), given(Some(Part { start: 0, len: 0 })));
        assert_eq!(further(&[0]), given(Some(Part { start: 1, len: 0 })));
        assert_eq!(further(&[0; 5]), given(Some(Part { start: 2, len: 3 })));
        assert_eq!(further(&[0; 67]), given(None));
        assert_eq!(acknowledged(model::read_received_ok(&[0; 2])).refusal, 3);
    }
}
