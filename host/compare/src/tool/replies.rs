//! Holds random reply datagrams: those of source document 000, each with what it says, and bytes
//! that are almost replies.

use crate::random::Random;
use crate::tool::request::LONGEST_DATAGRAM;
use crate::tool::said::{Part, Place, Said};

/// The second bytes that replies have.
const REPLIES: [u8; 20] = [
    0x10, 0x11, 0x12, 0x13, 0x18, 0x19, 0x1A, 0x1B, 0x50, 0x51, 0x52, 0x53, 0x58, 0x59, 0x5A, 0x5B,
    0x82, 0x86, 0x87, 0x8A,
];
/// The most bytes of the text of a failure reply, with its zero byte.
const LONGEST_FAILURE_TEXT: usize = 63;

/// A reply, and what it says.
pub fn any(random: &mut Random) -> (Vec<u8>, Said) {
    match random.below(20) {
        0..=3 => {
            let (mut bytes, place) = placed(random, 0x50);
            let length = match random.below(5) {
                0 => random.between(1, 64),
                _ => random.pick(&[1, 2, 63, 64]),
            };
            let data = random.bytes(length);
            let data = part(&mut bytes, &data);
            (bytes, Said::Read { place, data })
        }
        4..=6 => {
            let (bytes, place, code, text) = failure(random, 0x58);
            (bytes, Said::ReadFailed { place, code, text })
        }
        7 | 8 => {
            let (bytes, place) = placed(random, 0x10);
            (bytes, Said::Written { place })
        }
        9..=11 => {
            let (bytes, place, code, text) = failure(random, 0x18);
            (bytes, Said::WriteFailed { place, code, text })
        }
        12..=14 => options(random),
        15..=18 => information(random),
        _ => {
            let mut bytes = vec![0x20, 0x8A];
            let mut id = [0; 6];
            if !random.once_in(3) {
                random.fill(&mut id);
            }
            let id = part(&mut bytes, &id);
            (bytes, Said::Lock { id })
        }
    }
}

/// Puts bytes behind these, and gives where they stand.
fn part(bytes: &mut Vec<u8>, part: &[u8]) -> Part {
    let start = bytes.len();
    bytes.extend_from_slice(part);
    Part {
        start,
        len: part.len(),
    }
}

/// The start of a reply to a read or a write, its space named in any way.
fn placed(random: &mut Random, base: u8) -> (Vec<u8>, Place) {
    let form = random.below(4) as u8;
    let address = random.word();
    let mut bytes = vec![0x20, base + form];
    bytes.extend(address.to_be_bytes());
    let mut space = 0xFC + form;
    if form == 0 {
        space = match random.below(3) {
            0 => random.pick(&[0x00, 0xFC, 0xFD, 0xFE, 0xFF]),
            _ => random.byte(),
        };
        bytes.push(space);
    }
    let place = Place {
        space,
        form,
        address,
    };
    (bytes, place)
}

/// A failure reply.
fn failure(random: &mut Random, base: u8) -> (Vec<u8>, Place, u16, Option<Part>) {
    let (mut bytes, place) = placed(random, base);
    let code = random.half();
    bytes.extend(code.to_be_bytes());
    let text = text(random, &mut bytes, LONGEST_FAILURE_TEXT);
    (bytes, place, code, text)
}

/// Puts a text of at most so many bytes with its zero behind these bytes, or none.
fn text(random: &mut Random, bytes: &mut Vec<u8>, most: usize) -> Option<Part> {
    let length = match random.below(8) {
        0..=2 => return None,
        3 => 0,
        4 => 1,
        5 => most - 1,
        _ => random.below(most),
    };
    let text: Vec<u8> = (0..length).map(|_| sign(random)).collect();
    let text = part(bytes, &text);
    bytes.push(0);
    Some(text)
}

/// A byte of a text, which is any but 0.
fn sign(random: &mut Random) -> u8 {
    random.between(1, 0xFF) as u8
}

fn options(random: &mut Random) -> (Vec<u8>, Said) {
    let commands = random.half();
    let (write_lengths, highest) = (random.byte(), random.byte());
    let mut bytes = vec![0x20, 0x82];
    bytes.extend(commands.to_be_bytes());
    bytes.extend([write_lengths, highest]);
    let mut lowest = None;
    let mut name = None;
    if !random.once_in(4) {
        let space = match random.below(4) {
            0 => random.byte(),
            _ => random.pick(&[0, 1, 0xFD]),
        };
        bytes.push(space);
        lowest = Some(space);
        let most = LONGEST_DATAGRAM - bytes.len();
        name = text(random, &mut bytes, most);
    }
    let said = Said::Options {
        commands,
        write_lengths,
        highest,
        lowest,
        text: name,
    };
    (bytes, said)
}

fn information(random: &mut Random) -> (Vec<u8>, Said) {
    let present = random.once_in(2);
    let (space, highest) = (random.byte(), random.word());
    let flags = match random.below(3) {
        0 => random.byte(),
        _ => random.below(4) as u8,
    };
    let mut bytes = vec![0x20, 0x86 + u8::from(present), space];
    bytes.extend(highest.to_be_bytes());
    bytes.push(flags);
    let mut lowest = None;
    if flags & 2 != 0 {
        let address = match random.below(3) {
            0 => 0,
            _ => random.word(),
        };
        bytes.extend(address.to_be_bytes());
        lowest = Some(address);
    }
    let most = LONGEST_DATAGRAM - bytes.len();
    let said = Said::Information {
        present,
        space,
        highest,
        flags,
        lowest,
        text: text(random, &mut bytes, most),
    };
    (bytes, said)
}

/// Spoils a reply in one way; at times it is one still.
pub fn spoil(random: &mut Random, reply: &mut Vec<u8>) {
    let (index, last) = (random.below(reply.len()), reply.len() - 1);
    match random.below(17) {
        0 => reply[index] = random.byte(),
        1 => reply[0] ^= 1 << random.below(8),
        2 => reply[1] ^= 1 << random.below(8),
        3 => reply[1] = random.byte(),
        4 => reply.push(0),
        5 => reply.push(sign(random)),
        6 => {
            reply.pop();
        }
        7 => {
            reply.remove(index);
        }
        8 => reply.truncate(index),
        9 => reply.insert(index, random.pick(&[0, 1, 0xFF])),
        // Bit 1 of the flags of information; in others any bit.
        10 => {
            if let Some(flags) = reply.get_mut(7) {
                *flags ^= 2;
            }
        }
        // A zero within a text.
        11 => reply[random.between(last.min(8), last)] = 0,
        // No zero at the end of one.
        12 => reply[last] = sign(random),
        // A text that is put on, or goes on, up to about the longest datagram; or so far that the
        // low byte of the length alone would do.
        13..=15 => {
            let length = random.pick(&[71, 72, 72, 73, 73, 74]);
            lengthen(random, reply, length);
        }
        _ => {
            let length = match random.below(2) {
                0 => reply.len() + 256,
                _ => random.between(74, 100),
            };
            lengthen(random, reply, length);
        }
    }
}

/// Puts a text on, so that there are so many bytes in all; the text that is there goes on.
fn lengthen(random: &mut Random, reply: &mut Vec<u8>, length: usize) {
    if reply.len() > 8 && reply.last() == Some(&0) {
        reply.pop();
    }
    while reply.len() + 1 < length {
        reply.push(sign(random));
    }
    reply.push(0);
}

/// Bytes that are hardly a reply: any, or any behind the first two of a reply.
pub fn almost_none(random: &mut Random) -> Vec<u8> {
    let length = match random.below(6) {
        0 => random.pick(&[0, 1, 2]),
        1 => random.between(3, 14),
        2 => random.between(70, 75),
        _ => random.between(0, 100),
    };
    let mut bytes = random.bytes(length);
    if !random.once_in(4) {
        if let Some(first) = bytes.first_mut() {
            *first = 0x20;
        }
        if let Some(command) = bytes.get_mut(1) {
            *command = random.pick(&REPLIES);
        }
    }
    bytes
}
