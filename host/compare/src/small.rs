//! Holds the comparison of the smaller calls: cutting, the transport replies, and single lines.

use crate::ffi::room::Room;
use crate::ffi::{self, Frame, Parsed, FRAME_SIZE, SENT_SIZE};
use crate::generate::{line, wide_alias, LAST_ALIAS};
use crate::guarded::Guarded;
use crate::layout::{frame_bytes, frame_in, parsed_in};
use crate::random::Random;
use crate::setup::hex;
use crate::tally::{Case, Tally};
use model::{CallError, LONGEST_LINE};

const NO_FRAME: Frame = Frame {
    header: 0,
    len: 0,
    bytes: [0; 8],
};

/// Cuts a datagram on both sides. What is not made, and all of the room where B9 refuses the
/// datagram, is as it was.
pub fn cut(random: &mut Random, tally: &mut Tally) -> Result<(), String> {
    let length = random.between(0, 80);
    let datagram = random.bytes(length);
    let board = wide_alias(random);
    let tool = wide_alias(random);
    let mut expected = random.bytes(SENT_SIZE);
    let mut frames = Guarded::new(&expected);
    let count = ffi::cut(&datagram, board, tool, frames.array_mut());
    // The model cuts for a destination and a source.
    let model = model::cut(&datagram, tool, board);
    let same = match &model {
        Ok(model) => {
            tally.count(if model.len() == 1 {
                Case::CutSingle
            } else {
                Case::CutSeveral
            });
            for (room, frame) in expected.chunks_exact_mut(FRAME_SIZE).zip(model.iter()) {
                room.copy_from_slice(&frame_bytes(frame));
            }
            count == model.len()
        }
        Err(error) => {
            tally.count(if length > 72 {
                Case::CutB9Length
            } else {
                Case::CutB9Alias
            });
            *error == CallError::B9CannotBeCut && count == 0
        }
    };
    if same && frames.bytes() == expected && frames.is_intact() {
        return Ok(());
    }
    Err(format!(
        "cutting\ndatagram {}\nboard    {board:04X}\ntool     {tool:04X}\n\
         library  {count} {}\nexpected {}\nmodel    {model:X?}\n",
        hex(&datagram),
        hex(frames.bytes()),
        hex(&expected)
    ))
}

/// Makes a transport reply on both sides. Document 01 has no frame for an alias over 4,095, and
/// the library makes none; the model takes its low bits and is not asked.
pub fn transport(random: &mut Random, tally: &mut Tally) -> Result<(), String> {
    let board = wide_alias(random);
    let tool = wide_alias(random);
    let number = random.half();
    let positive = random.once_in(2);
    let mut expected = [0; SENT_SIZE];
    random.fill(&mut expected);
    let mut frame = Guarded::new(&expected);
    let (count, model) = if positive {
        (
            ffi::received_ok(board, tool, number as u8, frame.array_mut()),
            model::received_ok_frame(board, tool, number as u8),
        )
    } else {
        (
            ffi::rejected(board, tool, number, frame.array_mut()),
            model::rejected_frame(board, tool, number),
        )
    };
    let made = board <= LAST_ALIAS && tool <= LAST_ALIAS;
    tally.count(match (made, positive) {
        (false, _) => Case::TransportRefused,
        (true, true) => Case::ReceivedOk,
        (true, false) => Case::Rejected,
    });
    if made {
        expected[..FRAME_SIZE].copy_from_slice(&frame_bytes(&model));
    }
    if count == usize::from(made) && frame.bytes() == expected && frame.is_intact() {
        return Ok(());
    }
    Err(format!(
        "transport reply, Received OK: {positive}\nboard    {board:04X}\ntool     {tool:04X}\n\
         number   {number:04X}\nlibrary  {count} {}\nexpected {}\n",
        hex(frame.bytes()),
        hex(&expected)
    ))
}

/// Whether a line that the library read is what the model has for it. Where it is no frame line,
/// the frame is all zero.
#[must_use]
pub fn is_parsed(library: Parsed, model: Option<model::Frame>) -> bool {
    library.good.get() == model.is_some()
        && library.frame == model.map_or(NO_FRAME, |frame| frame_in(&frame_bytes(&frame)))
}

/// Reads a line on both sides.
pub fn parse(random: &mut Random, tally: &mut Tally) -> Result<(), String> {
    let line = line(random);
    let mut room = Room::new();
    ffi::parse_line(&line, room.lent());
    let library = parsed_in(room.bytes());
    let model = model::parse_line(&line);
    tally.count(if model.is_some() {
        Case::LineGood
    } else {
        Case::LineBad
    });
    if is_parsed(library, model) {
        return Ok(());
    }
    Err(format!(
        "reading a line\nline    {}\nlibrary {library:X?}\nmodel   {model:X?}\n",
        line.escape_ascii()
    ))
}

/// Prints a frame on both sides. The model prints a line into a buffer of its own; where it goes,
/// and that it goes nowhere for want of room, is worked out here.
pub fn print(random: &mut Random, tally: &mut Tally) -> Result<(), String> {
    let mut frame = Frame {
        header: random.word(),
        len: random.below(9) as u32,
        bytes: [0; 8],
    };
    if random.once_in(8) {
        // Some of them with low bits that alone would do.
        frame.len = random.pick(&[9, 16, 255, 0x104, 0x1_0002, 0x0800_0000, u32::MAX]);
    }
    random.fill(&mut frame.bytes);
    let length = random.between(0, 80);
    let before = random.bytes(length);
    let at = match random.below(10) {
        0 => random.between(0, 90),
        1 => random.pick(&[usize::MAX, usize::MAX - 20, length, length + 1]),
        _ => random.between(0, length / 2),
    };
    let mut out = Guarded::new(&before);
    let end = ffi::print_frame(&frame, out.bytes_mut(), at);

    let mut expected = before.clone();
    let mut expected_end = at;
    let data = frame.bytes.get(..frame.len as usize);
    if let Some(frame) = data.and_then(|data| model::Frame::new(frame.header, data)) {
        let mut text = [0; LONGEST_LINE];
        let text = [model::print_line(&frame, &mut text), b"\n"].concat();
        let room = at
            .checked_add(text.len())
            .and_then(|end| expected.get_mut(at..end));
        if let Some(room) = room {
            room.copy_from_slice(&text);
            expected_end += text.len();
            tally.count(Case::Printed);
        } else {
            tally.count(Case::PrintedNot);
        }
    } else {
        tally.count(Case::PrintedLong);
    }
    if end == expected_end && out.bytes() == expected && out.is_intact() {
        return Ok(());
    }
    Err(format!(
        "printing a frame\nframe    {frame:X?}\nat       {at}\nbefore   {}\n\
         library  {end} {}\nexpected {expected_end} {}\n",
        hex(&before),
        hex(out.bytes()),
        hex(&expected)
    ))
}
