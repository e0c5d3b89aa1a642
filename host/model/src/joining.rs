//! Holds the joining of frames: what one frame, and what a lone tick, does to the reception state,
//! and the answer to the frame.

use crate::datagram::{self, check_reply_buffer, code, Answer, Lock};
use crate::description::{check_description, Description};
use crate::frame::FRAME_DATA;
use crate::reception::Reception;
use crate::CallError;

/// What the board answers to one frame.
#[derive(Clone, Copy, Debug, PartialEq, Eq)]
pub enum FrameAnswer {
    /// The frame is none of the board's business: no answer, and no change but what its time
    /// brings.
    Ignored,
    /// The frame is accepted without an answer: it opened a datagram or was joined to one that is
    /// still unfinished, or it was swallowed. A swallowed frame is not told apart from a joined
    /// one: the tool hears of neither.
    Nothing,
    /// Rejected with 0x2000, 0x2020 or 0x2040 because of the reception state.
    TransportRefusal(u16),
    /// The frame finished a datagram, and this is the answer to it.
    Handled(Answer),
}

/// The four kinds of frame that carry a datagram.
#[derive(Clone, Copy, PartialEq, Eq)]
enum Kind {
    Single,
    First,
    Middle,
    Last,
}

/// The source alias in a header.
#[must_use]
pub const fn source_of(header: u32) -> u16 {
    (header & 0xFFF) as u16
}

/// The kind and source of a frame that the board with this alias does not ignore.
fn recognise(alias: u16, header: u32, data: &[u8]) -> Option<(Kind, u16)> {
    // A header over 29 bits has more than five bits here and is none of the four.
    let kind = match header >> 24 {
        0x1A => Kind::Single,
        0x1B => Kind::First,
        0x1C => Kind::Middle,
        0x1D => Kind::Last,
        _ => return None,
    };
    let destination = (header >> 12 & 0xFFF) as u16;
    let source = source_of(header);
    (destination == alias && source != alias && data.len() <= FRAME_DATA).then_some((kind, source))
}

/// Handles one frame, which comes at this time.
///
/// B11 to B14, then B2 to B7, come first, in this order and also for a frame that would be ignored;
/// they change nothing and drop nothing.
///
/// Then, before the frame is looked at, every place whose source's last accepted frame is more than
/// 3,000 ticks back is dropped without an answer, whether it holds an unfinished datagram or its
/// source is being swallowed. A frame that opens, is joined, finishes or is swallowed is accepted;
/// one that is ignored or gets a transport refusal is not.
///
/// A frame that breaks its source's unfinished datagram is refused once, for the whole datagram:
/// unless it was a Last, which leaves nothing to wait for, the frames still to come are swallowed
/// up to the Last. A Single or First shows that the tool begins anew, and ends the swallowing.
///
/// The time counts ticks and is the full one: it goes on past 65,535 and never falls from call to
/// call.
#[expect(
    clippy::too_many_arguments,
    reason = "everything the board has is lent, each thing by itself"
)]
pub fn handle_frame(
    description: &Description,
    flash: &[u8],
    memory: &mut [u8],
    lock: &mut Lock,
    reception: &mut Reception,
    time: u64,
    header: u32,
    data: &[u8],
    reply: &mut [u8],
) -> Result<FrameAnswer, CallError> {
    check_description(description, flash.len(), memory.len())?;
    check_reply_buffer(reply)?;
    handle_time(reception, time)?;

    let Some((kind, source)) = recognise(description.alias, header, data) else {
        return Ok(FrameAnswer::Ignored);
    };
    let held = match reception.find(source) {
        Some(place) if reception.is_swallowed(place) => match kind {
            Kind::Middle => {
                reception.renew(place, time);
                return Ok(FrameAnswer::Nothing);
            }
            Kind::Last => {
                reception.free(place);
                return Ok(FrameAnswer::Nothing);
            }
            // The place just freed is there for a First, so it never lacks room.
            Kind::Single | Kind::First => {
                reception.free(place);
                None
            }
        },
        held => held,
    };
    Ok(match (kind, held) {
        (Kind::Single, None) => FrameAnswer::Handled(datagram::handle(
            description,
            flash,
            memory,
            lock,
            data,
            reply,
        )),
        (Kind::First, None) => {
            if reception.open(source, data, time) {
                FrameAnswer::Nothing
            } else {
                FrameAnswer::TransportRefusal(code::NO_ROOM)
            }
        }
        (Kind::Middle, Some(place)) if !data.is_empty() => {
            if reception.append(place, data, time) {
                FrameAnswer::Nothing
            } else {
                reception.swallow(place);
                FrameAnswer::TransportRefusal(code::TOO_LONG)
            }
        }
        (Kind::Last, Some(place)) => {
            let answer = if reception.append(place, data, time) {
                let whole = reception.joined(place);
                FrameAnswer::Handled(datagram::handle(
                    description,
                    flash,
                    memory,
                    lock,
                    whole,
                    reply,
                ))
            } else {
                FrameAnswer::TransportRefusal(code::TOO_LONG)
            };
            reception.free(place);
            answer
        }
        // A Single, a First or an empty Middle that breaks a datagram, or a stray.
        (_, held) => {
            if let Some(place) = held {
                reception.swallow(place);
            }
            FrameAnswer::TransportRefusal(code::OUT_OF_ORDER)
        }
    })
}

/// Handles a lone tick: a time that comes without a frame.
///
/// Only B7 is tested, and it changes nothing and drops nothing. Then every place whose source's
/// last accepted frame is more than 3,000 ticks back is dropped without an answer, whether it holds
/// an unfinished datagram or its source is being swallowed.
pub fn handle_time(reception: &mut Reception, time: u64) -> Result<(), CallError> {
    reception.check()?;
    reception.drop_due(time);
    Ok(())
}
