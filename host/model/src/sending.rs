//! Holds what the board sends for a frame: the transport reply, and behind it the reply's frames.

use crate::cutting::{cut_into, MOST_FRAMES};
use crate::datagram::Answer;
use crate::frame::{transport_reply, Frame};
use crate::joining::{source_of, FrameAnswer};
use crate::CallError;

/// The most frames that the board sends for one frame: a transport reply, and a reply in frames.
pub const MOST_SENT: usize = 1 + MOST_FRAMES;

/// Puts the frames that the board with this alias sends for the frame with this header into the
/// lent room, from its start on and in their order, and gives their number. `answer` is what came
/// of the frame, and a reply is at the start of `reply`. The room behind the frames keeps what it
/// had.
///
/// For an error of the caller, an ignored, a joined and a swallowed frame there are none; for a
/// refusal there is Rejected; else there is Received OK and, where the answer has a reply, the
/// reply's frames.
///
/// # Panics
///
/// Where the answer has a reply that is over 72 bytes or not in `reply`, or one to a board whose
/// alias is over 4,095: no frame that is handled has such an answer.
pub fn frames_to_send(
    alias: u16,
    header: u32,
    answer: Result<FrameAnswer, CallError>,
    reply: &[u8],
    frames: &mut [Frame; MOST_SENT],
) -> usize {
    let tool = source_of(header);
    let Ok(answer) = answer else {
        return 0;
    };
    let Some(transport) = transport_reply(alias, tool, answer) else {
        return 0;
    };
    let [first, behind @ ..] = frames;
    *first = transport;
    let FrameAnswer::Handled(Answer::Replied(length)) = answer else {
        return 1;
    };
    1 + cut_into(&reply[..length], tool, alias, behind)
        .expect("a reply of at most 72 bytes between 12-bit aliases")
}
