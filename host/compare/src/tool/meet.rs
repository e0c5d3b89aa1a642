//! Holds the tool against the board: commands that the library's writer has made are handed to both
//! boards, and what these answer is read by both sides' readers; in whole datagrams and in frames.

use crate::answer::Answer;
use crate::ffi::{self, Frame, FRAME_SIZE, SENT_SIZE};
use crate::generate::{datagram, Incoming};
use crate::layout::frame_in;
use crate::random::Random;
use crate::setup::{hex, Setup};
use crate::tally::{By, Tally};
use crate::times::{GREATEST_AGE, MOST_TICKS};
use crate::tool::cases::{ToolCase, ToolTally};
use crate::tool::compose::write;
use crate::tool::expected::{Asked, Expected};
use crate::tool::join::{with_room_for, Joiner, Outcome};
use crate::tool::read;
use crate::tool::request::{Request, LONGEST_DATAGRAM};
use crate::tool::said::Said;
use crate::tool::Archive;
use model::ReceivedOk;

/// The header of a Received OK and of a Rejected, but for the alias of the board.
const RECEIVED_OK: u32 = 0x19A2_8000;
const REJECTED: u32 = 0x19A4_8000;

/// What a board has to answer.
#[derive(Clone, Copy, Debug)]
enum Due<'e> {
    /// What a request has it say.
    Said(&'e Expected),
    /// Rejected, since it is no request.
    Rejected,
    /// Anything that both sides agree on: what reached the board is not what was to be sent.
    Anything,
}

/// Hands a whole datagram to the boards; where it is a request, also the command for that request,
/// which is not longer and is answered in the same way.
pub fn whole(
    archive: &impl Archive,
    setup: &mut Setup,
    random: &mut Random,
    tally: &mut Tally,
) -> Result<(), String> {
    let datagram = datagram(random, setup.board());
    let Some(request) = Request::in_datagram(&datagram) else {
        let answer = setup.datagram(archive, &datagram, &buffer(random), tally)?;
        return hear_whole(archive, setup, answer, Due::Rejected, tally)
            .map_err(|what| report(&what, &datagram, None));
    };
    ask(archive, setup, &request, &datagram, random, tally)?;
    let command = command(archive, &request, random)?;
    count_command(&mut tally.tool, &datagram, &command);
    if command.len() > datagram.len() {
        return Err(report("the command is longer", &datagram, Some(&command)));
    }
    ask(archive, setup, &request, &command, random, tally)
}

/// The command for a request that is in range.
pub fn command(
    archive: &impl Archive,
    request: &Request,
    random: &mut Random,
) -> Result<Vec<u8>, String> {
    let before = buffer(random);
    write(archive, request, &before)?
        .map_err(|refusal| format!("asking a board: {refusal} for {request:X?}\n"))
}

fn count_command(tally: &mut ToolTally, datagram: &[u8], command: &[u8]) {
    if command.len() < datagram.len() {
        tally.count(ToolCase::Shorter);
    } else if command == datagram {
        tally.count(ToolCase::Same);
    }
    if let (Some(0x40..=0x43), Some(0x80..)) = (datagram.get(1), datagram.last()) {
        tally.count(ToolCase::TopBit);
    }
}

/// Hands a datagram that is this request to the boards.
fn ask(
    archive: &impl Archive,
    setup: &mut Setup,
    request: &Request,
    datagram: &[u8],
    random: &mut Random,
    tally: &mut Tally,
) -> Result<(), String> {
    let expected = expected(setup, request, datagram);
    let answer = setup.datagram(archive, datagram, &buffer(random), tally)?;
    hear_whole(archive, setup, answer, Due::Said(&expected), tally)
        .map_err(|what| report(&what, datagram, None) + &format!("expected {expected:X?}\n"))
}

/// What the board has to say to this request, which is in this datagram.
fn expected(setup: &Setup, request: &Request, datagram: &[u8]) -> Expected {
    let by_byte_6 = datagram.get(1).is_some_and(|command| command & 0x03 == 0);
    let asked = Asked {
        board: setup.board(),
        flash: setup.flash(),
        memory: setup.memory(),
        lock: *setup.lock(),
    };
    Expected::of(request, by_byte_6, &asked)
}

/// Reads the answer to a whole datagram: the transport reply, which is the caller's to send, and the
/// reply.
fn hear_whole(
    archive: &impl Archive,
    setup: &Setup,
    answer: Answer,
    due: Due,
    tally: &mut Tally,
) -> Result<(), String> {
    let (board, tool) = (setup.board().alias, 0x123);
    let mut room = [0; SENT_SIZE];
    let made = match answer {
        Answer::Rejected(code) => ffi::rejected(board, tool, code, &mut room),
        Answer::Replied(_) => ffi::received_ok(board, tool, 0x80, &mut room),
        _ => ffi::received_ok(board, tool, 0x00, &mut room),
    };
    if made != 1 {
        return Err("there is no transport reply".to_owned());
    }
    hear(archive, answer, &frames_in(&room, 1)[0], tool, board)?;
    if let Answer::Replied(length) = answer {
        hear_reply(archive, &setup.reply()[..length], due)?;
    }
    check(setup, answer, due)?;
    count(By::Whole, answer, due, &mut tally.tool);
    Ok(())
}

/// Hands a datagram to the boards in frames, mostly the command for a request; at times a frame is
/// lost or sent twice. What the board sends is read, and its reply joined.
pub fn frames(
    archive: &impl Archive,
    setup: &mut Setup,
    random: &mut Random,
    tally: &mut Tally,
) -> Result<(), String> {
    let board = setup.board().alias;
    let tool = other_alias(random, board);
    let mut sent = datagram(random, setup.board());
    sent.truncate(LONGEST_DATAGRAM);
    let request = Request::in_datagram(&sent);
    if let Some(request) = &request {
        sent = command(archive, request, random)?;
    }
    let mut room = [0; SENT_SIZE];
    let count = ffi::cut(&sent, tool, board, &mut room);
    let mut frames = frames_in(&room, count);
    if frames.is_empty() {
        return Err(report("it is not cut into frames", &sent, None));
    }
    let badly = random.once_in(6);
    if badly {
        lose_or_repeat(random, &mut frames);
    }
    count_asked(&mut tally.tool, badly, frames.len());
    let expected = request.map(|request| expected(setup, &request, &sent));
    let due = match &expected {
        _ if badly => Due::Anything,
        Some(expected) => Due::Said(expected),
        None => Due::Rejected,
    };
    let mut joiner = with_room_for(random, tool, board);
    for (index, frame) in frames.iter().enumerate() {
        let mut room = [0; SENT_SIZE];
        random.fill(&mut room);
        // A tool that is at it makes no pause for which it would be dropped.
        let most = if index == 0 {
            MOST_TICKS
        } else {
            u64::from(GREATEST_AGE)
        };
        setup.pass(random, most);
        let answer = setup.frame(archive, frame, &buffer(random), &room, tally)?;
        hear_frames(
            archive,
            setup,
            answer,
            &mut joiner,
            tool,
            due,
            random,
            tally,
        )
        .map_err(|what| {
            report(&what, &sent, None) + &format!("tool     {tool:03X}\nexpected {due:X?}\n")
        })?;
        // A tool that is refused gives up, mostly.
        if matches!(answer, Answer::TransportRefusal(_)) && !random.once_in(4) {
            break;
        }
    }
    Ok(())
}

/// Reads what the board sends for a frame: nothing, or the transport reply and then the frames of
/// the reply, among which frames of other boards may come.
#[expect(
    clippy::too_many_arguments,
    reason = "both sides, what is sent and what is due"
)]
fn hear_frames(
    archive: &impl Archive,
    setup: &Setup,
    answer: Answer,
    joiner: &mut Joiner,
    tool: u16,
    due: Due,
    random: &mut Random,
    tally: &mut Tally,
) -> Result<(), String> {
    let board = setup.board().alias;
    let sent: Vec<Incoming> = setup.sent(answer.frames()).map(incoming).collect();
    let [transport, reply @ ..] = &sent[..] else {
        return match answer {
            Answer::Nothing => Ok(()),
            _ => Err("the board does not take a frame".to_owned()),
        };
    };
    hear(archive, answer, transport, tool, board)?;
    // A transport reply is no datagram frame: a tool hands in all that it receives.
    if joiner.frame(archive, transport, &mut tally.tool)? != Outcome::Ignored {
        return Err("a transport reply is joined".to_owned());
    }
    if let Answer::Replied(length) = answer {
        if joiner.is_busy() {
            tally.tool.count(ToolCase::HeardBeside);
        }
        let joined = join(archive, joiner, reply, random, &mut tally.tool)?;
        if joined != setup.reply()[..length] {
            return Err(format!("the reply is joined as {}", hex(&joined)));
        }
        hear_reply(archive, &joined, due)?;
    }
    check(setup, answer, due)?;
    count(By::Frames, answer, due, &mut tally.tool);
    Ok(())
}

/// Joins the frames of a reply. Behind the first of them others may send too.
fn join(
    archive: &impl Archive,
    joiner: &mut Joiner,
    reply: &[Incoming],
    random: &mut Random,
    tally: &mut ToolTally,
) -> Result<Vec<u8>, String> {
    tally.count(match reply.len() {
        ..=1 => ToolCase::HeardSingle,
        2..=8 => ToolCase::HeardSeveral,
        _ => ToolCase::HeardNine,
    });
    for (index, frame) in reply.iter().enumerate() {
        match joiner.frame(archive, frame, tally)? {
            Outcome::Finished(datagram) if index + 1 == reply.len() => return Ok(datagram),
            Outcome::Part => {}
            other => {
                return Err(format!(
                    "frame {index} of the reply is joined as {other:X?}"
                ))
            }
        }
        if random.once_in(4) {
            let stray = stray(random, frame.header);
            joiner.frame(archive, &stray, tally)?;
        }
    }
    Err("the frames of the reply do not finish it".to_owned())
}

/// A datagram frame to the same tool from another board.
fn stray(random: &mut Random, header: u32) -> Incoming {
    let source = other_alias(random, (header & 0xFFF) as u16);
    let kind = random.pick(&[0x1A, 0x1B, 0x1B, 0x1C, 0x1D]);
    let length = random.between(0, 8);
    Incoming {
        header: kind << 24 | header & 0xFF_F000 | u32::from(source),
        data: random.bytes(length),
    }
}

/// Reads a transport reply: whom it goes between, and what it says.
fn hear(
    archive: &impl Archive,
    answer: Answer,
    frame: &Incoming,
    tool: u16,
    board: u16,
) -> Result<(), String> {
    let (aliases, content) = frame.data.split_at(frame.data.len().min(2));
    if aliases != tool.to_be_bytes() {
        return Err("the transport reply goes to another tool".to_owned());
    }
    let (kind, code) = match answer {
        Answer::Rejected(code) | Answer::TransportRefusal(code) => (REJECTED, Some(code)),
        _ => (RECEIVED_OK, None),
    };
    if frame.header != kind | u32::from(board) {
        return Err(format!("the header is {:08X}", frame.header));
    }
    let said = match code {
        Some(code) => read::rejected(archive, content)? == Ok(code),
        None => {
            let due = ReceivedOk {
                reply_pending: matches!(answer, Answer::Replied(_)),
                timeout: 0,
            };
            read::received_ok(archive, content)? == Ok(due)
        }
    };
    if said {
        Ok(())
    } else {
        Err(format!("{answer:X?} is read otherwise"))
    }
}

/// Reads a reply: the fields that the request and the board say, and the bytes of the space or of
/// the lock.
fn hear_reply(archive: &impl Archive, reply: &[u8], due: Due) -> Result<(), String> {
    let said = read::reply(archive, reply)?;
    let Due::Said(expected) = due else {
        return Ok(());
    };
    let bytes = match said {
        Said::Read { data: part, .. } | Said::Lock { id: part } => part.within(reply),
        _ => Some(&[][..]),
    };
    if expected.reply == Some(said) && bytes == Some(&expected.bytes) {
        Ok(())
    } else {
        Err(format!("the reply is {}, read as {said:X?}", hex(reply)))
    }
}

/// The sort of answer, and memory and lock afterwards, as the request and the board say.
fn check(setup: &Setup, answer: Answer, due: Due) -> Result<(), String> {
    let as_due = match (due, answer) {
        // What is refused in between is not the answer to the command.
        (_, Answer::TransportRefusal(_)) | (Due::Anything, _) => true,
        (Due::Rejected, answer) => matches!(answer, Answer::Rejected(_)),
        (Due::Said(expected), answer) => {
            let memory = setup.memory();
            let stored = expected.written.as_ref().is_none_or(|(at, bytes)| {
                let stored = memory.get(*at..).and_then(|from| from.get(..bytes.len()));
                stored == Some(bytes)
            });
            let answered = match answer {
                Answer::Replied(_) => expected.reply.is_some(),
                Answer::Written { start, count } => expected
                    .written
                    .as_ref()
                    .is_some_and(|(at, bytes)| *at == start && bytes.len() == count),
                Answer::UpdateComplete => expected.reply.is_none() && expected.written.is_none(),
                _ => false,
            };
            answered && stored && *setup.lock() == expected.lock
        }
    };
    if as_due {
        Ok(())
    } else {
        Err(format!("{answer:X?}, or memory or lock, is not as due"))
    }
}

fn count(by: By, answer: Answer, due: Due, tally: &mut ToolTally) {
    match (answer, due) {
        (Answer::TransportRefusal(0x2000), _) => tally.met(by, ToolCase::Met2000),
        (Answer::TransportRefusal(0x2020), _) => tally.met(by, ToolCase::Met2020),
        (Answer::TransportRefusal(_), _) => tally.met(by, ToolCase::Met2040),
        (Answer::Rejected(0x1041), _) => tally.met(by, ToolCase::Met1041),
        (Answer::Rejected(0x1042), _) => tally.met(by, ToolCase::Met1042),
        (Answer::Rejected(_), _) => tally.met(by, ToolCase::Met1080),
        (_, Due::Said(expected)) => expected.count(by, tally),
        _ => {}
    }
}

fn count_asked(tally: &mut ToolTally, badly: bool, frames: usize) {
    tally.count(match (badly, frames) {
        (true, _) => ToolCase::AskedBadly,
        (false, ..=1) => ToolCase::AskedSingle,
        (false, 2..=8) => ToolCase::AskedSeveral,
        (false, _) => ToolCase::AskedNine,
    });
}

/// The first so many frames of a room.
fn frames_in(room: &[u8; SENT_SIZE], count: usize) -> Vec<Incoming> {
    let (frames, _) = room.as_chunks::<FRAME_SIZE>();
    let frames = frames.iter().take(count);
    frames.map(|bytes| incoming(frame_in(bytes))).collect()
}

/// A frame of the library as one that comes from the bus.
fn incoming(frame: Frame) -> Incoming {
    let length = (frame.len as usize).min(frame.bytes.len());
    Incoming {
        header: frame.header,
        data: frame.bytes[..length].to_vec(),
    }
}

/// Loses a frame, or sends one twice. A Last is not lost: what it would leave unfinished would be
/// in the way of others until it is too old.
fn lose_or_repeat(random: &mut Random, frames: &mut Vec<Incoming>) {
    let index = random.below(frames.len());
    if random.once_in(2) && index + 1 < frames.len() {
        frames.remove(index);
    } else {
        frames.insert(index, frames[index].clone());
    }
}

/// An alias that is not this one.
fn other_alias(random: &mut Random, alias: u16) -> u16 {
    let other = random.below(0xFFF) as u16;
    other + u16::from(other >= alias)
}

/// What a buffer of at least 72 bytes holds before.
pub fn buffer(random: &mut Random) -> Vec<u8> {
    let length = random.pick(&[72, 72, 72, 73, 100]);
    random.bytes(length)
}

fn report(what: &str, datagram: &[u8], command: Option<&[u8]>) -> String {
    let mut report = format!("asking a board: {what}\ndatagram {}\n", hex(datagram));
    if let Some(command) = command {
        report += &format!("command  {}\n", hex(command));
    }
    report
}

#[cfg(test)]
mod tests {
    use super::*;
    use crate::demonstration::{ALIAS, FLASH, MEMORY_LEN, TABLE, WRITE_LENGTHS};
    use crate::generate::Board;
    use crate::times::Clock;
    use crate::tool::Library;

    /// The demonstration board with any contents.
    fn setup(random: &mut Random) -> Setup {
        let (table, flash) = (TABLE.to_vec(), FLASH.len());
        let board = Board::new(ALIAS, WRITE_LENGTHS, table, flash, MEMORY_LEN);
        Setup::new(random, board, [0; 64], Clock::at(0))
    }

    /// Asserts that this datagram is answered as is due, and that anything else is not.
    fn assert_due(datagram: &[u8], others: &[fn(&mut Expected)]) {
        let (mut random, mut tally) = (Random::new(1), Tally::default());
        let mut setup = setup(&mut random);
        let request = Request::in_datagram(datagram).expect("a request");
        let expected = expected(&setup, &request, datagram);
        let answer = setup
            .datagram(&Library, datagram, &[0; 72], &mut tally)
            .expect("no difference");
        let mut heard = |due: Due| hear_whole(&Library, &setup, answer, due, &mut tally).is_ok();
        assert!(heard(Due::Said(&expected)), "{request:?}");
        assert!(heard(Due::Anything), "{request:?}");
        assert!(!heard(Due::Rejected), "{request:?}");
        for (index, alter) in others.iter().enumerate() {
            let mut other = expected.clone();
            alter(&mut other);
            assert_ne!(other, expected, "{request:?}, {index}");
            assert!(!heard(Due::Said(&other)), "{request:?}, {index}");
        }
    }

    #[test]
    fn an_answer_that_is_not_due_is_found() {
        let another_lock: fn(&mut Expected) = |expected| expected.lock[5] ^= 1;
        let no_reply: fn(&mut Expected) = |expected| expected.reply = None;
        let another_byte: fn(&mut Expected) = |expected| expected.bytes[0] ^= 1;
        let a_reply: fn(&mut Expected) = |expected| expected.reply = Some(Said::Refused(3));
        assert_due(
            &[0x20, 0x41, 0, 0, 0, 0, 2],
            &[another_lock, no_reply, another_byte, |expected| {
                if let Some(Said::Read { place, .. }) = &mut expected.reply {
                    place.form = 0;
                }
            }],
        );
        assert_due(
            &[0x20, 0x88, 0, 0, 0, 0, 0, 0],
            &[another_lock, no_reply, another_byte],
        );
        assert_due(
            &[0x20, 0x01, 0, 0, 0, 0, 1, 2],
            &[
                another_lock,
                |expected| expected.written = None,
                |expected| expected.written.as_mut().expect("a write").0 += 1,
                |expected| expected.written.as_mut().expect("a write").1[1] ^= 1,
                |expected| expected.written.as_mut().expect("a write").1.truncate(1),
            ],
        );
        assert_due(
            &[0x20, 0xA8],
            &[another_lock, a_reply, |expected| {
                expected.written = Some((0, Vec::new()));
            }],
        );
    }

    #[test]
    fn a_transport_reply_that_is_not_due_is_found() {
        let frame = |header, data: &[u8]| Incoming {
            header,
            data: data.to_vec(),
        };
        let heard = |answer, frame: &Incoming| hear(&Library, answer, frame, 0x123, ALIAS).is_ok();
        let ok = frame(0x19A2_822B, &[0x01, 0x23, 0x80]);
        assert!(heard(Answer::Replied(8), &ok));
        assert!(!heard(Answer::UpdateComplete, &ok));
        assert!(!heard(Answer::Rejected(0x8000), &ok));
        let rejected = frame(0x19A4_822B, &[0x01, 0x23, 0x10, 0x80]);
        assert!(heard(Answer::Rejected(0x1080), &rejected));
        assert!(!heard(Answer::Rejected(0x1081), &rejected));
        assert!(!heard(Answer::UpdateComplete, &rejected));
        for other in [
            frame(0x19A2_822C, &[0x01, 0x23, 0x80]),
            frame(0x19A2_822B, &[0x01, 0x24, 0x80]),
            frame(0x19A2_822B, &[0x01, 0x23, 0x80, 0x00]),
            frame(0x19A2_822B, &[0x01, 0x23, 0x81]),
            frame(0x19A2_822B, &[0x01]),
        ] {
            assert!(!heard(Answer::Replied(8), &other), "{other:X?}");
        }
    }

    #[test]
    fn an_alias_is_another_and_all_others_are_reached() {
        let mut random = Random::new(2);
        for alias in [0, 1, 0x22B, 0xFFE, 0xFFF] {
            let others = (0..2_000).map(|_| other_alias(&mut random, alias));
            let others: Vec<u16> = others.collect();
            assert!(others.iter().all(|&other| other != alias && other <= 0xFFF));
            assert!(others.iter().any(|&other| other > 0xF00));
        }
    }
}
