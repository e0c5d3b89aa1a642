//! Holds the comparison of the writer: the command for a request, its refusals, and the bytes that
//! it leaves as they were.

use crate::guarded::Guarded;
use crate::random::Random;
use crate::setup::{hex, same};
use crate::tool::cases::{ToolCase, ToolTally};
use crate::tool::request::{buffer_len, Request, LONGEST_DATAGRAM};
use crate::tool::said::composed;
use crate::tool::Archive;
use model::ToolRefusal;

/// A command, or its refusal.
type Command = Result<Vec<u8>, ToolRefusal>;

/// Writes the commands for a random request and for one that is like it.
pub fn call(
    archive: &impl Archive,
    random: &mut Random,
    tally: &mut ToolTally,
) -> Result<(), String> {
    let request = Request::any(random);
    let length = buffer_len(random);
    let command = write(archive, &request, &random.bytes(length))?;
    let written = command.as_ref().map(Vec::len).map_err(|refusal| *refusal);
    tally.written(&request, length, written);
    let Ok(command) = command else {
        return Ok(());
    };
    let other = request.altered(random);
    let Ok(other_command) = write(archive, &other, &random.bytes(LONGEST_DATAGRAM))? else {
        return Ok(());
    };
    count_pair(tally, request == other, &command, &other_command);
    tell_apart((&request, &command), (&other, &other_command))
}

fn count_pair(tally: &mut ToolTally, alike: bool, command: &[u8], other: &[u8]) {
    tally.count(if alike {
        ToolCase::Alike
    } else {
        ToolCase::Unlike
    });
    let apart = || command.iter().zip(other).filter(|(a, b)| a != b).count();
    if command.len() == other.len() && apart() == 1 {
        tally.count(ToolCase::UnlikeByOne);
    }
}

/// Two requests have the same command exactly where they are the same.
fn tell_apart(one: (&Request, &[u8]), other: (&Request, &[u8])) -> Result<(), String> {
    if (one.0 == other.0) == (one.1 == other.1) {
        return Ok(());
    }
    Err(format!(
        "writing two commands\nrequest  {:X?}\ncommand  {}\nrequest  {:X?}\ncommand  {}\n",
        one.0,
        hex(one.1),
        other.0,
        hex(other.1)
    ))
}

/// Writes the command for a request on both sides, into a buffer that holds these bytes before.
pub fn write(archive: &impl Archive, request: &Request, before: &[u8]) -> Result<Command, String> {
    let lent = request.clone();
    let mut library = Guarded::new(before);
    let numbers = archive.compose(&lent, &mut library);
    let mut buffer = before.to_vec();
    // A count that the model has no number for is out of range.
    let written = request.for_model().map_or(Err(ToolRefusal::W1), |request| {
        model::write_command(&request, &mut buffer)
    });
    let compared = same(numbers == composed(written), "the answers differ")
        .and_then(|()| same(library.bytes() == buffer, "the buffers differ"))
        .and_then(|()| same(library.is_intact(), "a byte outside the buffer is changed"))
        .and_then(|()| same(lent == *request, "what is lent to be read is changed"))
        .and_then(|()| compare_alone(request, written, before, library.bytes()));
    compared.map_err(|what| {
        format!(
            "writing a command: {what}\nrequest  {request:X?}\nbefore   {}\n\
             library  {numbers:?} {}\nmodel    {written:?} {}\n",
            hex(before),
            hex(library.bytes()),
            hex(&buffer)
        )
    })?;
    Ok(written.map(|length| {
        buffer.truncate(length);
        buffer
    }))
}

/// Tests of the library alone what change request C-12 says, whatever the model does: what is
/// refused and what that leaves untouched, and that a board reads the command as the request.
fn compare_alone(
    request: &Request,
    written: Result<usize, ToolRefusal>,
    before: &[u8],
    after: &[u8],
) -> Result<(), &'static str> {
    let refusal = if !request.is_in_range() {
        Some(ToolRefusal::W1)
    } else if before.len() < LONGEST_DATAGRAM {
        Some(ToolRefusal::W2)
    } else {
        None
    };
    same(written.err() == refusal, "another refusal is due")?;
    let length = written.unwrap_or(0);
    same(
        length <= after.len() && after[length..] == before[length..],
        "a byte is changed that is not the command's",
    )?;
    let read = Request::in_datagram(&after[..length]);
    same(
        refusal.is_some() || read.as_ref() == Some(request),
        "the command is not read as the request",
    )
}

#[cfg(test)]
mod tests {
    use super::*;

    fn asked(space: u8, count: usize) -> Request {
        Request::Read {
            space,
            address: 0x0102_0304,
            count,
        }
    }

    const COMMAND: [u8; 7] = [0x20, 0x41, 1, 2, 3, 4, 64];

    #[test]
    fn what_both_sides_do_wrongly_is_found() {
        let before = [0xEE; 73];
        let mut after = before;
        after[..7].copy_from_slice(&COMMAND);
        let alone = |request: &Request, written, room: usize, after: &[u8]| {
            compare_alone(request, written, &before[..room], &after[..room]).is_ok()
        };
        let (read, long) = (asked(0xFD, 64), asked(0xFD, 65));
        assert!(alone(&read, Ok(7), 72, &after));
        assert!(alone(&read, Err(ToolRefusal::W2), 71, &before));
        assert!(alone(&long, Err(ToolRefusal::W1), 71, &before));
        // Another refusal than is due, or none.
        assert!(!alone(&long, Err(ToolRefusal::W2), 71, &before));
        assert!(!alone(&read, Err(ToolRefusal::W1), 72, &before));
        assert!(!alone(&read, Ok(7), 71, &after));
        // A byte behind the command, or where it is refused.
        after[7] = 0;
        assert!(!alone(&read, Ok(7), 72, &after));
        assert!(!alone(&read, Err(ToolRefusal::W2), 71, &after));
        // A length that is too long or too short, and another command.
        after[7] = 0xEE;
        assert!(!alone(&read, Ok(8), 72, &after));
        assert!(!alone(&read, Ok(6), 72, &after));
        assert!(!alone(&asked(0xFE, 64), Ok(7), 72, &after));
        assert!(!alone(&asked(0xFD, 63), Ok(7), 72, &after));
    }

    #[test]
    fn two_requests_with_one_command_are_found() {
        let (one, other) = (asked(0xFD, 64), asked(0xFE, 64));
        let mut different = COMMAND;
        different[1] = 0x42;
        assert!(tell_apart((&one, &COMMAND), (&other, &different)).is_ok());
        assert!(tell_apart((&one, &COMMAND), (&one, &COMMAND)).is_ok());
        assert!(tell_apart((&one, &COMMAND), (&other, &COMMAND)).is_err());
        assert!(tell_apart((&one, &COMMAND), (&one, &different)).is_err());
    }
}
