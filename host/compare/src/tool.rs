//! Holds the comparison of the tool's half: what the library is held to, and the calls that are made
//! to it and to the model and compared.

pub mod cases;
pub mod change;
pub mod compose;
pub mod expected;
pub mod join;
pub mod meet;
#[cfg(test)]
mod planted;
pub mod read;
pub mod replies;
pub mod request;
pub mod said;

use crate::ffi::tool::{
    self as edge, Acknowledged, Change, Composed, Joined, Pair, Rejection, Reply,
};
use crate::ffi::{Places, Pool};
use crate::guarded::Guarded;
use crate::random::Random;
use crate::setup::{Handler, Setup};
use crate::tally::Tally;
use join::Listener;
use request::Request;

/// How many calls for changes there are for one hundred of the others.
const CHANGES: usize = 10;

/// The functions of the tool's half, beside those of the board's that handle something. The
/// comparison is made with any that are handed in, so that it can be shown to find a difference that
/// was planted.
pub trait Archive: Handler {
    /// Writes the command for a request into a buffer.
    fn compose(&self, request: &Request, buffer: &mut Guarded) -> Composed;
    /// Reads the content of a Received OK.
    fn read_received_ok(&self, content: &[u8]) -> Acknowledged;
    /// Reads the content of a Rejected.
    fn read_rejected(&self, content: &[u8]) -> Rejection;
    /// Reads a reply datagram.
    fn read_reply(&self, datagram: &[u8]) -> Reply;
    /// Joins a frame that is sent to the tool with this alias.
    fn join(
        &self,
        alias: u16,
        pool: &mut Pool,
        places: &mut Places,
        header: u32,
        payload: &[u8],
    ) -> Joined;
    /// Puts two pairs of mask and data together.
    fn put_together(&self, earlier: Pair, later: Pair) -> Pair;
    /// Finds the next change between two images at or after an index, and writes its pairs into a
    /// buffer.
    fn next_change(&self, before: &[u8], after: &[u8], from: usize, pairs: &mut Guarded) -> Change;
}

/// The library.
#[derive(Clone, Copy, Debug)]
pub struct Library;

impl Handler for Library {}

impl Archive for Library {
    fn compose(&self, request: &Request, buffer: &mut Guarded) -> Composed {
        let buffer = buffer.bytes_mut();
        match *request {
            Request::Read {
                space,
                address,
                count,
            } => edge::compose_read(space, address, count, buffer),
            Request::Write {
                space,
                address,
                ref bytes,
            } => edge::compose_write(space, address, bytes, buffer),
            Request::WriteMasked {
                space,
                address,
                ref pairs,
            } => edge::compose_masked_write(space, address, pairs, buffer),
            Request::Options => edge::compose_options(buffer),
            Request::Information { space } => edge::compose_information(space, buffer),
            Request::Lock { ref id } => edge::compose_lock(id, buffer),
            Request::UpdateComplete => edge::compose_update_complete(buffer),
        }
    }

    fn read_received_ok(&self, content: &[u8]) -> Acknowledged {
        edge::read_received_ok(content)
    }

    fn read_rejected(&self, content: &[u8]) -> Rejection {
        edge::read_rejected(content)
    }

    fn read_reply(&self, datagram: &[u8]) -> Reply {
        edge::read_reply(datagram)
    }

    fn join(
        &self,
        alias: u16,
        pool: &mut Pool,
        places: &mut Places,
        header: u32,
        payload: &[u8],
    ) -> Joined {
        edge::join(alias, pool, places, header, payload)
    }

    fn put_together(&self, earlier: Pair, later: Pair) -> Pair {
        edge::put_together(earlier, later)
    }

    fn next_change(&self, before: &[u8], after: &[u8], from: usize, pairs: &mut Guarded) -> Change {
        edge::next_change(before, after, from, pairs.bytes_mut())
    }
}

/// Makes one call, or some that belong together, to both sides: on this board, and for the tool that
/// listens; the text says what differs.
pub fn call(
    archive: &impl Archive,
    setup: &mut Setup,
    listener: &mut Listener,
    random: &mut Random,
    tally: &mut Tally,
) -> Result<(), String> {
    match random.below(100 + CHANGES) {
        100.. => change::call(archive, random, tally),
        0..=27 => compose::call(archive, random, &mut tally.tool),
        28..=62 => read::reply_call(archive, random, &mut tally.tool),
        63..=69 => read::received_ok_call(archive, random, &mut tally.tool),
        70..=77 => read::rejected_call(archive, random, &mut tally.tool),
        78..=85 => listener.call(archive, random, &mut tally.tool),
        86..=94 => meet::whole(archive, setup, random, tally),
        _ => meet::frames(archive, setup, random, tally),
    }
}

/// Hexadecimal digits as bytes.
#[cfg(test)]
pub(crate) fn bytes(digits: &str) -> Vec<u8> {
    (0..digits.len())
        .step_by(2)
        .map(|at| u8::from_str_radix(&digits[at..at + 2], 16).expect("a pair of digits"))
        .collect()
}
