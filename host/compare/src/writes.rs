//! Holds the comparison of what writes add up to (C-16). On boards whose spaces lie over the same
//! bytes, whole datagrams go through the library one after the other, from several contents of
//! memory and in several orders. What memory is afterwards is held against what the model says the
//! writes do to any memory, and against what the library itself has made of them in another order.

pub mod aimed;
pub mod boards;
pub mod cases;
pub mod interleaving;
pub mod lists;
pub mod pairs;
#[cfg(test)]
mod planted;

use std::fmt::Write as _;

use crate::answer::Answer;
use crate::ffi::{Numbers, Registers};
use crate::generate::{Board, LARGEST_STORE};
use crate::random::Random;
use crate::setup::{hex, same, Handler, Lent};
use crate::tally::Tally;
use aimed::Write;
use boards::overlapping_board;
use model::Effect;

/// How many pairs of writes there are for one list, and for two lists that are interleaved.
const PAIRS: usize = 4;
/// The bytes of the reply buffer, the fewest that there may be.
const REPLY: usize = 72;

/// A datagram, with what holds of it whatever memory holds.
#[derive(Clone, Debug)]
pub struct Judged {
    datagram: Vec<u8>,
    /// Whether it is an accepted write, by the model.
    accepted: bool,
    /// What it does to memory, by the model.
    effect: Effect,
    /// What the board has to answer, where that is known without the model.
    answer: Option<Answer>,
}

impl Judged {
    /// Of any datagram.
    #[must_use]
    pub fn any(board: &Board, datagram: Vec<u8>) -> Self {
        let description = board.for_model();
        Self {
            accepted: model::is_accepted_write(&description, &datagram),
            effect: Effect::of(&description, board.memory_len, &datagram),
            answer: None,
            datagram,
        }
    }

    /// Of a write that is to be accepted.
    #[must_use]
    pub fn write(board: &Board, write: &Write) -> Self {
        Self {
            answer: Some(Answer::Written {
                start: write.start,
                count: write.masks.len(),
            }),
            ..Self::any(board, write.datagram.clone())
        }
    }
}

/// What a list of datagrams does to a memory of this length, by the model.
fn together<'d>(memory_len: usize, list: impl IntoIterator<Item = &'d Judged>) -> Effect {
    let none = Effect::none(memory_len);
    list.into_iter()
        .fold(none, |earlier, judged| earlier.then(&judged.effect))
}

/// A memory as an effect leaves it.
fn applied(effect: &Effect, memory: &[u8]) -> Vec<u8> {
    let mut memory = memory.to_vec();
    effect.apply(&mut memory);
    memory
}

/// What came of a list of datagrams.
#[derive(Clone, Debug, PartialEq, Eq)]
struct Run {
    memory: Vec<u8>,
    registers: Registers,
    answers: Vec<Numbers>,
}

/// What the library says is an accepted write is one for the model, and nothing else is; and it
/// names the bytes that are written.
fn compare_answers<'d>(
    list: impl IntoIterator<Item = &'d Judged>,
    answers: &[Numbers],
) -> Result<(), &'static str> {
    for (judged, &numbers) in list.into_iter().zip(answers) {
        let answer = Answer::from(numbers);
        same(
            matches!(answer, Answer::Written { .. }) == judged.accepted,
            "it is an accepted write for one side alone",
        )?;
        same(
            judged.answer.is_none_or(|expected| expected == answer),
            "a write is not answered with the bytes that it names",
        )?;
    }
    Ok(())
}

/// A board with what the library is lent, and what that holds before a list of datagrams.
#[derive(Clone, Debug)]
pub struct Runner {
    board: Board,
    flash: Vec<u8>,
    /// One content of memory.
    memory: Vec<u8>,
    /// The content of memory that the last list began with.
    before: Vec<u8>,
    registers: Registers,
    reply: [u8; REPLY],
    lent: Lent,
    /// Of what the room for a result holds before a call.
    any: Random,
}

impl Runner {
    /// A board with random contents.
    pub fn new(random: &mut Random, board: Board) -> Self {
        let flash = random.bytes(board.flash_len);
        let mut registers = [0; 6];
        if random.once_in(2) {
            random.fill(&mut registers);
        }
        let mut reply = [0; REPLY];
        random.fill(&mut reply);
        Self {
            memory: random.bytes(board.memory_len),
            before: Vec::new(),
            lent: Lent::for_datagrams(&board, &flash),
            board,
            flash,
            registers,
            reply,
            any: Random::new(random.number()),
        }
    }

    /// Hands a list of datagrams to the library, from this memory on.
    fn run<'d>(
        &mut self,
        handler: &impl Handler,
        memory: &[u8],
        list: impl IntoIterator<Item = &'d Judged>,
    ) -> Result<Run, &'static str> {
        self.before.clear();
        self.before.extend_from_slice(memory);
        self.lent.memory.set(memory);
        self.lent.registers.set(&self.registers);
        self.lent.reply.set(&self.reply);
        let mut answers = Vec::new();
        for judged in list {
            answers.push(self.handle(handler, &judged.datagram)?);
        }
        let lent = &self.lent;
        same(lent.flash.bytes() == self.flash, "flash is changed")?;
        same(
            lent.table.bytes() == self.board.table(),
            "the table is changed",
        )?;
        same(lent.is_intact(), "a byte outside what was lent is changed")?;
        Ok(Run {
            memory: lent.memory.bytes().to_vec(),
            registers: *lent.registers.array(),
            answers,
        })
    }

    /// Hands a datagram to the library. A write that it accepts changes nothing but memory.
    fn handle(&mut self, handler: &impl Handler, datagram: &[u8]) -> Result<Numbers, &'static str> {
        let lent = &mut self.lent;
        lent.any_result(&mut self.any);
        let registers: Registers = *lent.registers.array();
        let numbers = handler.handle_datagram(&self.board, lent, datagram);
        same(numbers.frame_count == 0, "there are frames to be sent")?;
        if matches!(Answer::from(numbers), Answer::Written { .. }) {
            same(
                lent.reply.bytes() == self.reply,
                "an accepted write has changed the reply buffer",
            )?;
            same(
                lent.registers.bytes() == registers,
                "an accepted write has changed the lock",
            )?;
        } else {
            lent.reply.set(&self.reply);
        }
        Ok(numbers)
    }

    /// The report on what differs where these datagrams are handed over.
    fn report<'d>(&self, what: &str, list: impl IntoIterator<Item = &'d Judged>) -> String {
        let mut report = format!("{what}\n");
        let mut line = |name: &str, text: &str| {
            let _ = writeln!(report, "{name:17} {text}");
        };
        line("alias", &format!("{:03X}", self.board.alias));
        line("table", &hex(self.board.table()));
        for space in self.board.spaces() {
            line("space", &format!("{space:X?}"));
        }
        line("flash", &hex(&self.flash));
        for judged in list {
            line("datagram", &hex(&judged.datagram));
            line("model: accepted", &judged.accepted.to_string());
            line("model: does", &in_words(&judged.effect));
        }
        line("random memory", &hex(&self.memory));
        line("last: memory", &hex(&self.before));
        line("last: lock", &hex(&self.registers));
        line("library: memory", &hex(self.lent.memory.bytes()));
        line("library: lock", &hex(self.lent.registers.bytes()));
        line("library: reply", &hex(self.lent.reply.bytes()));
        report
    }
}

/// The bytes of memory that an effect touches, for a report: index, mask and data.
fn in_words(effect: &Effect) -> String {
    let mut words = String::new();
    for (index, (mask, data)) in effect.pairs().into_iter().enumerate() {
        if mask != 0 {
            let _ = write!(words, "{index}: {mask:02X} {data:02X}, ");
        }
    }
    words
}

/// Makes a board, and hands pairs of writes, a list and two lists that are interleaved to it; to
/// one with a large memory, which takes far longer, mostly one pair alone.
pub fn call(handler: &impl Handler, random: &mut Random, tally: &mut Tally) -> Result<(), String> {
    let board = overlapping_board(random);
    let tally = &mut tally.writes;
    tally.board(&board);
    let large = board.memory_len == LARGEST_STORE;
    let mut runner = Runner::new(random, board);
    for _ in 0..if large { 1 } else { PAIRS } {
        pairs::call(handler, &mut runner, random, tally)?;
    }
    if !large || random.once_in(8) {
        lists::call(handler, &mut runner, random, tally)?;
        interleaving::call(handler, &mut runner, random, tally)?;
    }
    Ok(())
}

#[cfg(test)]
mod tests {
    use super::*;
    use crate::demonstration::{ALIAS, FLASH, MEMORY_LEN, TABLE, WRITE_LENGTHS};
    use crate::tool::{bytes, Library};

    /// The demonstration board.
    pub(super) fn demonstration() -> Runner {
        let table = TABLE.to_vec();
        let board = Board::new(ALIAS, WRITE_LENGTHS, table, FLASH.len(), MEMORY_LEN);
        Runner::new(&mut Random::new(16), board)
    }

    /// A datagram in hexadecimal digits.
    pub(super) fn judged(runner: &Runner, digits: &str) -> Judged {
        Judged::any(&runner.board, bytes(digits))
    }

    #[test]
    fn the_model_and_the_library_accept_the_same() {
        let mut runner = demonstration();
        let list = ["20010000001F11", "20010000001F1122", "20A8"];
        let list = list.map(|datagram| judged(&runner, datagram));
        assert_eq!(
            list.each_ref().map(|judged| judged.accepted),
            [true, false, false]
        );
        let memory = runner.memory.clone();
        let run = runner
            .run(&Library, &memory, &list)
            .expect("nothing is changed");
        assert_eq!(compare_answers(&list, &run.answers), Ok(()));
        for index in 0..list.len() {
            let mut list = list.clone();
            list[index].accepted ^= true;
            let what = "it is an accepted write for one side alone";
            assert_eq!(compare_answers(&list, &run.answers), Err(what));
        }
    }
}
