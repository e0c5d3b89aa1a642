//! Holds the comparison of two tools that write to the same board, each to bits of its own:
//! whichever way their writes come in between one another, memory and answers are the same.

use crate::ffi::Numbers;
use crate::generate::Board;
use crate::random::Random;
use crate::setup::{same, Handler};
use crate::writes::aimed::{write_within, Write};
use crate::writes::cases::WriteTally;
use crate::writes::{applied, compare_answers, together, Judged, Run, Runner};

/// The most writes of a tool.
const MOST: usize = 6;

/// Whose write is next, the first tool's or the second's; for all their writes.
type Way = Vec<usize>;

/// Makes the writes of two tools, and hands them over one list after the other and in two other
/// ways.
pub fn call(
    handler: &impl Handler,
    runner: &mut Runner,
    random: &mut Random,
    tally: &mut WriteTally,
) -> Result<(), String> {
    let first = any_bits(random, runner.memory.len());
    let second: Vec<u8> = first.iter().map(|bits| !bits).collect();
    let lists = [first, second].map(|bits| any_writes(random, &runner.board, &bits));
    let ways = [(); 2].map(|()| any_way(random, [lists[0].len(), lists[1].len()]));
    let judged = lists.each_ref().map(|list| {
        let judged = list.iter().map(|write| Judged::write(&runner.board, write));
        judged.collect::<Vec<_>>()
    });
    match any_order(handler, runner, &judged, &ways) {
        Ok(()) => {
            tally.interleaving(&lists, &ways, &runner.board);
            Ok(())
        }
        Err(what) => {
            let what = format!("two tools: {what}\nways {ways:?}");
            Err(runner.report(&what, judged.iter().flatten()))
        }
    }
}

/// The bits of memory that are the first tool's, the rest being the second's: by turns some bytes
/// of which all bits are the one's or the other's, and some that both have a part of.
fn any_bits(random: &mut Random, memory_len: usize) -> Vec<u8> {
    let mut bits = Vec::with_capacity(memory_len);
    while bits.len() < memory_len {
        let left = memory_len - bits.len();
        let count = random.between(1, left.min(1 + memory_len / 4));
        match random.below(4) {
            0 => bits.resize(bits.len() + count, 0x00),
            1 => bits.resize(bits.len() + count, 0xFF),
            _ => bits.extend(random.bytes(count)),
        }
    }
    bits
}

/// Writes to these bits of memory.
fn any_writes(random: &mut Random, board: &Board, bits: &[u8]) -> Vec<Write> {
    let count = random.between(0, MOST);
    (0..count)
        .map(|_| write_within(random, board, bits))
        .collect()
}

/// A way for so many writes of the two.
fn any_way(random: &mut Random, counts: [usize; 2]) -> Way {
    let mut left = counts;
    let mut way = Vec::with_capacity(counts[0] + counts[1]);
    while left != [0, 0] {
        let tool = match left {
            [0, _] => 1,
            [_, 0] => 0,
            _ => random.below(2),
        };
        left[tool] -= 1;
        way.push(tool);
    }
    way
}

/// The two lists in one, in this way.
fn merged<'d>(lists: &'d [Vec<Judged>; 2], way: &[usize]) -> Vec<&'d Judged> {
    let mut lists = lists.each_ref().map(|list| list.iter());
    let next = way.iter().filter_map(|&tool| lists[tool].next());
    next.collect()
}

/// The answers to the writes of one tool.
fn answers_to<'r>(
    run: &'r Run,
    way: &'r [usize],
    tool: usize,
) -> impl Iterator<Item = &'r Numbers> {
    let answers = run.answers.iter().zip(way);
    let own = answers.filter(move |&(_, &whose)| whose == tool);
    own.map(|(answer, _)| answer)
}

/// In each way memory is the same, and each tool has the answers that it has where it is alone;
/// memory is what the model says of both.
fn any_order(
    handler: &impl Handler,
    runner: &mut Runner,
    lists: &[Vec<Judged>; 2],
    ways: &[Way; 2],
) -> Result<(), &'static str> {
    let memory = runner.memory.clone();
    let effects = lists.each_ref().map(|list| together(memory.len(), list));
    same(
        !effects[0].shares_a_bit_with(&effects[1]),
        "the model says that they share a bit",
    )?;
    let alone = [
        runner.run(handler, &memory, &lists[0])?,
        runner.run(handler, &memory, &lists[1])?,
    ];
    let in_turn = [vec![0; lists[0].len()], vec![1; lists[1].len()]].concat();
    let run = runner.run(handler, &memory, merged(lists, &in_turn))?;
    compare_with_alone(&run, &in_turn, &alone)?;
    for way in ways {
        let other = runner.run(handler, &memory, merged(lists, way))?;
        same(
            other.memory == run.memory && other.registers == run.registers,
            "memory depends on how the writes come in between one another",
        )?;
        compare_with_alone(&other, way, &alone)?;
    }
    compare_answers(merged(lists, &in_turn), &run.answers)?;
    same(
        run.memory == applied(&effects[0].then(&effects[1]), &memory),
        "memory is not what the two lists do",
    )
}

/// Each tool has the answers that it has where it is alone.
fn compare_with_alone(run: &Run, way: &[usize], alone: &[Run; 2]) -> Result<(), &'static str> {
    let same_as_alone = |tool: usize| answers_to(run, way, tool).eq(&alone[tool].answers);
    same(
        same_as_alone(0) && same_as_alone(1),
        "a tool has other answers than where it is alone",
    )
}

#[cfg(test)]
mod tests {
    use super::*;
    use crate::tool::Library;
    use crate::writes::tests::{demonstration, judged};

    #[test]
    fn a_way_has_all_writes_in_their_order() {
        let mut random = Random::new(16);
        let runner = demonstration();
        let lists = [&["20A8", "2080"][..], &["208410", "208411", "20"]].map(|list| {
            let list = list.iter().map(|datagram| judged(&runner, datagram));
            list.collect::<Vec<_>>()
        });
        let mut ways: Vec<Way> = Vec::new();
        for _ in 0..200 {
            let way = any_way(&mut random, [2, 3]);
            let merged = merged(&lists, &way);
            for (tool, list) in lists.iter().enumerate() {
                let own = merged.iter().zip(&way).filter(|(_, &whose)| whose == tool);
                let own = own.map(|(judged, _)| &judged.datagram);
                assert!(own.eq(list.iter().map(|judged| &judged.datagram)));
            }
            if !ways.contains(&way) {
                ways.push(way);
            }
        }
        // As many as there are.
        assert_eq!(ways.len(), 10);
    }

    #[test]
    fn writes_that_share_a_bit_are_found() {
        let mut runner = demonstration();
        let mut compare = |one: &str, other: &str| {
            let lists = [one, other].map(|datagram| vec![judged(&runner, datagram)]);
            any_order(&Library, &mut runner, &lists, &[vec![0, 1], vec![1, 0]])
        };
        assert_eq!(compare("200A0000002001FF", "2008000001001080FF"), Ok(()));
        assert_eq!(
            compare("200A0000002001FF", "200800000100108100"),
            Err("the model says that they share a bit")
        );
    }
}
