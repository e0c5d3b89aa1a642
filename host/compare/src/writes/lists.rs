//! Holds the comparison of a list of datagrams, writes mostly, with what the model says it does to
//! any memory.

use crate::ffi::Numbers;
use crate::generate::{datagram, Board};
use crate::random::Random;
use crate::setup::{same, Handler};
use crate::writes::aimed::any_write;
use crate::writes::cases::WriteTally;
use crate::writes::{applied, compare_answers, together, Judged, Runner};
use model::Effect;

/// The most datagrams of a list.
pub const MOST: usize = 12;

/// Makes a list, and hands it over from three contents of memory.
pub fn call(
    handler: &impl Handler,
    runner: &mut Runner,
    random: &mut Random,
    tally: &mut WriteTally,
) -> Result<(), String> {
    let list = any_list(random, &runner.board);
    let cut = random.between(0, list.len());
    match whatever_memory_holds(handler, runner, &list, cut) {
        Ok(answers) => {
            tally.list(&list, &answers, cut);
            Ok(())
        }
        Err(what) => Err(runner.report(&format!("a list of writes: {what}"), &list)),
    }
}

/// A list: mostly accepted writes, and among them datagrams of any kind.
fn any_list(random: &mut Random, board: &Board) -> Vec<Judged> {
    let count = match random.below(8) {
        0 => 0,
        1 => MOST,
        _ => random.between(1, MOST),
    };
    let mut list = Vec::with_capacity(count);
    while list.len() < count {
        list.push(if random.below(8) < 5 {
            Judged::write(board, &any_write(random, board))
        } else {
            Judged::any(board, datagram(random, board))
        });
    }
    list
}

/// The answers to a list. Its effect is what the model says, and it is the same whatever memory
/// holds; so are the answers. The list is also cut into two, of which the first has so many
/// datagrams.
fn whatever_memory_holds(
    handler: &impl Handler,
    runner: &mut Runner,
    list: &[Judged],
    cut: usize,
) -> Result<Vec<Numbers>, &'static str> {
    let length = runner.memory.len();
    let [random, zeros, ones] = [
        runner.memory.clone(),
        vec![0x00; length],
        vec![0xFF; length],
    ];
    let first = runner.run(handler, &random, list)?;
    let others = [
        runner.run(handler, &zeros, list)?,
        runner.run(handler, &ones, list)?,
    ];
    same(
        others
            .iter()
            .all(|run| run.answers == first.answers && run.registers == first.registers),
        "answers or lock depend on what memory holds",
    )?;
    compare_answers(list, &first.answers)?;
    let effect = effect_of(length, list, cut)?;
    same(
        first.memory == applied(&effect, &random),
        "memory is not what the list does",
    )?;
    let pairs = effect.pairs();
    compare_memory(&pairs, &random, &first.memory)?;
    compare_memory(&pairs, &zeros, &others[0].memory)?;
    compare_memory(&pairs, &ones, &others[1].memory)?;
    Ok(first.answers)
}

/// What a list does by the model, which is also what its two parts do, put together.
fn effect_of(memory_len: usize, list: &[Judged], cut: usize) -> Result<Effect, &'static str> {
    let effect = together(memory_len, list);
    let [before, behind] = [&list[..cut], &list[cut..]].map(|part| together(memory_len, part));
    same(
        before.then(&behind) == effect,
        "its two parts put together are not the list",
    )?;
    Ok(effect)
}

/// Memory before and after a list: each byte is what one mask and one data byte, which is zero
/// outside the mask, make of it.
fn compare_memory(pairs: &[(u8, u8)], before: &[u8], after: &[u8]) -> Result<(), &'static str> {
    let mut bytes = before.iter().zip(after).zip(pairs);
    same(
        bytes.all(|((was, is), (mask, data))| *is == was & !mask | data && data & !mask == 0),
        "memory is not what one mask and one data byte for each byte do",
    )
}

#[cfg(test)]
mod tests {
    use super::*;
    use crate::tool::Library;
    use crate::writes::tests::{demonstration, judged};

    #[test]
    fn a_list_and_its_parts() {
        let mut runner = demonstration();
        // A write, a masked write over it, a write that fails, one that is rejected, and a read.
        let datagrams = [
            "200100000002ABCD",
            "200800000002FD0F5A",
            "20030000000001",
            "2009000000020F",
            "20410000000202",
        ];
        let list = datagrams.map(|datagram| judged(&runner, datagram));
        for cut in 0..=list.len() {
            let answers = whatever_memory_holds(&Library, &mut runner, &list, cut);
            let kinds = answers.map(|answers| answers.iter().map(|answer| answer.kind).collect());
            assert_eq!(kinds, Ok(vec![5, 5, 6, 4, 6]));
        }
        let pairs = together(48, &list).pairs();
        assert_eq!(pairs[1..5], [(0, 0), (0xFF, 0xAA), (0xFF, 0xCD), (0, 0)]);
    }

    #[test]
    fn a_model_that_is_wrong_is_found() {
        let mut runner = demonstration();
        let mut list = [judged(&runner, "200100000002AB")];
        list[0].effect = Effect::none(48);
        let compared = whatever_memory_holds(&Library, &mut runner, &list, 0);
        assert_eq!(compared, Err("memory is not what the list does"));
    }

    #[test]
    fn one_mask_and_one_data_byte() {
        let compare = |data, after| compare_memory(&[(0x0F, data)], &[0xF0], &[after]);
        let what = "memory is not what one mask and one data byte for each byte do";
        assert_eq!(compare(0x01, 0xF1), Ok(()));
        assert_eq!(compare(0x01, 0x01), Err(what));
        // A bit outside the mask, which memory has in any case.
        assert_eq!(compare(0x11, 0xF1), Err(what));
    }
}
