//! Holds the comparison of two accepted writes in either order.

use crate::random::Random;
use crate::setup::{same, Handler};
use crate::writes::aimed::{any_write, partner, Write};
use crate::writes::cases::WriteTally;
use crate::writes::{applied, compare_answers, Judged, Runner};

/// What was seen of two writes.
#[derive(Clone, Copy, Debug, PartialEq, Eq)]
pub struct Seen {
    /// They touch no common bit of memory.
    pub apart: bool,
    /// The two orders leave different memories.
    pub order_matters: bool,
}

/// Makes two writes that have to do with one another, and hands them over in either order.
pub fn call(
    handler: &impl Handler,
    runner: &mut Runner,
    random: &mut Random,
    tally: &mut WriteTally,
) -> Result<(), String> {
    let one = any_write(random, &runner.board);
    let other = partner(random, &runner.board, &one);
    compare(handler, runner, &one, &other, tally)
}

/// Hands two writes over in either order.
fn compare(
    handler: &impl Handler,
    runner: &mut Runner,
    one: &Write,
    other: &Write,
    tally: &mut WriteTally,
) -> Result<(), String> {
    let judged = [one, other].map(|write| Judged::write(&runner.board, write));
    let apart = !one.shares_a_bit_with(other);
    match either_order(handler, runner, &judged, apart) {
        Ok(order_matters) => {
            let seen = Seen {
                apart,
                order_matters,
            };
            tally.pair(one, other, seen, &runner.board);
            Ok(())
        }
        Err(what) => Err(runner.report(&format!("two writes: {what}"), &judged)),
    }
}

/// Whether the memories of the two orders differ. In either order each write has the same answer;
/// memory is the same for writes that are apart, and is what the model says of the order.
fn either_order(
    handler: &impl Handler,
    runner: &mut Runner,
    judged: &[Judged; 2],
    apart: bool,
) -> Result<bool, &'static str> {
    let [one, other] = judged;
    same(
        one.effect.shares_a_bit_with(&other.effect) != apart,
        "the model says otherwise whether they share a bit",
    )?;
    let memory = runner.memory.clone();
    let there = runner.run(handler, &memory, [one, other])?;
    let back = runner.run(handler, &memory, [other, one])?;
    same(
        there.answers.iter().eq(back.answers.iter().rev()),
        "the answers depend on the order",
    )?;
    same(
        there.registers == back.registers,
        "the lock depends on the order",
    )?;
    let order_matters = there.memory != back.memory;
    same(
        !(apart && order_matters),
        "they share no bit, and memory depends on the order",
    )?;
    compare_answers(judged, &there.answers)?;
    // Of two that are apart the one order is the other.
    let orders = [(&there, one, other), (&back, other, one)];
    for (run, first, second) in orders.into_iter().take(2 - usize::from(apart)) {
        same(
            run.memory == applied(&first.effect.then(&second.effect), &memory),
            "memory is not what the two do in that order",
        )?;
    }
    Ok(order_matters)
}

#[cfg(test)]
mod tests {
    use super::*;
    use crate::tool::Library;
    use crate::writes::tests::{demonstration, judged};
    use model::Effect;

    // 0xFE and 0x10 have byte 32 of memory at different addresses.
    const FIRST_ON: &str = "200A0000002001FF";
    const LAST_ON: &str = "2008000001001080FF";
    const BOTH_OFF: &str = "200800000100108100";

    #[test]
    fn lamps_in_one_byte() {
        let mut runner = demonstration();
        let mut order_matters = |one: &str, other: &str, apart: bool| {
            let pair = [one, other].map(|datagram| judged(&runner, datagram));
            either_order(&Library, &mut runner, &pair, apart)
        };
        assert_eq!(order_matters(FIRST_ON, LAST_ON, true), Ok(false));
        assert_eq!(order_matters(FIRST_ON, FIRST_ON, false), Ok(false));
        assert_eq!(order_matters(FIRST_ON, BOTH_OFF, false), Ok(true));
        let otherwise = "the model says otherwise whether they share a bit";
        assert_eq!(order_matters(FIRST_ON, LAST_ON, false), Err(otherwise));
        assert_eq!(order_matters(FIRST_ON, BOTH_OFF, true), Err(otherwise));
    }

    #[test]
    fn a_model_that_is_wrong_is_found() {
        let mut runner = demonstration();
        let good = [FIRST_ON, LAST_ON].map(|datagram| judged(&runner, datagram));
        let mut compare = |pair: &[Judged; 2]| either_order(&Library, &mut runner, pair, true);
        assert_eq!(compare(&good), Ok(false));
        let mut bad = good.clone();
        bad[1].effect = Effect::none(48);
        let memory = "memory is not what the two do in that order";
        assert_eq!(compare(&bad), Err(memory));
        let mut bad = good;
        bad[0].accepted = false;
        let accepted = "it is an accepted write for one side alone";
        assert_eq!(compare(&bad), Err(accepted));
    }
}
