//! Holds the comparison of the whole way from an old image to a new one: all changes one after the
//! other, each as the command for a masked write.

use crate::random::Random;
use crate::setup::{hex, same};
use crate::tool::change::cases::ChangeTally;
use crate::tool::change::images::{altered, any_image, LONGEST};
use crate::tool::change::{next, Search, Step, LEAST_ROOM};
use crate::tool::compose::write;
use crate::tool::meet;
use crate::tool::request::Request;
use crate::tool::Archive;
use crate::writes::aimed::MOST_PAIRS;

/// Where the first byte of an image is.
#[derive(Clone, Copy, Debug)]
pub struct Place {
    /// The number of the space.
    pub space: u8,
    /// The address.
    pub address: u32,
}

/// Goes from a random image to another.
pub fn call(
    archive: &impl Archive,
    random: &mut Random,
    tally: &mut ChangeTally,
) -> Result<(), String> {
    let before = any_image(random);
    let after = altered(random, &before);
    let place = Place {
        space: random.byte(),
        address: random.word().min(u32::MAX - LONGEST as u32),
    };
    let steps = walk(archive, random, place, &before, &after)?;
    let steps: Vec<Step> = steps.into_iter().map(|(step, _)| step).collect();
    compare(&steps, &before, &after).map_err(|what| report(what, &before, &after, &steps))?;
    tally.walk(&steps);
    Ok(())
}

/// All changes from one image to another, each with the command for it.
pub fn walk(
    archive: &impl Archive,
    random: &mut Random,
    place: Place,
    before: &[u8],
    after: &[u8],
) -> Result<Vec<(Step, Vec<u8>)>, String> {
    let mut steps = Vec::new();
    let mut from = 0;
    loop {
        let search = Search {
            before,
            after,
            from,
        };
        let length = LEAST_ROOM + random.pick(&[0, 0, 0, 1, 36]);
        let found = next(archive, search, &random.bytes(length))?
            .map_err(|refusal| report(&format!("{refusal} for a change"), before, after, &[]))?;
        let Some(step) = found else {
            return Ok(steps);
        };
        from = step.end();
        let request = Request::WriteMasked {
            space: place.space,
            address: place.address + step.start as u32,
            pairs: step.pairs.clone(),
        };
        let command = write(archive, &request, &meet::buffer(random))?
            .map_err(|refusal| report(&format!("{refusal} for a command"), before, after, &[]))?;
        steps.push((step, command));
    }
}

/// The changes make the old image the new one, and there are as many as the model finds, and as
/// there must be.
fn compare(steps: &[Step], before: &[u8], after: &[u8]) -> Result<(), &'static str> {
    let mut image = before.to_vec();
    for step in steps {
        let bytes = image[step.start..].iter_mut();
        for (byte, pair) in bytes.zip(step.pairs.chunks_exact(2)) {
            *byte = *byte & !pair[0] | pair[1] & pair[0];
        }
    }
    same(image == after, "they do not make the old image the new one")?;
    same(
        steps.len() == count_of_model(before, after),
        "the model makes more or fewer",
    )?;
    same(steps.len() == fewest(before, after), "fewer would do")
}

/// How many changes the model finds.
fn count_of_model(before: &[u8], after: &[u8]) -> usize {
    let (mut count, mut from) = (0, 0);
    let mut pairs = [0; LEAST_ROOM];
    while let Ok(Some(change)) = model::next_change(before, after, from, &mut pairs) {
        from = change.start + change.count;
        count += 1;
    }
    count
}

/// How many masked writes there must be at least: so many bytes differ of which each is out of
/// reach of the one before.
fn fewest(before: &[u8], after: &[u8]) -> usize {
    let (mut count, mut reach) = (0, 0);
    for (index, (old, new)) in before.iter().zip(after).enumerate() {
        if old != new && index >= reach {
            count += 1;
            reach = index + MOST_PAIRS;
        }
    }
    count
}

fn report(what: &str, before: &[u8], after: &[u8], steps: &[Step]) -> String {
    let mut report = format!(
        "all changes: {what}\nold      {}\nnew      {}\n",
        hex(before),
        hex(after)
    );
    for step in steps {
        report += &format!("change   {} {}\n", step.start, hex(&step.pairs));
    }
    report
}

#[cfg(test)]
mod tests {
    use super::*;

    fn step(start: usize, pairs: &[u8]) -> Step {
        Step {
            start,
            pairs: pairs.to_vec(),
        }
    }

    #[test]
    fn what_both_sides_do_wrongly_is_found() {
        let (before, mut after) = ([0x0F; 40], [0x0F; 40]);
        (after[1], after[3], after[33]) = (0x0E, 0x1F, 0x8F);
        let run = step(1, &[0x01, 0, 0, 0, 0x10, 0x10]);
        let last = step(33, &[0x80, 0x80]);
        let compare = |steps: &[Step]| compare(steps, &before, &after);
        assert_eq!(compare(&[run.clone(), last.clone()]), Ok(()));
        let image = "they do not make the old image the new one";
        assert_eq!(compare(core::slice::from_ref(&run)), Err(image));
        assert_eq!(
            compare(&[run, step(32, &[0, 0, 0x80, 0])]),
            Err(image),
            "another bit"
        );
        let more = "the model makes more or fewer";
        let split = [step(1, &[0x01, 0]), step(3, &[0x10, 0x10]), last];
        assert_eq!(compare(&split), Err(more));
    }

    #[test]
    fn how_many_there_must_be() {
        let count = |places: &[usize]| {
            let (before, mut after) = ([0; 200], [0; 200]);
            places.iter().for_each(|&place| after[place] = 1);
            let count = fewest(&before, &after);
            assert_eq!(count, count_of_model(&before, &after), "{places:?}");
            count
        };
        assert_eq!(count(&[]), 0);
        assert_eq!(count(&[0, 31]), 1);
        assert_eq!(count(&[0, 32]), 2);
        assert_eq!(count(&[5, 20, 36, 37, 68, 69]), 3);
        assert_eq!(fewest(&[0; 200], &[1; 200]), 7);
    }
}
