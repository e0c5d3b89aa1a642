//! Holds the comparison of two pairs of mask and data that are put together.

use crate::ffi::tool::Pair;
use crate::random::Random;
use crate::setup::same;
use crate::tool::change::cases::ChangeTally;
use crate::tool::Archive;
use crate::writes::aimed::any_mask;

/// Puts two random pairs together.
pub fn call(
    archive: &impl Archive,
    random: &mut Random,
    tally: &mut ChangeTally,
) -> Result<(), String> {
    let (earlier, later) = any_two(random);
    put_together(archive, earlier, later, random.byte())?;
    tally.together(earlier, later);
    Ok(())
}

/// Two pairs: often with equal masks, or with masks that share no bit.
fn any_two(random: &mut Random) -> (Pair, Pair) {
    let earlier = any_mask(random);
    let later = match random.below(6) {
        0 => earlier,
        1 => any_mask(random) & !earlier,
        2 => !earlier,
        _ => any_mask(random),
    };
    (any_pair(random, earlier), any_pair(random, later))
}

/// A pair with this mask, mostly with data outside of it too.
fn any_pair(random: &mut Random, mask: u8) -> Pair {
    let data = match random.below(6) {
        0 => 0x00,
        1 => 0xFF,
        2 => random.byte() & mask,
        _ => random.byte(),
    };
    Pair { mask, data }
}

/// Puts two pairs together on both sides, and holds them against what both in turn do to this byte.
fn put_together(
    archive: &impl Archive,
    earlier: Pair,
    later: Pair,
    byte: u8,
) -> Result<(), String> {
    let library = archive.put_together(earlier, later);
    let (mask, data) = model::put_together((earlier.mask, earlier.data), (later.mask, later.data));
    let model = Pair { mask, data };
    let compared = same(library == model, "the answers differ")
        .and_then(|()| compare_alone(earlier, later, library, byte));
    compared.map_err(|what| {
        format!(
            "putting two pairs together: {what}\nearlier  {earlier:X?}\nlater    {later:X?}\n\
             library  {library:X?}\nmodel    {model:X?}\nbyte     {byte:02X}\n"
        )
    })
}

/// Tests of the library alone what change request C-16 says, whatever the model does. A bit that is
/// touched and one that is not are told apart by a byte that has it at 0 and one that has it at 1.
fn compare_alone(earlier: Pair, later: Pair, together: Pair, byte: u8) -> Result<(), &'static str> {
    let in_turn = |byte| applied(later, applied(earlier, byte));
    same(
        [byte, !byte]
            .iter()
            .all(|&byte| applied(together, byte) == in_turn(byte)),
        "it does not do what both in turn do",
    )?;
    same(
        together.data & !together.mask == 0,
        "its data are not zero outside its mask",
    )
}

/// What a pair makes of a byte.
const fn applied(pair: Pair, byte: u8) -> u8 {
    byte & !pair.mask | pair.data & pair.mask
}

#[cfg(test)]
mod tests {
    use super::*;

    const fn pair(mask: u8, data: u8) -> Pair {
        Pair { mask, data }
    }

    #[test]
    fn what_both_sides_do_wrongly_is_found() {
        let (earlier, later) = (pair(0x0F, 0xFA), pair(0x3C, 0x33));
        let alone = |together| compare_alone(earlier, later, together, 0x5A);
        assert_eq!(alone(pair(0x3F, 0x32)), Ok(()));
        let in_turn = "it does not do what both in turn do";
        // The earlier wins; the mask of one alone; one bit more; data of the other bits.
        for other in [
            pair(0x3F, 0x3A),
            pair(0x3C, 0x30),
            pair(0x0F, 0x02),
            pair(0x7F, 0x72),
            pair(0x7F, 0x32),
        ] {
            assert_eq!(alone(other), Err(in_turn), "{other:X?}");
        }
        let outside = "its data are not zero outside its mask";
        assert_eq!(alone(pair(0x3F, 0xF2)), Err(outside));
    }
}
