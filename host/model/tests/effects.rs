//! Holds the tests of what writes do to memory (C-16), most of them against the board: what it
//! answers and what memory is afterwards, for several contents of memory.

mod common;

use std::collections::HashMap;

use common::{hex, in_flash, read_only, space, Bench, Numbers, FILL};
use model::{
    check_description, is_accepted_write, put_together, Answer, Description, Effect, Space,
};

fn description(board: &Bench) -> Description<'_> {
    Description {
        alias: board.alias,
        write_lengths: board.write_lengths,
        spaces: &board.spaces,
    }
}

fn is_accepted(board: &Bench, datagram: &[u8]) -> bool {
    is_accepted_write(&description(board), datagram)
}

fn effect(board: &Bench, datagram: &[u8]) -> Effect {
    Effect::of(&description(board), board.memory.len(), datagram)
}

fn none(board: &Bench) -> Effect {
    Effect::none(board.memory.len())
}

/// The effects of the datagrams of a list, put together in their order.
fn effect_of_list(board: &Bench, list: &[Vec<u8>]) -> Effect {
    list.iter().fold(none(board), |so_far, datagram| {
        so_far.then(&effect(board, datagram))
    })
}

/// Memory as an effect leaves it.
fn applied(effect: &Effect, memory: &[u8]) -> Vec<u8> {
    let mut memory = memory.to_vec();
    effect.apply(&mut memory);
    memory
}

/// What the board answers to one datagram, and the reply buffer afterwards.
fn answer(board: &mut Bench, datagram: &[u8]) -> (Answer, Vec<u8>) {
    board.reply.fill(FILL);
    let answer = board.datagram(datagram).expect("no error of the caller");
    (answer, board.reply.clone())
}

/// What the board answers to each datagram of a list, from this memory on, and memory afterwards.
fn answers(board: &Bench, memory: &[u8], list: &[Vec<u8>]) -> (Vec<(Answer, Vec<u8>)>, Vec<u8>) {
    let mut board = board.clone();
    board.memory = memory.to_vec();
    let answers = list.iter().map(|datagram| answer(&mut board, datagram));
    (answers.collect(), board.memory)
}

/// Contents of memory: all bits 0, all bits 1, and three that look random.
fn memories(numbers: &mut Numbers, length: usize) -> Vec<Vec<u8>> {
    let mut memories = vec![vec![0x00; length], vec![0xFF; length]];
    memories.extend((0..3).map(|_| numbers.bytes(length)));
    memories
}

/// Asserts that the effect of a list is what the board does, whatever memory holds, and that the
/// board writes what is accepted and nothing else. Gives the effect.
fn assert_is_what_the_board_does(board: &Bench, list: &[Vec<u8>]) -> Effect {
    let effect = effect_of_list(board, list);
    for memory in memories(&mut Numbers(0x5851_F42D_4C95_7F2D), board.memory.len()) {
        let (answers, after) = answers(board, &memory, list);
        assert_eq!(applied(&effect, &memory), after);
        for (datagram, (answer, reply)) in list.iter().zip(answers) {
            let written = matches!(answer, Answer::Written { .. });
            assert_eq!(is_accepted(board, datagram), written, "{datagram:02X?}");
            assert!(!written || reply.iter().all(|&byte| byte == FILL));
        }
    }
    effect
}

/// Asserts that writes in hex, all of them accepted, touch these bytes of memory and no others:
/// for each its index, mask and data.
fn does(board: &Bench, list: &[&str], expected: &[(usize, u8, u8)]) {
    let list: Vec<_> = list.iter().map(|datagram| hex(datagram)).collect();
    assert!(list.iter().all(|datagram| is_accepted(board, datagram)));
    let mut pairs = vec![(0, 0); board.memory.len()];
    for &(index, mask, data) in expected {
        pairs[index] = (mask, data);
    }
    assert_eq!(assert_is_what_the_board_does(board, &list).pairs(), pairs);
}

/// Asserts that a datagram in hex is no accepted write and has no effect.
fn does_nothing(board: &Bench, datagram: &str) {
    let list = [hex(datagram)];
    assert!(!is_accepted(board, &list[0]), "{datagram}");
    assert_eq!(assert_is_what_the_board_does(board, &list), none(board));
}

/// Whether two writes in hex, both of them accepted, share a bit. Holds the same to it from both
/// sides.
fn share(board: &Bench, one: &str, other: &str) -> bool {
    assert!(is_accepted(board, &hex(one)) && is_accepted(board, &hex(other)));
    let (one, other) = (effect(board, &hex(one)), effect(board, &hex(other)));
    let share = one.shares_a_bit_with(&other);
    assert_eq!(other.shares_a_bit_with(&one), share);
    share
}

// One write.

#[test]
fn a_plain_write_has_mask_ff() {
    let board = Bench::demo();
    does(&board, &["20010000000311"], &[(3, 0xFF, 0x11)]);
    does(&board, &["20010000000300"], &[(3, 0xFF, 0x00)]);
    does(&board, &["200000000003FD11"], &[(3, 0xFF, 0x11)]);
    let written = [(4, 0xFF, 0x00), (5, 0xFF, 0xFF), (6, 0xFF, 0xA5)];
    does(&board, &["20020000000400FFA5"], &written);
}

#[test]
fn the_longest_writes() {
    let mut board = Bench::with_spaces(&[space(0xFD, 0, 69, 2)]);
    board.memory = vec![0; 80];
    let plain: Vec<_> = (0..64).map(|n| (7 + n, 0xFF, 0x33)).collect();
    does(
        &board,
        &[&format!("200100000005{}", "33".repeat(64))],
        &plain,
    );
    let masked: Vec<_> = (0..32).map(|n| (7 + n, 0x0F, 0x03)).collect();
    does(
        &board,
        &[&format!("200900000005{}", "0F33".repeat(32))],
        &masked,
    );
    does_nothing(&board, &format!("200100000005{}", "33".repeat(65)));
    does_nothing(&board, &format!("200900000005{}", "0F33".repeat(33)));
}

#[test]
fn mask_zero_touches_nothing_and_is_no_plain_write() {
    let board = Bench::demo();
    does(&board, &["20090000000300AA"], &[]);
    assert_eq!(effect(&board, &hex("20090000000300AA")), none(&board));
    let beside = [(3, 0x0F, 0x05), (5, 0xFF, 0x33)];
    does(&board, &["2009000000030F5500AAFF33"], &beside);
    // It takes nothing away from what was written before.
    let kept = [(3, 0xFF, 0x11)];
    does(&board, &["20010000000311", "20090000000300AA"], &kept);
}

#[test]
fn data_outside_the_mask_do_not_matter() {
    let board = Bench::demo();
    let masked = |mask: u8, data: u8| {
        let datagram = [hex("200900000003"), vec![mask, data]].concat();
        effect(&board, &datagram)
    };
    for mask in 0..=255 {
        for data in [0x00, 0x01, 0x5A, 0x80, 0xA5, 0xC3, 0xFF] {
            let effect = masked(mask, data);
            assert_eq!(effect.pairs()[3], (mask, data & mask));
            assert_eq!(effect, masked(mask, data & mask));
            assert_eq!(effect, masked(mask, data | !mask));
            assert_eq!(effect, masked(mask, data ^ (0x99 & !mask)));
        }
    }
}

#[test]
fn mask_ff_is_a_plain_write() {
    let board = Bench::demo();
    for data in 0..=255 {
        let masked = [hex("200900000003FF"), vec![data]].concat();
        let plain = [hex("200100000003"), vec![data]].concat();
        assert_eq!(effect(&board, &masked), effect(&board, &plain));
    }
}

#[test]
fn a_write_that_fails_has_no_effect() {
    let board = Bench::with_spaces(&[
        space(0x10, 0x100, 0x10F, 32),
        read_only(space(0x11, 0, 7, 0)),
        in_flash(space(0x12, 0, 7, 0)),
        read_only(space(0xFE, 0, 47, 0)),
    ]);
    // Spaces that are unknown, and one that is known and empty.
    for (command, space) in [("00", "13"), ("00", "00"), ("00", "FD"), ("01", "")] {
        does_nothing(&board, &format!("20{command}00000000{space}11"));
    }
    does_nothing(&board, "2008000000001300AA");
    does_nothing(&board, "200900000000FFAA");
    does_nothing(&board, "20090000000000AA");
    // Read-only spaces, 0xFF left out among them.
    for (command, space) in [("00", "11"), ("00", "12"), ("00", "FE"), ("00", "FF")] {
        does_nothing(&board, &format!("20{command}00000000{space}11"));
    }
    for (command, tail) in [("02", "11"), ("03", "11"), ("0A", "FF11"), ("0B", "00AA")] {
        does_nothing(&board, &format!("20{command}00000000{tail}"));
    }
    // One byte past the end, one below the lowest address, and far away.
    does_nothing(&board, "20000000010F101122");
    does_nothing(&board, "20080000010F1000AA00AA");
    does_nothing(&board, "2000000000FF101122");
    does_nothing(&board, "2000000001101011");
    does_nothing(&board, "2000000000001011");
    does_nothing(&board, "2000FFFFFFFF1011");
    does_nothing(&board, &format!("20000000010010{}", "11".repeat(17)));
    does(&board, &["20000000010F1011"], &[(47, 0xFF, 0x11)]);
}

#[test]
fn reads_locks_and_update_complete_have_no_effect() {
    let board = Bench::demo();
    for datagram in [
        "20410000000001",
        "20410000002001",
        "2040000001001001",
        "2080",
        "208410",
        "208411",
        "2088010203040506",
        "2088000000000000",
        "20A8",
    ] {
        does_nothing(&board, datagram);
    }
    for command in 0..=255u8 {
        if !matches!(command, 0x00..=0x03 | 0x08..=0x0B) {
            does_nothing(&board, &format!("20{command:02X}00000000101122"));
        }
    }
}

#[test]
fn what_is_rejected_has_no_effect() {
    let board = Bench::demo();
    for datagram in [
        "",
        "20",
        "21",
        "2101000000001111",
        "2001",
        "2001000000",
        "200100000000",
        "20000000000010",
        "200900000000",
        "200900000000FF",
        "2009000000000F110F",
        "2008000001001011",
        "20A801",
    ] {
        does_nothing(&board, datagram);
    }
    does_nothing(&board, &format!("200100000000{}", "11".repeat(66)));
    does_nothing(&board, &format!("200100000000{}", "11".repeat(67)));
    does_nothing(&board, &format!("200900000000{}", "11".repeat(31)));
}

#[test]
fn the_last_address_of_a_space_and_the_last_byte_of_memory() {
    let board = Bench::with_spaces(&[
        space(0x30, 0xFFFF_FFF0, 0xFFFF_FFFF, 16),
        space(0xFD, 0x10, 0x3F, 0),
    ]);
    does(&board, &["2000FFFFFFFF30AA"], &[(31, 0xFF, 0xAA)]);
    does(&board, &["2008FFFFFFFF300FAA"], &[(31, 0x0F, 0x0A)]);
    let last_two = [(30, 0xFF, 0xAA), (31, 0xFF, 0xBB)];
    does(&board, &["2000FFFFFFFE30AABB"], &last_two);
    does_nothing(&board, "2000FFFFFFFF30AABB");
    does_nothing(&board, "2008FFFFFFFF3000AA00BB");
    does(&board, &["20010000003FAA"], &[(47, 0xFF, 0xAA)]);
    does(&board, &["20090000003F80AA"], &[(47, 0x80, 0x80)]);
    does(&board, &["200100000010AA"], &[(0, 0xFF, 0xAA)]);
    does_nothing(&board, "20010000003FAABB");
    does_nothing(&board, "20010000000FAA");
}

#[test]
fn a_whole_memory_of_65536_bytes_and_an_empty_one() {
    let mut board = Bench::with_spaces(&[space(0xFD, 0, 0xFFFF, 0)]);
    board.memory = vec![0x5A; 65_536];
    let effect = effect(&board, &hex("20090000FFFF0FAA"));
    let pairs = effect.pairs();
    assert_eq!(pairs.len(), 65_536);
    assert_eq!(pairs[65_535], (0x0F, 0x0A));
    assert!(pairs[..65_535].iter().all(|&pair| pair == (0, 0)));
    assert_eq!(applied(&effect, &board.memory)[65_535], 0x5A);
    assert!(!is_accepted(&board, &hex("20090000FFFF0FAA0FAA")));
    board.memory.clear();
    board.spaces.clear();
    does_nothing(&board, "20010000000011");
    assert_eq!(none(&board).pairs(), []);
    assert_eq!(applied(&none(&board), &[]), []);
    assert!(!none(&board).shares_a_bit_with(&none(&board)));
}

// Several writes.

#[test]
fn the_later_one_wins_bit_by_bit() {
    let board = Bench::demo();
    // Two lamps of one byte, one switched on and one off.
    let (on, off) = ("2009000000050101", "2009000000051000");
    does(&board, &[on, off], &[(5, 0x11, 0x01)]);
    does(&board, &[off, on], &[(5, 0x11, 0x01)]);
    // The same lamp.
    let off_again = "2009000000050100";
    does(&board, &[on, off_again], &[(5, 0x01, 0x00)]);
    does(&board, &[off_again, on], &[(5, 0x01, 0x01)]);
    // Some bits in common: the two in the middle.
    let (low, high) = ("2009000000053C3C", "200900000005F0A0");
    does(&board, &[low, high], &[(5, 0xFC, 0xAC)]);
    does(&board, &[high, low], &[(5, 0xFC, 0xBC)]);
    // A plain write hides all that came before it and nothing that comes after.
    let plain = "200100000005C3";
    does(&board, &[low, plain], &[(5, 0xFF, 0xC3)]);
    does(&board, &[plain, low], &[(5, 0xFF, 0xFF)]);
    does(&board, &[plain, high], &[(5, 0xFF, 0xA3)]);
    does(&board, &[plain, high, on, off], &[(5, 0xFF, 0xA3)]);
    does(&board, &[plain, high, off_again], &[(5, 0xFF, 0xA2)]);
    // Writes of several bytes that lie across each other.
    let across = ["20010000000511223344", "200900000006F0FF0000FF66"];
    let expected = [
        (5, 0xFF, 0x11),
        (6, 0xFF, 0xF2),
        (7, 0xFF, 0x33),
        (8, 0xFF, 0x66),
    ];
    does(&board, &across, &expected);
}

#[test]
fn two_spaces_that_name_one_byte_by_different_addresses() {
    let board = Bench::demo();
    // 0xFE 0x20 and 0x10 0x100 are both byte 32 of memory.
    let (by_fe, by_10) = ("20020000002011", "2000000001001011");
    does(&board, &[by_fe], &[(32, 0xFF, 0x11)]);
    does(&board, &[by_10], &[(32, 0xFF, 0x11)]);
    assert_eq!(effect(&board, &hex(by_fe)), effect(&board, &hex(by_10)));
    assert!(share(&board, by_fe, by_10));
    let (low, high) = ("200A0000002F0F55", "20080000010F10F0AA");
    does(&board, &[low, high], &[(47, 0xFF, 0xA5)]);
    does(&board, &[high, low], &[(47, 0xFF, 0xA5)]);
    assert!(!share(&board, low, high));
    let (some, later) = ("200A0000002F1FFF", "20080000010F10F020");
    does(&board, &[some, later], &[(47, 0xFF, 0x2F)]);
    does(&board, &[later, some], &[(47, 0xFF, 0x3F)]);
    assert!(share(&board, some, later));
    // One byte through 0xFD and 0xFE at the same address, by control bits and by byte 6.
    for datagram in ["200100000003AA", "200200000003AA", "200000000003FEAA"] {
        does(&board, &[datagram], &[(3, 0xFF, 0xAA)]);
        assert!(share(&board, datagram, "200000000003FDBB"));
    }
}

#[test]
fn bits_of_memory_are_shared_and_not_addresses() {
    let board = Bench::with_spaces(&[
        space(0x01, 0, 7, 0),
        space(0x02, 0, 7, 8),
        space(0x03, 0x100, 0x107, 4),
    ]);
    // The same address in spaces that lie apart.
    assert!(!share(&board, "20000000000301AA", "20000000000302AA"));
    let whole = |space: &str| format!("200000000000{space}{}", "11".repeat(8));
    assert!(!share(&board, &whole("01"), &whole("02")));
    // Different addresses that lie on the same byte, the first and the last of a window.
    assert!(share(&board, "20000000000401AA", "20000000010003BB"));
    assert!(share(&board, "20000000000302AA", "20000000010703BB"));
    assert!(!share(&board, "20000000000301AA", "20000000010003BB"));
    assert!(!share(&board, "20000000000402AA", "20000000010703BB"));
    // A write that reaches from one window into the other, and one that ends just before.
    assert!(share(&board, "200000000002011122AA", "20000000010003BB"));
    assert!(!share(&board, "200000000002011122", "20000000010003BB"));
    assert!(share(&board, &whole("02"), "20000000010403BB"));
    assert!(!share(&board, &whole("02"), "20000000010303BB"));
}

#[test]
fn bits_that_are_shared_by_mask() {
    let board = Bench::demo();
    let masked = |mask: u8, data: u8| format!("200900000003{mask:02X}{data:02X}");
    for place in 0..8 {
        let bit = 1 << place;
        assert!(share(&board, &masked(bit, 0xFF), &masked(bit, 0xFF)));
        assert!(share(&board, &masked(bit, 0xFF), &masked(bit, 0x00)));
        assert!(share(&board, &masked(bit, 0x00), "20010000000300"));
        assert!(!share(&board, &masked(bit, 0xFF), &masked(!bit, 0xFF)));
        assert!(!share(&board, &masked(bit, 0xFF), "20010000000411"));
    }
    // A mask of zero shares nothing, not even with itself; a write shares all with itself.
    assert!(!share(&board, &masked(0, 0xFF), &masked(0, 0xFF)));
    assert!(!share(&board, &masked(0, 0xFF), "20010000000311"));
    assert!(share(&board, "20010000000311", "20010000000311"));
    // Of several pairs none, and then one, has a bit in common with a pair of the other write.
    let pairs = "2009000000020FFF00FFF0FF";
    assert!(!share(&board, pairs, "200900000002F00000000F00"));
    assert!(share(&board, pairs, "200900000002F00000001F00"));
    assert!(share(&board, pairs, "200900000002F80000000F00"));
    assert!(!share(&board, pairs, "20010000000333"));
    assert!(share(&board, pairs, "2001000000033344"));
}

// Boards, writes and lists that look random.

fn random_space(numbers: &mut Numbers, number: u8, memory_len: u32, flash_len: u32) -> Space {
    let kind = numbers.below(8);
    let store_len = if kind == 0 { flash_len } else { memory_len };
    let offset = numbers.below(store_len);
    let size = 1 + numbers.below(store_len - offset);
    let last = size - 1;
    let lowest = match numbers.below(4) {
        0 => 0,
        1 => u32::MAX - last,
        2 => numbers.below(8),
        _ => 0x100 * numbers.below(3),
    };
    let found = space(number, lowest, lowest + last, offset);
    match kind {
        0 => in_flash(found),
        1 => read_only(found),
        _ if number == 0xFF => read_only(found),
        _ => found,
    }
}

/// A board with a memory of 1 to `most` bytes and up to seven spaces, whose windows overlap.
fn random_board(numbers: &mut Numbers, most: u32) -> Bench {
    let mut board = Bench::demo();
    let length = 1 + numbers.below(most);
    board.memory = numbers.bytes(length as usize);
    board.lock = [numbers.byte(); 6];
    board.spaces.clear();
    for number in [0xFE, 0x10, 0x00, 0xFD, 0xFC, 0xFF, 0x07] {
        if numbers.below(3) != 0 {
            board.spaces.push(random_space(numbers, number, length, 16));
        }
    }
    assert_eq!(
        check_description(&description(&board), 16, length as usize),
        Ok(())
    );
    board
}

fn random_mask(numbers: &mut Numbers) -> u8 {
    match numbers.below(8) {
        0 => 0x00,
        1 => 0xFF,
        2 | 3 => numbers.byte(),
        _ => 1 << numbers.below(8),
    }
}

/// A plain or masked write, most often one that is accepted.
fn random_write(numbers: &mut Numbers, board: &Bench) -> Vec<u8> {
    let chosen = if board.spaces.is_empty() || numbers.below(20) == 0 {
        space(numbers.byte(), 0, 9, 0)
    } else {
        numbers.one_of(&board.spaces)
    };
    let size = chosen.highest - chosen.lowest + 1;
    let place = numbers.below(size);
    let left = size - place;
    let count = match numbers.below(16) {
        0 => left + 1,
        1 => left.min(64),
        2 => left.min(32),
        3 => numbers.below(70),
        _ => 1 + numbers.below(left.min(4)),
    };
    let below = u32::from(numbers.below(20) == 0);
    let address = (chosen.lowest + place).wrapping_sub(below);
    let by_control_bits = chosen.number >= 0xFD && numbers.below(2) == 0;
    let control_bits = if by_control_bits {
        chosen.number - 0xFC
    } else {
        0
    };
    let masked = numbers.below(3) != 0;
    let mut datagram = vec![0x20, if masked { 0x08 } else { 0x00 } + control_bits];
    datagram.extend(address.to_be_bytes());
    datagram.extend((!by_control_bits).then_some(chosen.number));
    for _ in 0..count {
        datagram.extend(masked.then(|| random_mask(numbers)));
        datagram.push(numbers.byte());
    }
    datagram
}

/// A datagram of any kind.
fn random_datagram(numbers: &mut Numbers, board: &Bench) -> Vec<u8> {
    match numbers.below(12) {
        0 => hex("20A8"),
        1 => [hex("2088"), numbers.bytes(6)].concat(),
        2 => {
            // A read where a write would be, or what is no command at all.
            let mut datagram = random_write(numbers, board);
            datagram[1] ^= numbers.one_of(&[0x40, 0x48, 0x10, 0x80]);
            datagram
        }
        3 => {
            let mut datagram = random_write(numbers, board);
            datagram.truncate(numbers.below(9) as usize);
            datagram
        }
        _ => random_write(numbers, board),
    }
}

fn random_list(numbers: &mut Numbers, board: &Bench, most: u32) -> Vec<Vec<u8>> {
    let length = numbers.below(most + 1);
    (0..length)
        .map(|_| random_datagram(numbers, board))
        .collect()
}

/// Writes that are all accepted; none where the board has nothing to write to.
fn accepted_writes(numbers: &mut Numbers, board: &Bench, tries: u32) -> Vec<Vec<u8>> {
    (0..tries)
        .map(|_| random_write(numbers, board))
        .filter(|datagram| is_accepted(board, datagram))
        .collect()
}

#[test]
fn the_effect_of_a_list_is_what_the_board_does() {
    let mut numbers = Numbers(0x9E37_79B9_7F4A_7C15);
    let (mut accepted, mut plain, mut others, mut none_at_all) = (0, 0, 0, 0);
    for round in 0..400 {
        let board = random_board(&mut numbers, [1, 4, 16, 100][round % 4]);
        let list = random_list(&mut numbers, &board, 12);
        let effect = assert_is_what_the_board_does(&board, &list);
        for datagram in &list {
            let written = is_accepted(&board, datagram);
            accepted += u32::from(written);
            plain += u32::from(written && datagram[1] < 0x08);
            others += u32::from(!written);
        }
        none_at_all += u32::from(effect == none(&board));
        // Data are zero outside the mask.
        assert!(effect.pairs().iter().all(|(mask, data)| data & !mask == 0));
    }
    let seen = [accepted, plain, others, none_at_all];
    assert!(seen.iter().all(|&count| count > 50), "{seen:?}");
    assert!(accepted - plain > 500, "{seen:?}");
}

#[test]
fn what_is_accepted_does_not_depend_on_memory_or_lock() {
    let mut numbers = Numbers(0xD1B5_4A32_D192_ED03);
    for _ in 0..300 {
        let board = random_board(&mut numbers, 8);
        let list = random_list(&mut numbers, &board, 6);
        let accepted: Vec<_> = list.iter().map(|it| is_accepted(&board, it)).collect();
        for memory in memories(&mut numbers, board.memory.len()) {
            let mut board = board.clone();
            board.lock = [numbers.byte(); 6];
            board.flash = numbers.bytes(16);
            let (answers, _) = answers(&board, &memory, &list);
            let written: Vec<_> = answers
                .iter()
                .map(|(answer, _)| matches!(answer, Answer::Written { .. }))
                .collect();
            assert_eq!(written, accepted);
        }
    }
}

#[test]
fn the_effects_of_two_lists_put_together_are_those_of_the_joined_list() {
    let mut numbers = Numbers(0x2545_F491_4F6C_DD1D);
    for _ in 0..150 {
        let board = random_board(&mut numbers, 12);
        let list = random_list(&mut numbers, &board, 8);
        let whole = effect_of_list(&board, &list);
        for cut in 0..=list.len() {
            let (one, other) = list.split_at(cut);
            let (one, other) = (effect_of_list(&board, one), effect_of_list(&board, other));
            let joined = one.then(&other);
            assert_eq!(joined, whole);
            // Byte by byte it is what the pairs give.
            let pairs: Vec<_> = one.pairs().into_iter().zip(other.pairs()).collect();
            let together: Vec<_> = pairs.iter().map(|&(a, b)| put_together(a, b)).collect();
            assert_eq!(together, joined.pairs());
        }
        // From the end on, as well as from the start.
        let backwards = list.iter().rev().fold(none(&board), |so_far, datagram| {
            effect(&board, datagram).then(&so_far)
        });
        assert_eq!(backwards, whole);
    }
}

#[test]
fn effects_group_as_one_pleases_and_nothing_is_their_unit() {
    let mut numbers = Numbers(0x1405_7B7E_F767_814F);
    let mut unequal = 0;
    for _ in 0..300 {
        let board = random_board(&mut numbers, 6);
        let mut list = || {
            let list = random_list(&mut numbers, &board, 4);
            effect_of_list(&board, &list)
        };
        let (one, two, three) = (list(), list(), list());
        assert_eq!(one.then(&two).then(&three), one.then(&two.then(&three)),);
        let none = none(&board);
        for effect in [&one, &two, &three] {
            assert_eq!(none.then(effect), *effect);
            assert_eq!(effect.then(&none), *effect);
            assert_eq!(effect.then(effect), *effect);
            assert!(!none.shares_a_bit_with(effect));
            assert!(!effect.shares_a_bit_with(&none));
        }
        unequal += u32::from(one.then(&two) != two.then(&one));
    }
    // The order matters elsewhere: this is no sum.
    assert!(unequal > 30, "{unequal}");
}

/// The number of the space that a write names.
fn space_of(write: &[u8]) -> u8 {
    match write[1] & 0x03 {
        0 => write[6],
        control_bits => 0xFC + control_bits,
    }
}

#[test]
fn writes_that_share_no_bit_in_both_orders() {
    let mut numbers = Numbers(0x6A09_E667_F3BC_C909);
    let (mut apart, mut on_one_byte, mut by_two_spaces, mut shared) = (0, 0, 0, 0);
    for round in 0..1_500 {
        let board = random_board(&mut numbers, [1, 2, 6, 40][round % 4]);
        let writes = accepted_writes(&mut numbers, &board, 4);
        let [first, second, ..] = &writes[..] else {
            continue;
        };
        let (one, two) = (effect(&board, first), effect(&board, second));
        let pairs: Vec<_> = one.pairs().into_iter().zip(two.pairs()).collect();
        let share = pairs.iter().any(|(one, two)| one.0 & two.0 != 0);
        assert_eq!(one.shares_a_bit_with(&two), share);
        assert_eq!(two.shares_a_bit_with(&one), share);
        if share {
            shared += 1;
            continue;
        }
        assert_eq!(one.then(&two), two.then(&one));
        for memory in memories(&mut numbers, board.memory.len()) {
            let order = [first.clone(), second.clone()];
            let (mut answers_there, memory_there) = answers(&board, &memory, &order);
            let order = [second.clone(), first.clone()];
            let (answers_back, memory_back) = answers(&board, &memory, &order);
            assert_eq!(memory_there, memory_back);
            answers_there.reverse();
            assert_eq!(answers_there, answers_back);
        }
        apart += 1;
        let both = pairs.iter().any(|(one, two)| one.0 != 0 && two.0 != 0);
        on_one_byte += u32::from(both);
        by_two_spaces += u32::from(both && space_of(first) != space_of(second));
    }
    let seen = [apart, on_one_byte, by_two_spaces, shared];
    assert!(seen.iter().all(|&count| count > 50), "{seen:?}");
}

/// Two lists of accepted writes that share no bit: what would share one is left out.
fn lists_apart(numbers: &mut Numbers, board: &Bench) -> [Vec<Vec<u8>>; 2] {
    let mut lists = [Vec::new(), Vec::new()];
    for datagram in accepted_writes(numbers, board, 16) {
        let own = numbers.below(2) as usize;
        let other = effect_of_list(board, &lists[1 - own]);
        if !effect(board, &datagram).shares_a_bit_with(&other) {
            lists[own].push(datagram);
        }
    }
    lists
}

/// The two lists as one, each in its own order, and for each datagram its place in the one list
/// behind the other.
fn interleaved(numbers: &mut Numbers, lists: &[Vec<Vec<u8>>; 2]) -> (Vec<Vec<u8>>, Vec<usize>) {
    let [one, other] = lists;
    let (mut list, mut places) = (Vec::new(), Vec::new());
    let (mut from_one, mut from_other) = (0, 0);
    while from_one + from_other < one.len() + other.len() {
        let left = (one.len() - from_one, other.len() - from_other);
        if left.1 == 0 || (left.0 > 0 && numbers.below(2) == 0) {
            list.push(one[from_one].clone());
            places.push(from_one);
            from_one += 1;
        } else {
            list.push(other[from_other].clone());
            places.push(one.len() + from_other);
            from_other += 1;
        }
    }
    (list, places)
}

#[test]
fn lists_that_share_no_bit_interleaved() {
    let mut numbers = Numbers(0xBB67_AE85_84CA_A73B);
    let mut long_ones = 0;
    for _ in 0..150 {
        let board = random_board(&mut numbers, 5);
        let lists = lists_apart(&mut numbers, &board);
        long_ones += u32::from(lists.iter().all(|list| list.len() >= 2));
        let behind = lists.concat();
        let whole = effect_of_list(&board, &behind);
        for _ in 0..3 {
            let (mixed, places) = interleaved(&mut numbers, &lists);
            assert_eq!(effect_of_list(&board, &mixed), whole);
            for memory in memories(&mut numbers, board.memory.len()) {
                let (expected, memory_behind) = answers(&board, &memory, &behind);
                let (found, memory_mixed) = answers(&board, &memory, &mixed);
                assert_eq!(memory_mixed, memory_behind);
                for (found, place) in found.iter().zip(&places) {
                    assert_eq!(*found, expected[*place]);
                }
            }
        }
    }
    assert!(long_ones > 40, "{long_ones}");
}

// One effect for what is done.

#[test]
fn every_effect_on_a_byte_is_known_by_what_it_does_to_00_and_ff() {
    let mut board = Bench::with_spaces(&[space(0x00, 0, 0, 0)]);
    board.memory = vec![0];
    let mut seen = HashMap::new();
    for mask in 0..=255u8 {
        // All data that differ within the mask.
        for data in (0..=255u8).filter(|data| data & !mask == 0) {
            let datagram = [hex("20080000000000"), vec![mask, data]].concat();
            let effect = effect(&board, &datagram);
            assert_eq!(effect.pairs(), [(mask, data)]);
            let done = (applied(&effect, &[0x00]), applied(&effect, &[0xFF]));
            assert_eq!(done, (vec![data], vec![data | !mask]));
            assert_eq!(seen.insert(done, effect), None);
        }
    }
    // Three things for each of eight bits.
    assert_eq!(seen.len(), 6_561);
}

#[test]
fn effects_that_differ_differ_on_all_zeros_or_all_ones() {
    let mut numbers = Numbers(0x3C6E_F372_FE94_F82B);
    let (mut equal, mut unequal) = (0, 0);
    for _ in 0..600 {
        let board = random_board(&mut numbers, 3);
        let mut list = || random_list(&mut numbers, &board, 3);
        let (one, other) = (list(), list());
        let (one, other) = (effect_of_list(&board, &one), effect_of_list(&board, &other));
        let same_on = |fill: u8| {
            let memory = vec![fill; board.memory.len()];
            applied(&one, &memory) == applied(&other, &memory)
        };
        assert_eq!(one == other, same_on(0x00) && same_on(0xFF));
        assert_eq!(one == other, one.pairs() == other.pairs());
        equal += u32::from(one == other);
        unequal += u32::from(one != other);
    }
    assert!(equal > 30 && unequal > 300, "{equal} {unequal}");
}

#[test]
#[should_panic(expected = "one length of memory")]
fn effects_on_memories_of_different_length_are_not_put_together() {
    let _ = Effect::none(3).then(&Effect::none(4));
}

#[test]
#[should_panic(expected = "one length of memory")]
fn an_effect_is_not_done_to_a_memory_of_another_length() {
    Effect::none(3).apply(&mut [0; 4]);
}

#[test]
#[should_panic(expected = "one length of memory")]
fn effects_on_memories_of_different_length_are_not_compared_by_bits() {
    let _ = Effect::none(4).shares_a_bit_with(&Effect::none(3));
}

// Pairs put together.

/// What a pair does to a byte, by the words of document 01.
fn under_mask((mask, data): (u8, u8), byte: u8) -> u8 {
    (byte & !mask) | (data & mask)
}

#[test]
fn pairs_put_together_by_hand() {
    assert_eq!(put_together((0x01, 0x01), (0x10, 0x00)), (0x11, 0x01));
    assert_eq!(put_together((0x3C, 0x3C), (0xF0, 0xA0)), (0xFC, 0xAC));
    assert_eq!(put_together((0xF0, 0xA0), (0x3C, 0x3C)), (0xFC, 0xBC));
    assert_eq!(put_together((0xFF, 0xC3), (0x00, 0xFF)), (0xFF, 0xC3));
    assert_eq!(put_together((0x00, 0xFF), (0x00, 0xFF)), (0x00, 0x00));
    assert_eq!(put_together((0x0F, 0xFF), (0x0F, 0xF0)), (0x0F, 0x00));
    assert_eq!(put_together((0x80, 0x7F), (0x01, 0xFE)), (0x81, 0x00));
}

#[test]
fn pairs_put_together_for_every_two_masks() {
    let mut numbers = Numbers(0xA54F_F53A_5F1D_36F1);
    for earlier_mask in 0..=255 {
        for later_mask in 0..=255 {
            let earlier = (earlier_mask, numbers.byte());
            let later = (later_mask, numbers.byte());
            let (mask, data) = put_together(earlier, later);
            assert_eq!(mask, earlier_mask | later_mask);
            assert_eq!(data & !mask, 0);
            for byte in 0..=255 {
                let expected = under_mask(later, under_mask(earlier, byte));
                if under_mask((mask, data), byte) != expected {
                    panic!("{earlier:02X?} and then {later:02X?} to {byte:02X}");
                }
            }
        }
    }
}

#[test]
fn pairs_put_together_for_all_data_within_and_outside_the_masks() {
    let masks = [0x00, 0xFF, 0x01, 0x80, 0x0F, 0x3C, 0xA5];
    let some_data = [0x00, 0xFF, 0x55, 0xAA, 0x0F, 0xC3];
    for earlier_mask in masks {
        for later_mask in masks {
            for earlier_data in 0..=255 {
                for later_data in some_data {
                    let (earlier, later) = ((earlier_mask, earlier_data), (later_mask, later_data));
                    let together = put_together(earlier, later);
                    let done = |byte| under_mask(later, under_mask(earlier, byte));
                    // These two bytes tell all data of a mask apart.
                    assert_eq!(under_mask(together, 0x00), done(0x00));
                    assert_eq!(under_mask(together, 0xFF), done(0xFF));
                    assert_eq!(together.1 & !together.0, 0);
                }
            }
        }
    }
}

#[test]
fn pairs_group_as_one_pleases_and_mask_zero_is_their_unit() {
    let mut numbers = Numbers(0x510E_527F_ADE6_82D1);
    for _ in 0..5_000 {
        let mut pair = || (random_mask(&mut numbers), numbers.byte());
        let (one, two, three) = (pair(), pair(), pair());
        assert_eq!(
            put_together(put_together(one, two), three),
            put_together(one, put_together(two, three))
        );
        let alone = (one.0, one.1 & one.0);
        assert_eq!(put_together(one, (0x00, two.1)), alone);
        assert_eq!(put_together((0x00, two.1), one), alone);
        assert_eq!(put_together(one, one), alone);
    }
}
