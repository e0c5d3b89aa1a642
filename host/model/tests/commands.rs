//! Holds the tests of whole datagrams: document 01's cases, its wrong readings, and boundaries.

mod common;

use common::{hex, in_flash, read_only, space, Bench, FILL};
use model::{Answer, Space};

fn fresh(datagram: &str) -> String {
    Bench::demo().say(datagram)
}

fn zeros(count: usize) -> String {
    "00".repeat(count)
}

#[test]
fn the_cases_of_document_01() {
    assert_eq!(fresh(""), "rejected 1080");
    assert_eq!(fresh("20"), "rejected 1080");
    assert_eq!(fresh("21"), "rejected 1042");
    assert_eq!(fresh("2044"), "rejected 1041");
    assert_eq!(fresh("20410000001F40"), "20510000001F00");
    assert_eq!(fresh("20410000002001"), "2059000000201082");
    assert_eq!(
        fresh("204300000000C0"),
        format!("2053000000003C6364692F3E{}", zeros(10))
    );
    assert_eq!(fresh("20430000000080"), "rejected 1080");
    assert_eq!(fresh("20430000000041"), "rejected 1080");
    assert_eq!(fresh("20010000001F1122"), "20190000001F1082");
    assert_eq!(fresh("20030000002001"), "201B000000201083");
    assert_eq!(fresh("2009000000000F"), "rejected 1080");
    assert_eq!(fresh("208410"), "2087100000010F0200000100");
    assert_eq!(fresh("208411"), "2086110000000000");
}

#[test]
fn count_zero_is_refused_and_never_means_all() {
    assert_eq!(fresh("20410000000000"), "rejected 1080");
    assert_eq!(fresh("2040000000001000"), "rejected 1080");
    assert_eq!(fresh("20410000000080"), "rejected 1080");
}

#[test]
fn the_byte_after_the_address_of_a_write_to_fd_is_data() {
    let mut board = Bench::demo();
    assert_eq!(board.say("20010000000310"), "written 3+1");
    let mut expected = vec![0; 48];
    expected[3] = 0x10;
    assert_eq!(board.memory, expected);
}

#[test]
fn a_write_past_the_end_stores_nothing() {
    let mut board = Bench::demo();
    assert_eq!(board.say("20010000001E112233"), "20190000001E1082");
    assert_eq!(board.memory, vec![0; 48]);
    assert_eq!(board.say("20090000001FFF11FF22"), "20190000001F1082");
    assert_eq!(board.memory, vec![0; 48]);
    assert_eq!(board.say("20010000001E1122"), "written 30+2");
    assert_eq!(board.memory[0x1E..0x21], [0x11, 0x22, 0]);
}

#[test]
fn a_mask_of_zero_keeps_the_byte() {
    let mut board = Bench::demo();
    board.memory.fill(0x3C);
    assert_eq!(board.say("20090000000400FF 0F55 FFAA F00F"), "written 4+4");
    assert_eq!(board.memory[3..9], [0x3C, 0x3C, 0x35, 0xAA, 0x0C, 0x3C]);
}

#[test]
fn a_write_says_where_in_memory_it_wrote() {
    // 0x10 of the demonstration board: addresses 0x100 to 0x10F are memory 32 to 47.
    let mut board = Bench::demo();
    assert_eq!(board.say("2000000001001011"), "written 32+1");
    assert_eq!(board.say("20000000010C1011223344"), "written 44+4");
    // As many bytes as pairs, also where no mask takes a bit of them.
    assert_eq!(board.say("2008000001021000FF00FF00FF"), "written 34+3");
    assert_eq!(board.say("20080000010F10FF11"), "written 47+1");
    assert_eq!(board.say("20020000002F11"), "written 47+1");
    // The same bytes through two spaces: one index.
    let spaces = [
        space(0xFD, 0x80, 0x8F, 3),
        space(0x01, 0xFFFF_FFF8, 0xFFFF_FFFF, 5),
    ];
    let mut board = Bench::with_spaces(&spaces);
    assert_eq!(board.say("20010000008455"), "written 7+1");
    assert_eq!(board.say("2000FFFFFFFA0166"), "written 7+1");
    assert_eq!(board.say("2009000000840F0A"), "written 7+1");
    assert_eq!(board.memory[7], 0x6A);
}

#[test]
fn the_three_spaces_left_out_are_known_and_empty() {
    let mut board = Bench::with_spaces(&[]);
    for low in ["1", "2", "3"] {
        assert_eq!(
            board.say(&format!("204{low}0000000001")),
            format!("205{:X}000000001082", 8 + low.parse::<u8>().unwrap())
        );
    }
    assert_eq!(board.say("20010000000011"), "2019000000001082");
    assert_eq!(board.say("20020000000011"), "201A000000001082");
    assert_eq!(board.say("20030000000011"), "201B000000001083");
    assert_eq!(board.say("200900000000FF11"), "2019000000001082");
    assert_eq!(board.say("200A00000000FF11"), "201A000000001082");
    assert_eq!(board.say("200B00000000FF11"), "201B000000001083");
    // The same by byte 6.
    assert_eq!(board.say("204000000000FD01"), "205800000000FD1082");
    assert_eq!(board.say("204000000000FF01"), "205800000000FF1082");
    assert_eq!(board.say("200000000000FD01"), "201800000000FD1082");
    assert_eq!(board.say("200000000000FE01"), "201800000000FE1082");
    assert_eq!(board.say("200000000000FF01"), "201800000000FF1083");
    // 0xFC is not one of them.
    assert_eq!(board.say("204000000000FC01"), "205800000000FC1081");
    assert_eq!(board.say("200000000000FC01"), "201800000000FC1081");
    assert_eq!(board.say("200800000000FCFF01"), "201800000000FC1081");
    // Not described, so not present.
    assert_eq!(board.say("2084FD"), "2086FD0000000000");
    assert_eq!(board.say("2084FF"), "2086FF0000000000");
}

#[test]
fn read_counts() {
    let mut board = Bench::with_spaces(&[space(0xFD, 0, 0xFF, 0)]);
    board.memory = (0..=255).collect();
    for count in 0..=255u8 {
        let wanted = usize::from(count & 0x7F);
        let answer = board.say(&format!("204100000010{count:02X}"));
        if (1..=64).contains(&wanted) {
            let bytes: String = (16..16 + wanted)
                .map(|byte| format!("{byte:02X}"))
                .collect();
            assert_eq!(answer, format!("205100000010{bytes}"));
        } else {
            assert_eq!(answer, "rejected 1080");
        }
    }
    assert_eq!(board.say("204100000000C1"), "rejected 1080");
}

#[test]
fn the_longest_reply_is_a_read_of_64_bytes_with_a_space_byte() {
    let mut board = Bench::with_spaces(&[space(0x10, 0, 0xFF, 0)]);
    board.memory = vec![7; 256];
    board.reply = vec![FILL; 72];
    let answer = board.say("2040000000001040");
    assert_eq!(answer.len(), 2 * 71);
    assert_eq!(answer, format!("20500000000010{}", "07".repeat(64)));
    assert_eq!(board.reply[71], FILL);
}

#[test]
fn lengths_of_reads() {
    assert_eq!(fresh("2041"), "rejected 1080");
    assert_eq!(fresh("204100000000"), "rejected 1080");
    assert_eq!(fresh("2041000000000101"), "rejected 1080");
    assert_eq!(fresh("2040"), "rejected 1080");
    assert_eq!(fresh("204000000100"), "rejected 1080");
    assert_eq!(fresh("20400000010010"), "rejected 1080");
    assert_eq!(fresh("2040000001001001"), "2050000001001000");
    assert_eq!(fresh("204000000100100101"), "rejected 1080");
    // The length comes before the space.
    assert_eq!(fresh("20400000010011"), "rejected 1080");
    assert_eq!(fresh("2040000001001100"), "rejected 1080");
    assert_eq!(fresh("2040000001001101"), "205800000100111081");
}

#[test]
fn lengths_of_writes() {
    let mut board = Bench::with_spaces(&[space(0xFD, 0, 0xFF, 0), space(0x10, 0, 0xFF, 0)]);
    board.memory = vec![0; 256];
    assert_eq!(board.say("200100000000"), "rejected 1080");
    assert_eq!(board.say("20010000"), "rejected 1080");
    assert_eq!(board.say("20000000000010"), "rejected 1080");
    assert_eq!(board.say("200000000000"), "rejected 1080");
    assert_eq!(
        board.say(&format!("200100000000{}", "11".repeat(65))),
        "rejected 1080"
    );
    assert_eq!(
        board.say(&format!("200100000000{}", "11".repeat(66))),
        "rejected 1080"
    );
    assert_eq!(
        board.say(&format!("20000000000010{}", "11".repeat(65))),
        "rejected 1080"
    );
    assert_eq!(board.memory, vec![0; 256]);
    assert_eq!(
        board.say(&format!("200100000000{}", "11".repeat(64))),
        "written 0+64"
    );
    assert_eq!(
        board.say(&format!("20000000004010{}", "22".repeat(64))),
        "written 64+64"
    );
    let expected = [vec![0x11; 64], vec![0x22; 64], vec![0; 128]].concat();
    assert_eq!(board.memory, expected);
}

#[test]
fn lengths_of_masked_writes() {
    let mut board = Bench::with_spaces(&[space(0xFD, 0, 0xFF, 0), space(0x10, 0, 0xFF, 0)]);
    board.memory = vec![0; 256];
    assert_eq!(board.say("200900000000"), "rejected 1080");
    assert_eq!(board.say("200900000000FF"), "rejected 1080");
    assert_eq!(board.say("200900000000FF11FF"), "rejected 1080");
    assert_eq!(board.say("20080000000010"), "rejected 1080");
    assert_eq!(board.say("20080000000010FF"), "rejected 1080");
    assert_eq!(
        board.say(&format!("200900000000{}", "FF11".repeat(33))),
        "rejected 1080"
    );
    assert_eq!(
        board.say(&format!("20080000000010{}FF", "FF11".repeat(32))),
        "rejected 1080"
    );
    assert_eq!(board.memory, vec![0; 256]);
    assert_eq!(
        board.say(&format!("200900000000{}", "FF11".repeat(32))),
        "written 0+32"
    );
    assert_eq!(
        board.say(&format!("20080000002010{}", "FF22".repeat(32))),
        "written 32+32"
    );
    let expected = [vec![0x11; 32], vec![0x22; 32], vec![0; 192]].concat();
    assert_eq!(board.memory, expected);
}

#[test]
fn seventy_two_and_seventy_three_bytes() {
    let write = |length: usize| format!("200100000000{}", "11".repeat(length - 6));
    // 72 bytes: a wrong length of a write; and an unknown command is found first.
    assert_eq!(fresh(&write(72)), "rejected 1080");
    assert_eq!(fresh(&format!("2044{}", zeros(70))), "rejected 1041");
    assert_eq!(fresh(&format!("21{}", zeros(71))), "rejected 1042");
    // 73 bytes: the length is found before anything else.
    assert_eq!(fresh(&write(73)), "rejected 1080");
    assert_eq!(fresh(&format!("2044{}", zeros(71))), "rejected 1080");
    assert_eq!(fresh(&format!("21{}", zeros(72))), "rejected 1080");
    assert_eq!(fresh(&format!("21{}", zeros(1000))), "rejected 1080");
}

#[test]
fn the_order_of_the_refusals_that_are_sent() {
    assert_eq!(fresh("00"), "rejected 1042");
    assert_eq!(fresh("2180"), "rejected 1042");
    assert_eq!(fresh("A041"), "rejected 1042");
    assert_eq!(fresh("20FF"), "rejected 1041");
    assert_eq!(fresh("2004000000000001"), "rejected 1041");
}

#[test]
fn every_command_that_is_not_listed_is_unknown() {
    let known = [
        0x00u8, 0x01, 0x02, 0x03, 0x08, 0x09, 0x0A, 0x0B, 0x40, 0x41, 0x42, 0x43, 0x80, 0x84, 0x88,
        0xA8,
    ];
    for command in 0..=255u8 {
        for tail in ["", "00", "000000000001", "00000000000000000001"] {
            let answer = fresh(&format!("20{command:02X}{tail}"));
            assert_eq!(
                answer == "rejected 1041",
                !known.contains(&command),
                "{command:02X} {tail}"
            );
        }
    }
}

#[test]
fn the_order_of_the_codes_in_a_failure_reply() {
    let spaces = [
        read_only(space(0x20, 0x10, 0x1F, 0)),
        space(0x21, 0x10, 0x1F, 0),
    ];
    let mut board = Bench::with_spaces(&spaces);
    // Unknown before outside.
    assert_eq!(board.say("20000000000022AA"), "201800000000221081");
    // Read-only before outside.
    assert_eq!(board.say("20000000000020AA"), "201800000000201083");
    assert_eq!(board.say("20000000001020AA"), "201800000010201083");
    assert_eq!(board.say("20080000001020FFAA"), "201800000010201083");
    assert_eq!(board.say("20000000000021AA"), "201800000000211082");
    // A read-only space may be read.
    assert_eq!(board.say("2040000000102001"), "2050000000102000");
    assert_eq!(board.say("2040000000002001"), "205800000000201082");
}

#[test]
fn below_at_and_past_the_ends_of_a_space() {
    let mut board = Bench::demo();
    board.memory = (0..48).collect();
    assert_eq!(board.say("2040000000FF1001"), "2058000000FF101082");
    assert_eq!(board.say("2040000001001002"), "205000000100102021");
    assert_eq!(board.say("20400000010F1040"), "20500000010F102F");
    assert_eq!(board.say("2040000001101001"), "205800000110101082");
    assert_eq!(board.say("2000000000FF10AABB"), "2018000000FF101082");
    assert_eq!(board.say("20000000010F10AABB"), "20180000010F101082");
    assert_eq!(board.say("20000000010F10AA"), "written 47+1");
    assert_eq!(board.memory[47], 0xAA);
    assert_eq!(board.say("20000000011010AA"), "201800000110101082");
}

#[test]
fn the_last_of_all_addresses() {
    let mut board = Bench::with_spaces(&[
        space(0x30, 0xFFFF_FFF0, 0xFFFF_FFFF, 16),
        space(0xFD, 0, 0x0F, 0),
    ]);
    board.memory = (0..48).collect();
    assert_eq!(board.say("2040FFFFFFFF3040"), "2050FFFFFFFF301F");
    assert_eq!(board.say("2040FFFFFFEF3040"), "2058FFFFFFEF301082");
    assert_eq!(board.say("2000FFFFFFFF30AABB"), "2018FFFFFFFF301082");
    assert_eq!(board.say("2008FFFFFFFF30FFAAFFBB"), "2018FFFFFFFF301082");
    assert_eq!(board.memory[0], 0);
    assert_eq!(board.say("2000FFFFFFFF30AA"), "written 31+1");
    assert_eq!(board.say("2000FFFFFFFE30BBCC"), "written 30+2");
    assert_eq!(board.memory[30..32], [0xBB, 0xCC]);
    assert_eq!(board.say("2041FFFFFFFF01"), "2059FFFFFFFF1082");
    assert_eq!(board.say("2001FFFFFFFF0102"), "2019FFFFFFFF1082");
    assert_eq!(board.say("208430"), "208730FFFFFFFF02FFFFFFF0");
}

#[test]
fn one_space_by_low_bits_and_by_byte_6() {
    let mut board = Bench::demo();
    assert_eq!(board.say("200200000005AB"), "written 5+1");
    assert_eq!(board.say("20420000000501"), "205200000005AB");
    assert_eq!(board.say("204000000005FE01"), "205000000005FEAB");
    assert_eq!(board.say("200000000005FECD"), "written 5+1");
    assert_eq!(board.say("20420000000501"), "205200000005CD");
    assert_eq!(board.say("200000000000FF01"), "201800000000FF1083");
}

#[test]
fn overlapping_windows() {
    // The same bytes, read-only through 0xFF and 0x01 and writable through 0x02.
    let spaces = [
        read_only(space(0xFF, 0, 7, 4)),
        read_only(space(0x01, 0x1000, 0x100F, 0)),
        space(0x02, 0x20, 0x2F, 2),
    ];
    let mut board = Bench::with_spaces(&spaces);
    assert_eq!(board.say("20030000000011"), "201B000000001083");
    assert_eq!(board.say("2000000010000111"), "201800001000011083");
    assert_eq!(board.say("20000000002202AABB"), "written 4+2");
    assert_eq!(board.say("20430000000002"), "205300000000AABB");
    assert_eq!(board.say("2040000010040102"), "20500000100401AABB");
    assert_eq!(board.say("2040000000200240").len(), 2 * 23);
}

#[test]
fn spaces_in_flash() {
    let mut board = Bench::with_spaces(&[in_flash(space(0xFD, 0, 3, 2)), space(0xFE, 0, 3, 2)]);
    assert_eq!(board.say("20410000000040"), "20510000000064692F3E");
    assert_eq!(board.say("20420000000040"), "20520000000000000000");
    assert_eq!(board.say("20010000000011"), "2019000000001083");
    assert_eq!(board.say("2084FD"), "2087FD0000000301");
}

#[test]
fn empty_flash_and_memory() {
    let mut board = Bench::with_spaces(&[]);
    board.flash.clear();
    board.memory.clear();
    assert_eq!(board.say("20410000000001"), "2059000000001082");
    assert_eq!(board.say("2080"), "2082E000F2FFFD");
    assert_eq!(board.say("20A8"), "update complete");
    let mut board = Bench::with_spaces(&[in_flash(space(0xFF, 0, 15, 0))]);
    board.memory.clear();
    assert_eq!(board.say("20430000000001"), "2053000000003C");
}

#[test]
fn whole_memory_of_65536_bytes() {
    let mut board = Bench::with_spaces(&[space(0xFD, 0, 0xFFFF, 0)]);
    board.memory = vec![0; 65_536];
    assert_eq!(board.say("20010000FFFF77"), "written 65535+1");
    assert_eq!(board.memory[65_535], 0x77);
    assert_eq!(board.say("20410000FFFF02"), "20510000FFFF77");
    assert_eq!(board.say("20410001000001"), "2059000100001082");
}

#[test]
fn configuration_options() {
    assert_eq!(fresh("2080"), "2082E000F2FF10");
    assert_eq!(fresh("208000"), "rejected 1080");
    assert_eq!(Bench::with_spaces(&[]).say("2080"), "2082E000F2FFFD");
    let mut only_ff = Bench::with_spaces(&[in_flash(space(0xFF, 0, 0, 0))]);
    only_ff.write_lengths = 0;
    assert_eq!(only_ff.say("2080"), "2082E00000FFFD");
    let mut from_zero = Bench::with_spaces(&[space(0xFC, 0, 0, 0), space(0x00, 0, 0, 0)]);
    assert_eq!(from_zero.say("2080"), "2082E000F2FF00");
    assert_eq!(
        Bench::with_spaces(&[space(0xFC, 0, 0, 0)]).say("2080"),
        "2082E000F2FFFC"
    );
}

#[test]
fn space_information() {
    assert_eq!(fresh("2084FD"), "2087FD0000001F00");
    assert_eq!(fresh("2084FE"), "2087FE0000002F00");
    assert_eq!(fresh("2084FF"), "2087FF0000000F01");
    assert_eq!(fresh("2084"), "rejected 1080");
    assert_eq!(fresh("2084FD00"), "rejected 1080");
    let spaces = [read_only(space(0x07, 1, 2, 0))];
    assert_eq!(
        Bench::with_spaces(&spaces).say("208407"),
        "208707000000020300000001"
    );
}

#[test]
fn the_lock() {
    let mut board = Bench::demo();
    assert_eq!(board.say("2088000000000000"), "208A000000000000");
    assert_eq!(board.say("2088010203040506"), "208A010203040506");
    assert_eq!(board.lock, [1, 2, 3, 4, 5, 6]);
    assert_eq!(board.say("2088090909090909"), "208A010203040506");
    // The lock changes nothing else.
    assert_eq!(board.say("20010000000011"), "written 0+1");
    assert_eq!(board.say("20410000000001"), "20510000000011");
    assert_eq!(board.say("2088000000000000"), "208A000000000000");
    assert_eq!(board.lock, [0; 6]);
    assert_eq!(board.say("2088000000000001"), "208A000000000001");
    assert_eq!(board.say("2088010000000000"), "208A000000000001");
    for wrong in ["2088", "20880102030405", "208801020304050607"] {
        assert_eq!(board.say(wrong), "rejected 1080");
    }
    assert_eq!(board.lock, [0, 0, 0, 0, 0, 1]);
}

#[test]
fn update_complete() {
    assert_eq!(fresh("20A8"), "update complete");
    assert_eq!(fresh("20A800"), "rejected 1080");
}

#[test]
fn sixteen_spaces_each_found_by_its_number() {
    let spaces: Vec<Space> = (0..16u8)
        .map(|n| space(n * 3, 0, 0, u32::from(n)))
        .collect();
    let mut board = Bench::with_spaces(&spaces);
    board.memory = (0..48).collect();
    for n in 0..16u8 {
        let number = n * 3;
        assert_eq!(
            board.say(&format!("204000000000{number:02X}01")),
            format!("205000000000{number:02X}{n:02X}")
        );
        assert_eq!(
            board.say(&format!("204000000000{:02X}01", number + 1)),
            format!("205800000000{:02X}1081", number + 1)
        );
    }
}

#[test]
fn answers_are_the_same_in_a_longer_buffer() {
    let mut short = Bench::demo();
    let mut long = Bench::demo();
    short.reply = vec![FILL; 72];
    long.reply = vec![FILL; 500];
    let read = hex("204300000000C0");
    assert_eq!(short.datagram(&read), Ok(Answer::Replied(22)));
    assert_eq!(long.datagram(&read), Ok(Answer::Replied(22)));
    assert_eq!(short.reply, long.reply[..72]);
    assert!(long.reply[22..].iter().all(|&byte| byte == FILL));
}
