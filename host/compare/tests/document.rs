//! Holds what document 01 says of the demonstration board, asked of the library through its C
//! edge: the session, and the whole datagrams; what change request C-11 says of a board that is
//! refused; what C-14 says of ticks; and what C-15 says of a broken datagram.

use compare::demonstration::{Demonstration, ALIAS, FLASH, MEMORY_LEN, TABLE, WRITE_LENGTHS};
use compare::ffi::{self, Carry, NO_POSITION, PLACES, PLACES_SIZE, PLACE_SIZE, SPACE_SIZE};
use compare::layout::{held, place, set_place};
use compare::layout::{line_in, numbers_in, parsed_in};

/// The reply to a whole datagram, or the code of its rejection.
fn answer(board: &mut Demonstration, datagram: &[u8]) -> Vec<u8> {
    let numbers = board.datagram(datagram);
    assert_eq!((numbers.frame_count, numbers.position), (0, NO_POSITION));
    match numbers.kind {
        4 => numbers.code.to_be_bytes().to_vec(),
        6 => board.reply()[..usize::from(numbers.reply_len)].to_vec(),
        other => panic!("kind {other}"),
    }
}

#[test]
fn the_session() {
    let input = "\
:X1A22B123N200100000002ABCD;
:X1B22B123N200800000002FD0F;
:X1A22B456N20410000000202;
:X1D22B123N5A;
:X1A22B456N20410000000202;
:X1A22B123N20030000000001;
:X1A300123N2080;
nothing
";
    let expected = "\
:X19A2822BN012300;
:X19A2822BN045680;
:X1A45622BN205100000002ABCD;
:X19A2822BN012300;
:X19A2822BN045680;
:X1A45622BN205100000002AACD;
:X19A2822BN012380;
:X1A12322BN201B000000001083;
?
";
    let mut board = Demonstration::new();
    let mut out = Vec::new();
    for line in input.lines() {
        let mut parsed = [0xEE; ffi::PARSED_SIZE];
        ffi::parse_line(line.as_bytes(), &mut parsed);
        board.line(parsed_in(&parsed), &mut out);
    }
    assert_eq!(String::from_utf8_lossy(&out), expected);
    assert_eq!(
        String::from_utf8_lossy(&model::session(input.as_bytes())),
        expected
    );
    for size in 1..input.len() {
        assert_eq!(in_chunks(input, size), expected, "chunks of {size}");
        assert_eq!(
            in_chunks(input.trim_end(), size),
            expected,
            "chunks of {size}"
        );
    }
}

/// What the board prints for a text that comes in chunks of this size.
fn in_chunks(text: &str, size: usize) -> String {
    let mut board = Demonstration::new();
    let (mut out, mut carry) = (Vec::new(), Carry::EMPTY);
    let mut room = [0xEE; ffi::LINE_SIZE];
    for chunk in text.as_bytes().chunks(size) {
        let mut from = 0;
        loop {
            from = ffi::next_line(chunk, from, &mut carry, &mut room);
            let line = line_in(&room);
            if !line.complete.get() {
                break;
            }
            board.line(line.parsed, &mut out);
        }
        assert_eq!(from, chunk.len());
    }
    ffi::last_line(&mut carry, &mut room);
    let last = line_in(&room);
    if last.complete.get() {
        board.line(last.parsed, &mut out);
    }
    String::from_utf8_lossy(&out).into_owned()
}

#[test]
fn whole_datagrams() {
    let cases: [(&str, &str); 16] = [
        ("", "1080"),
        ("20", "1080"),
        ("21", "1042"),
        ("2044", "1041"),
        ("20410000001F40", "20510000001F00"),
        ("20410000002001", "2059000000201082"),
        (
            "204300000000C0",
            "2053000000003C6364692F3E00000000000000000000",
        ),
        ("20430000000080", "1080"),
        ("20430000000041", "1080"),
        ("20010000001F1122", "20190000001F1082"),
        ("20030000002001", "201B000000201083"),
        ("2009000000000F", "1080"),
        ("208410", "2087100000010F0200000100"),
        ("208411", "2086110000000000"),
        ("2080", "2082E000F2FF10"),
        ("2088000000000001", "208A000000000001"),
    ];
    for (datagram, expected) in cases {
        let mut board = Demonstration::new();
        assert_eq!(
            answer(&mut board, &bytes(datagram)),
            bytes(expected),
            "{datagram}"
        );
        assert_eq!(board.memory, [0; 48], "{datagram}");
    }
}

#[test]
fn a_write_says_what_it_has_written() {
    // The datagram, the index into memory and the number of bytes, and what is there then.
    let cases: [(&str, u32, u32, &str); 4] = [
        ("200100000002ABCD", 2, 2, "ABCD"),
        ("20020000002F11", 47, 1, "11"),
        ("20000000010E101122", 46, 2, "1122"),
        ("20080000010110FF550F5A00FF", 33, 3, "550A00"),
    ];
    for (datagram, at, len, expected) in cases {
        let mut board = Demonstration::new();
        let numbers = board.datagram(&bytes(datagram));
        assert_eq!((numbers.kind, numbers.flags), (5, 0), "{datagram}");
        assert_eq!(numbers.position, NO_POSITION, "{datagram}");
        assert_eq!(
            (numbers.changed_at, numbers.changed_len),
            (at, len),
            "{datagram}"
        );
        let range = at as usize..(at + len) as usize;
        assert_eq!(board.memory[range.clone()], bytes(expected), "{datagram}");
        board.memory[range].fill(0);
        assert_eq!(board.memory, [0; 48], "{datagram}");
    }
}

#[test]
fn update_complete_is_no_write() {
    let mut board = Demonstration::new();
    let whole = board.datagram(&bytes("20A8"));
    let framed = board.frame(0x1A22_B123, &bytes("20A8"));
    for (numbers, frame_count) in [(whole, 0), (framed, 1)] {
        assert_eq!((numbers.kind, numbers.flags), (7, 0));
        assert_eq!((numbers.changed_at, numbers.changed_len), (0, 0));
        assert_eq!(numbers.frame_count, frame_count);
        assert_eq!(numbers.position, NO_POSITION);
    }
    assert_eq!(board.memory, [0; 48]);
}

/// The error's number and the position that a board with this alias, table, flash and memory is
/// refused with, in either call; the reply buffer has so many bytes.
fn refused(
    alias: u16,
    table: &[u8],
    [flash_len, memory_len]: [usize; 2],
    reply_len: usize,
) -> (u8, u8) {
    let flash = vec![0; flash_len];
    let (mut memory, mut reply, mut registers) = (vec![0; memory_len], vec![0; reply_len], [0; 6]);
    let mut results = [[0xEE; ffi::RESULT_SIZE], [0x11; ffi::RESULT_SIZE]];
    let (mut pool, mut places) = ([0; ffi::POOL_BYTES], [0; ffi::PLACES_SIZE]);
    let mut room = [0; ffi::SENT_SIZE];
    let (header, done) = (0x1A22_B123, [0x20, 0xA8]);
    ffi::handle_datagram(
        alias,
        WRITE_LENGTHS,
        table,
        &flash,
        &mut memory,
        &mut registers,
        &done,
        &mut reply,
        &mut results[0],
    );
    ffi::handle_frame(
        alias,
        WRITE_LENGTHS,
        table,
        &flash,
        &mut memory,
        &mut registers,
        &mut pool,
        &mut places,
        0,
        header,
        &done,
        &mut reply,
        &mut room,
        &mut results[1],
    );
    assert_eq!(results[0], results[1]);
    let whole = numbers_in(&results[0]);
    assert_eq!((whole.kind, whole.frame_count), (0, 0));
    (whole.error, whole.position)
}

const STORES: [usize; 2] = [FLASH.len(), MEMORY_LEN];

#[test]
fn a_refused_space_has_its_position() {
    // The index of a byte in the table and what it becomes, from the last space to the first: each
    // stands before the one that decided until then.
    let cases: [(usize, u8, (u8, u8)); 4] = [
        (3 * SPACE_SIZE, 0xFE, (5, 3)),
        (2 * SPACE_SIZE + 1, 0, (4, 2)),
        (SPACE_SIZE + 8, 0x30, (3, 1)),
        (4, 0x20, (2, 0)),
    ];
    let mut table = TABLE;
    for (index, byte, expected) in cases {
        table[index] = byte;
        assert_eq!(refused(ALIAS, &table, STORES, 72), expected);
        // A short buffer is tested later.
        assert_eq!(refused(ALIAS, &table, STORES, 71), expected);
    }
    assert_eq!(refused(ALIAS, &TABLE, STORES, 71), (6, NO_POSITION));
    // The position decides, not the number: B3 of the first space, B2 of the second.
    (table[2], table[4], table[SPACE_SIZE + 4]) = (1, 0, 0x40);
    assert_eq!(refused(ALIAS, &table, STORES, 72), (3, 0));
    // Sixteen spaces, of which only the last is bad.
    let mut full = TABLE[..SPACE_SIZE].repeat(16);
    for position in 0..15 {
        full[position * SPACE_SIZE] = position as u8;
    }
    for (number, expected) in [(14, 5), (0xFF, 4)] {
        full[15 * SPACE_SIZE] = number;
        assert_eq!(refused(ALIAS, &full, STORES, 72), (expected, 15));
    }
}

#[test]
fn a_broken_limit_has_its_number_and_no_position() {
    let mut table = TABLE.to_vec();
    for alias in [0, 4_096, 0xFFFF] {
        assert_eq!(refused(alias, &table, STORES, 72), (14, NO_POSITION));
    }
    let large = 65_537;
    let [flash, memory] = [[large, MEMORY_LEN], [FLASH.len(), large]];
    assert_eq!(refused(ALIAS, &table, flash, 72), (13, NO_POSITION));
    assert_eq!(refused(ALIAS, &table, memory, 72), (12, NO_POSITION));
    // With a bad space and a short buffer, one limit after the other from the last to the first.
    table[4] = 0x20;
    assert_eq!(refused(0, &table, STORES, 71), (14, NO_POSITION));
    assert_eq!(refused(0, &table, flash, 71), (13, NO_POSITION));
    assert_eq!(refused(0, &table, [large; 2], 71), (12, NO_POSITION));
    table.resize(17 * SPACE_SIZE, 0);
    assert_eq!(refused(0, &table, [large; 2], 71), (11, NO_POSITION));
    assert_eq!(refused(ALIAS, &table, STORES, 72), (11, NO_POSITION));
}

/// The First and the Last of a write of one byte to address 2, by this tool.
fn write_by(tool: u32) -> [(u32, Vec<u8>); 2] {
    [
        (0x1B22_B000 | tool, bytes("200100000002")),
        (0x1D22_B000 | tool, bytes("AB")),
    ]
}

/// The tools that are unfinished, and the ticks of their last accepted frames.
fn unfinished(board: &mut Demonstration) -> Vec<(u16, u16)> {
    let places = *board.places();
    (0..PLACES)
        .filter_map(|index| held(place(&places, index)))
        .map(|held| (held.source, held.tick))
        .collect()
}

#[test]
fn exactly_3000_ticks_stay() {
    let [(first, start), (last, rest)] = write_by(0x123);
    for opened in [0, 1, 3_000, 62_535, 62_536, 65_535] {
        for (ticks, kept) in [(0, true), (2_999, true), (3_000, true), (3_001, false)] {
            let now = (opened + ticks) as u16;
            let mut board = Demonstration::new();
            assert_eq!(board.frame_at(opened as u16, first, &start).kind, 2);
            let expected: &[_] = if kept { &[(0x123, opened as u16)] } else { &[] };
            // At a lone tick, at an ignored frame, and at the Last itself.
            let mut alone = board.clone();
            let numbers = alone.tick(now);
            assert_eq!((numbers.kind, numbers.position), (2, NO_POSITION));
            assert_eq!((numbers.frame_count, numbers.error), (0, 0));
            assert_eq!(unfinished(&mut alone), expected, "{opened}, {ticks}");
            let mut ignored = board.clone();
            assert_eq!(ignored.frame_at(now, 0x1C30_0123, &rest).kind, 1);
            assert_eq!(unfinished(&mut ignored), expected, "{opened}, {ticks}");
            let numbers = board.frame_at(now, last, &rest);
            let expected = if kept { (5, 0) } else { (3, 0x2040) };
            assert_eq!((numbers.kind, numbers.code), expected, "{opened}, {ticks}");
            assert_eq!(board.memory[2], if kept { 0xAB } else { 0 });
            assert_eq!(*board.places(), [0; ffi::PLACES_SIZE]);
        }
    }
}

#[test]
fn eight_that_were_unplugged_are_dropped() {
    let mut board = Demonstration::new();
    for tool in 1..=8 {
        let [(first, start), _] = write_by(tool);
        assert_eq!(board.frame_at(65_000, first, &start).kind, 2);
    }
    let [(first, start), (last, rest)] = write_by(9);
    // 3,000 ticks later the count has gone round.
    let numbers = board.frame_at(2_464, first, &start);
    assert_eq!((numbers.kind, numbers.code), (3, 0x2020));
    assert_eq!(unfinished(&mut board).len(), 8);
    assert_eq!(board.frame_at(2_465, first, &start).kind, 2);
    assert_eq!(unfinished(&mut board), [(9, 2_465)]);
    assert_eq!(board.frame_at(5_465, last, &rest).kind, 5);
    assert_eq!(board.memory[2], 0xAB);
}

#[test]
fn only_an_accepted_frame_renews() {
    let mut board = Demonstration::new();
    let [(first, start), (last, rest)] = write_by(1);
    let middle = 0x1C22_B001;
    assert_eq!(board.frame_at(10, first, &start[..4]).kind, 2);
    assert_eq!(board.frame_at(3_010, middle, &start[4..]).kind, 2);
    assert_eq!(unfinished(&mut board), [(1, 3_010)]);
    // An ignored frame of the same tool, and a refused one of another.
    assert_eq!(board.frame_at(6_000, 0x1C30_0001, &rest).kind, 1);
    assert_eq!(board.frame_at(6_010, 0x1C22_B002, &rest).kind, 3);
    assert_eq!(unfinished(&mut board), [(1, 3_010)]);
    let mut late = board.clone();
    assert_eq!(late.tick(6_011).kind, 2);
    assert_eq!(unfinished(&mut late), []);
    assert_eq!(board.frame_at(6_010, last, &rest).kind, 5);
}

#[test]
fn a_lone_tick_tests_b7_alone() {
    let mut board = Demonstration::new();
    let [(first, start), _] = write_by(1);
    board.frame_at(0, first, &start);
    // The same source twice, both of them long due.
    let places = board.places();
    places.copy_within(..8, 8);
    let before = *places;
    let numbers = board.tick(40_000);
    assert_eq!((numbers.kind, numbers.error), (0, 7));
    assert_eq!((numbers.frame_count, numbers.position), (0, NO_POSITION));
    assert_eq!(*board.places(), before);
    // A place that is not held has no source.
    board.places()[8] = 0;
    assert_eq!(board.tick(40_000).kind, 2);
    let mut after = before;
    after[..9].fill(0);
    assert_eq!(*board.places(), after);
}

/// The frames of the tool 123: Single, First, Middle and Last.
const SINGLE: u32 = 0x1A22_B123;
const FIRST: u32 = 0x1B22_B123;
const MIDDLE: u32 = 0x1C22_B123;
const LAST: u32 = 0x1D22_B123;

/// The kind and the code of what comes of a frame, which sends Rejected where it is refused and
/// nothing where it is joined or swallowed.
fn sent(board: &mut Demonstration, tick: u16, header: u32, data: &str) -> (u32, u16) {
    let numbers = board.frame_at(tick, header, &bytes(data));
    if matches!(numbers.kind, 2 | 3) {
        let count = u8::from(numbers.kind == 3);
        assert_eq!(
            (numbers.frame_count, numbers.position),
            (count, NO_POSITION)
        );
    }
    (numbers.kind, numbers.code)
}

/// Nothing is sent: the frame is joined or swallowed.
const NOTHING: (u32, u16) = (2, 0);
const OUT_OF_ORDER: (u32, u16) = (3, 0x2040);
const TOO_LONG: (u32, u16) = (3, 0x2000);
const NO_ROOM: (u32, u16) = (3, 0x2020);
/// Update Complete is done.
const DONE: (u32, u16) = (7, 0);

/// The bytes of a place whose source is being swallowed.
fn swallowed(source: u16, tick: u16) -> [u8; PLACE_SIZE] {
    let ([low, high], [tick_low, tick_high]) = (source.to_le_bytes(), tick.to_le_bytes());
    [1, 0, low, high, tick_low, tick_high, 1, 0]
}

/// A board on which the tool 123 has a datagram of so many bytes unfinished, since this tick.
fn begun(len: usize, tick: u16) -> Demonstration {
    let mut board = Demonstration::new();
    let mut pieces = vec![0x20; len];
    let rest = pieces.split_off(len.min(8));
    assert_eq!(board.frame_at(tick, FIRST, &pieces).kind, 2);
    for piece in rest.chunks(8) {
        assert_eq!(board.frame_at(tick, MIDDLE, piece).kind, 2);
    }
    board
}

#[test]
fn one_rejection_for_one_broken_datagram() {
    for (len, header, data, code) in [
        (0, SINGLE, "20A8", OUT_OF_ORDER),
        (6, FIRST, "20A8", OUT_OF_ORDER),
        (72, FIRST, "", OUT_OF_ORDER),
        (6, MIDDLE, "", OUT_OF_ORDER),
        (72, MIDDLE, "", OUT_OF_ORDER),
        (65, MIDDLE, "0001020304050607", TOO_LONG),
        (72, MIDDLE, "00", TOO_LONG),
    ] {
        let mut board = begun(len, 10);
        assert_eq!(sent(&mut board, 20, header, data), code);
        // A refused frame is not an accepted one, and a swallowed one is.
        assert_eq!(place(board.places(), 0), swallowed(0x123, 10));
        for (tick, data) in [(3_010, "0001020304050607"), (6_010, ""), (6_010, "00")] {
            assert_eq!(sent(&mut board, tick, MIDDLE, data), NOTHING);
            assert_eq!(place(board.places(), 0), swallowed(0x123, tick));
        }
        assert_eq!(sent(&mut board, 9_010, LAST, "00"), NOTHING);
        assert_eq!(*board.places(), [0; PLACES_SIZE]);
        // Then nothing is unfinished, and every stray frame has its own.
        for header in [LAST, MIDDLE, LAST] {
            assert_eq!(sent(&mut board, 9_010, header, ""), OUT_OF_ORDER);
            assert_eq!(*board.places(), [0; PLACES_SIZE]);
        }
    }
}

#[test]
fn a_last_that_is_refused_leaves_nothing_to_wait_for() {
    let mut board = begun(72, 0);
    assert_eq!(sent(&mut board, 0, LAST, "00"), TOO_LONG);
    assert_eq!(*board.places(), [0; PLACES_SIZE]);
    assert_eq!(sent(&mut board, 0, MIDDLE, "00"), OUT_OF_ORDER);
    assert_eq!(sent(&mut board, 0, SINGLE, "20A8"), DONE);
}

#[test]
fn a_single_or_first_counts_as_if_nothing_were_unfinished() {
    let mut board = begun(6, 0);
    assert_eq!(sent(&mut board, 0, FIRST, "20"), OUT_OF_ORDER);
    let mut other = board.clone();
    assert_eq!(sent(&mut other, 0, SINGLE, "20A8"), DONE);
    assert_eq!(*other.places(), [0; PLACES_SIZE]);
    assert_eq!(sent(&mut board, 7, FIRST, "20"), NOTHING);
    assert_eq!(place(board.places(), 0), [1, 1, 0x23, 1, 7, 0, 0, 0]);
    assert_eq!(sent(&mut board, 7, LAST, "A8"), DONE);
    assert_eq!(*board.places(), [0; PLACES_SIZE]);
}

#[test]
fn a_tool_that_is_swallowed_takes_room() {
    let mut board = Demonstration::new();
    for tool in 1..=8 {
        assert_eq!(sent(&mut board, 0, 0x1B22_B000 | tool, "20"), NOTHING);
    }
    assert_eq!(sent(&mut board, 0, 0x1C22_B005, ""), OUT_OF_ORDER);
    assert_eq!(sent(&mut board, 0, FIRST, "20"), NO_ROOM);
    // There is room for its own First, in its very place.
    let mut other = board.clone();
    assert_eq!(sent(&mut other, 9, 0x1B22_B005, "2080"), NOTHING);
    assert_eq!(place(other.places(), 4), [1, 2, 5, 0, 9, 0, 0, 0]);
    assert_eq!(sent(&mut other, 9, FIRST, "20"), NO_ROOM);
    // Its Last makes room for others.
    assert_eq!(sent(&mut board, 0, 0x1D22_B005, ""), NOTHING);
    assert_eq!(sent(&mut board, 0, FIRST, "20"), NOTHING);
    assert_eq!(place(board.places(), 4), [1, 1, 0x23, 1, 0, 0, 0, 0]);
}

#[test]
fn a_tool_that_is_swallowed_grows_old() {
    let mut board = begun(6, 65_000);
    assert_eq!(sent(&mut board, 2_464, FIRST, "20"), OUT_OF_ORDER);
    assert_eq!(unfinished(&mut board), [(0x123, 65_000)]);
    // The refusal has not renewed it: at a lone tick, at an ignored frame and at its own Middle.
    let mut alone = board.clone();
    assert_eq!(alone.tick(2_465).kind, 2);
    assert_eq!(*alone.places(), [0; PLACES_SIZE]);
    let mut ignored = board.clone();
    assert_eq!(sent(&mut ignored, 2_465, 0x1C30_0123, "").0, 1);
    assert_eq!(*ignored.places(), [0; PLACES_SIZE]);
    let mut late = board.clone();
    assert_eq!(sent(&mut late, 2_465, MIDDLE, "20"), OUT_OF_ORDER);
    assert_eq!(*late.places(), [0; PLACES_SIZE]);
    // A Middle that is swallowed has.
    assert_eq!(sent(&mut board, 2_464, MIDDLE, ""), NOTHING);
    assert_eq!(board.tick(5_464).kind, 2);
    assert_eq!(unfinished(&mut board), [(0x123, 2_464)]);
    assert_eq!(board.tick(5_465).kind, 2);
    assert_eq!(unfinished(&mut board), []);
}

#[test]
fn b7_counts_a_tool_that_is_swallowed_and_asks_nothing_of_its_length() {
    // The bytes of the first and of the third place.
    let none = [0; PLACE_SIZE];
    for (one, other, refused) in [
        ([1, 255, 0xFF, 0x0F, 0, 0, 1, 0], none, false),
        ([9, 73, 0, 0, 0, 0, 9, 9], none, false),
        ([1, 73, 0, 0, 0, 0, 0, 1], none, true),
        ([1, 0, 0, 0x10, 0, 0, 1, 0], none, true),
        (swallowed(5, 0), [1, 0, 5, 0, 0, 0, 0, 0], true),
        ([1, 0, 5, 0, 0, 0, 0, 0], swallowed(5, 0), true),
        (swallowed(5, 0), swallowed(5, 0), true),
        (swallowed(5, 0), swallowed(6, 0), false),
        (swallowed(5, 0), [0, 0, 5, 0, 0, 0, 1, 0], false),
    ] {
        let mut board = Demonstration::new();
        set_place(board.places(), 0, one);
        set_place(board.places(), 2, other);
        let before = *board.places();
        let expected = if refused { (0, 7) } else { (2, 0) };
        let numbers = board.tick(3_000);
        assert_eq!(
            (numbers.kind, numbers.error),
            expected,
            "{one:?}, {other:?}"
        );
        let numbers = board.frame_at(3_000, 0x1C22_B007, &[]);
        assert_eq!(numbers.kind, if refused { 0 } else { 3 });
        assert_eq!(*board.places(), before);
    }
}

#[test]
fn the_bytes_of_a_place_that_is_swallowed() {
    // At the very tick that the place has, a Middle changes nothing where no length is there.
    for (had, tick, changed) in [
        ([9, 0, 0x23, 1, 40, 0, 8, 7], 40, false),
        ([9, 0, 0x23, 1, 40, 0, 8, 7], 41, true),
        ([9, 1, 0x23, 1, 40, 0, 8, 7], 40, true),
    ] {
        for data in ["", "0102"] {
            let mut board = Demonstration::new();
            set_place(board.places(), 7, had);
            assert_eq!(sent(&mut board, tick, MIDDLE, data), NOTHING);
            let expected = if changed { swallowed(0x123, tick) } else { had };
            assert_eq!(place(board.places(), 7), expected);
        }
    }
}

#[test]
fn a_session_with_a_lost_last() {
    let input = "\
:X1B22B123N200100000002;
:X1B22B123N200100000004;
:X1C22B123N11;
:X1C22B123N;
:X1D22B123N22;
:X1D22B123N33;
:X1B22B123N200100000004;
:X1D22B123NAB;
";
    let expected = "\
:X19A4822BN01232040;
:X19A4822BN01232040;
:X19A2822BN012300;
";
    assert_eq!(in_chunks(input, 10), expected);
    let model = model::session(input.as_bytes());
    assert_eq!(String::from_utf8_lossy(&model), expected);
}

#[test]
fn the_version_of_the_edge() {
    assert_eq!(ffi::version(), ffi::VERSION);
}

fn bytes(digits: &str) -> Vec<u8> {
    (0..digits.len())
        .step_by(2)
        .map(|at| u8::from_str_radix(&digits[at..at + 2], 16).expect("a pair of digits"))
        .collect()
}
