//! Holds the tests of times: what is dropped and when, what renews and what does not, lone ticks,
//! and refused calls, which drop nothing. Places whose source is being swallowed grow old like the
//! others.

mod common;

use common::{
    entry, first, hex, last, middle, single, space, swallowed, Bench, Book, Numbers, FILL,
};
use model::{
    demo_board, handle_time, Answer, CallError, FrameAnswer, Kept, Reception, Unfinished,
    RECEPTION_TIMEOUT,
};
use Book::{Holds, Swallowed};
use CallError::{
    B11TooManySpaces, B12MemoryTooLarge, B13FlashTooLarge, B14AliasOutOfRange,
    B2LowestAboveHighest, B3WindowPastEnd, B4MustBeReadOnly, B5NumberUsedTwice,
    B6ReplyBufferTooShort, B7BadReceptionState,
};
use FrameAnswer::{Handled, Ignored, Nothing, TransportRefusal};

const WRITE: [u8; 7] = [0x20, 0x01, 0, 0, 0, 2, 0xAB];
const WRITTEN: FrameAnswer = Handled(Answer::Written { start: 2, count: 1 });

/// Times to begin at: a count of 16 bits, and one of 32, would end within 3,001 ticks of some.
const STARTS: [u64; 14] = [
    0,
    1,
    3_000,
    62_534,
    62_535,
    62_536,
    65_535,
    65_536,
    4_294_964_295,
    4_294_967_295,
    4_294_967_296,
    9_223_372_036_854_775_807,
    18_446_744_073_709_548_000,
    u64::MAX - 3_001,
];

/// A frame at a time.
fn at(board: &mut Bench, time: u64, header: u32, data: &[u8]) -> FrameAnswer {
    board.time = time;
    board.reply.fill(FILL);
    let answer = board.frame(header, data).expect("no error of the caller");
    if !matches!(answer, Handled(Answer::Replied(_))) {
        assert!(board.reply.iter().all(|&byte| byte == FILL));
    }
    answer
}

/// A lone tick, which changes nothing but the reception state.
fn tick(board: &mut Bench, time: u64) {
    let before = board.clone();
    board.time = time;
    board.lone_tick().expect("no error of the caller");
    assert_eq!(board.memory, before.memory);
    assert_eq!(board.lock, before.lock);
    assert_eq!(board.reply, before.reply);
}

/// An entry with no bytes.
fn entry_at(source: u16, last_accepted: u64) -> Unfinished<'static> {
    Unfinished {
        last_accepted,
        ..entry(source, 0, &[])
    }
}

/// An entry for a source that is being swallowed.
fn swallowed_at(source: u16, last_accepted: u64) -> Unfinished<'static> {
    Unfinished {
        last_accepted,
        ..swallowed(source)
    }
}

fn board_of(entries: &[Unfinished]) -> Bench {
    let mut board = Bench::demo();
    board.reception = Reception::from_unfinished(entries).unwrap();
    board
}

/// A board with these sources unfinished, each with its time.
fn board_with(sources: &[(u16, u64)]) -> Bench {
    let entries: Vec<_> = sources
        .iter()
        .map(|&(source, time)| entry_at(source, time))
        .collect();
    board_of(&entries)
}

/// Opens a datagram of tool 1 at one time and breaks it at another.
fn broken(opened: u64, refused: u64) -> Bench {
    let mut board = Bench::demo();
    assert_eq!(at(&mut board, opened, first(1), &[0x20]), Nothing);
    assert_eq!(
        at(&mut board, refused, first(1), &[0x20]),
        TransportRefusal(0x2040)
    );
    assert_eq!(board.kept(), [(1, Swallowed)]);
    board
}

/// Frames that are ignored, all but the second with tool 1 as their source.
const IGNORED: [(u32, &[u8]); 9] = [
    (0x1922_B001, &[0x20]),
    (0x1A22_B22B, &[0x20]),
    (0x1E22_B001, &[0x20]),
    (0x3C22_B001, &[0x20]),
    (0x1C22_C001, &[0x20]),
    (0x1C22_B001, &[0x20; 9]),
    (0x1D22_B001, &[0x20; 64]),
    (0x19A2_8001, &[0x02, 0x2B, 0x00]),
    (0x19A4_8001, &[0x02, 0x2B, 0x20, 0x40]),
];

#[test]
fn exactly_3000_stays_and_3001_drops() {
    assert_eq!(RECEPTION_TIMEOUT, 3_000);
    for start in STARTS {
        let mut board = Bench::demo();
        assert_eq!(at(&mut board, start, first(1), &hex("20")), Nothing);
        for age in [0, 1, 2_999, 3_000] {
            tick(&mut board, start + age);
            assert_eq!(board.kept(), [(1, Holds(hex("20")))]);
            assert_eq!(board.times(), [(1, start)]);
            assert_eq!(at(&mut board, start + age, 0, &[]), Ignored);
            assert_eq!(board.times(), [(1, start)]);
        }
        let mut framed = board.clone();
        tick(&mut board, start + 3_001);
        assert!(board.kept().is_empty());
        assert_eq!(at(&mut framed, start + 3_001, 0, &[]), Ignored);
        assert!(framed.kept().is_empty());
    }
}

#[test]
fn a_datagram_is_finished_at_exactly_3000() {
    for start in STARTS {
        let mut board = Bench::demo();
        assert_eq!(at(&mut board, start, first(1), &WRITE[..4]), Nothing);
        let mut late = board.clone();
        assert_eq!(at(&mut board, start + 3_000, last(1), &WRITE[4..]), WRITTEN);
        assert_eq!(board.memory[2], 0xAB);
        assert_eq!(
            at(&mut late, start + 3_001, last(1), &WRITE[4..]),
            TransportRefusal(0x2040)
        );
        assert_eq!(late.memory[2], 0);
        assert!(board.kept().is_empty());
        assert!(late.kept().is_empty());
    }
}

#[test]
fn the_drop_comes_before_the_source_s_own_frame() {
    let mut opened = Bench::demo();
    assert_eq!(at(&mut opened, 5, first(1), &hex("2001")), Nothing);
    assert_eq!(at(&mut opened, 6, middle(1), &hex("00")), Nothing);
    // At 3,006 the datagram is there, at 3,007 it counts as if nothing were unfinished.
    let cases = [
        (single(1), &WRITE[..], TransportRefusal(0x2040), WRITTEN),
        (first(1), &WRITE[..], TransportRefusal(0x2040), Nothing),
        (middle(1), &[0], Nothing, TransportRefusal(0x2040)),
        (
            middle(1),
            &[],
            TransportRefusal(0x2040),
            TransportRefusal(0x2040),
        ),
        (last(1), &hex("000002AB"), WRITTEN, TransportRefusal(0x2040)),
    ];
    for (header, data, in_time, late) in cases {
        assert_eq!(at(&mut opened.clone(), 3_006, header, data), in_time);
        let mut board = opened.clone();
        assert_eq!(at(&mut board, 3_007, header, data), late);
        let opens = header == first(1);
        let opened = opens.then(|| (1, Holds(WRITE.to_vec())));
        assert_eq!(board.kept(), opened.as_slice());
        assert_eq!(board.times(), opens.then_some((1, 3_007)).as_slice());
    }
}

#[test]
fn a_dropped_source_begins_anew() {
    for frame_comes in [false, true] {
        let mut board = Bench::demo();
        assert_eq!(at(&mut board, 0, first(1), &hex("2001")), Nothing);
        if frame_comes {
            assert_eq!(at(&mut board, 3_001, single(2), &WRITE), WRITTEN);
        } else {
            tick(&mut board, 3_001);
        }
        assert!(board.kept().is_empty());
        for _ in 0..2 {
            assert_eq!(
                at(&mut board, 3_001, middle(1), &[0]),
                TransportRefusal(0x2040)
            );
            assert_eq!(
                at(&mut board, 3_001, last(1), &[]),
                TransportRefusal(0x2040)
            );
        }
        assert_eq!(at(&mut board, 3_002, first(1), &WRITE[..6]), Nothing);
        assert_eq!(board.times(), [(1, 3_002)]);
        assert_eq!(at(&mut board, 6_002, last(1), &WRITE[6..]), WRITTEN);
    }
}

#[test]
fn the_drop_comes_before_an_ignored_frame() {
    for (header, data) in IGNORED {
        let mut board = Bench::demo();
        for source in [1, 2] {
            assert_eq!(at(&mut board, 7, first(source), &[0x20]), Nothing);
        }
        assert_eq!(at(&mut board, 8, first(3), &[0x20]), Nothing);
        assert_eq!(at(&mut board, 3_007, header, data), Ignored);
        assert_eq!(board.times(), [(1, 7), (2, 7), (3, 8)]);
        assert_eq!(at(&mut board, 3_008, header, data), Ignored);
        assert_eq!(board.times(), [(3, 8)]);
    }
}

#[test]
fn only_what_is_due_is_dropped() {
    let sources: Vec<(u16, u64)> = (0..8)
        .map(|source| (source, 10 * u64::from(source)))
        .collect();
    for turn in 0..8 {
        let mut turned = sources.clone();
        turned.rotate_left(turn);
        let mut board = board_with(&turned);
        for (dropped, &(_, time)) in sources.iter().enumerate() {
            tick(&mut board, time + 3_000);
            assert_eq!(board.times(), sources[dropped..]);
            tick(&mut board, time + 3_001);
            assert_eq!(board.times(), sources[dropped + 1..]);
        }
        // Without the steps between.
        for (step, &(_, time)) in sources.iter().enumerate() {
            let mut board = board_with(&turned);
            tick(&mut board, time + 3_001);
            assert_eq!(board.times(), sources[step + 1..]);
        }
    }
}

#[test]
fn a_middle_renews_its_own_source_alone() {
    let mut board = Bench::demo();
    assert_eq!(at(&mut board, 0, first(1), &WRITE[..2]), Nothing);
    assert_eq!(at(&mut board, 0, first(2), &WRITE[..2]), Nothing);
    assert_eq!(at(&mut board, 3_000, middle(1), &WRITE[2..4]), Nothing);
    assert_eq!(board.times(), [(1, 3_000), (2, 0)]);
    assert_eq!(at(&mut board, 6_000, middle(1), &WRITE[4..5]), Nothing);
    assert_eq!(board.times(), [(1, 6_000)]);
    assert_eq!(board.kept(), [(1, Holds(WRITE[..5].to_vec()))]);
    assert_eq!(at(&mut board, 9_000, last(1), &WRITE[5..]), WRITTEN);
    assert!(board.kept().is_empty());
    // A whole datagram of nine frames, each at the last tick.
    board.spaces = vec![space(0xFD, 0, 63, 0)];
    board.memory = vec![0; 64];
    assert_eq!(
        at(&mut board, 10_000, first(1), &hex("2001000000000000")),
        Nothing
    );
    for frame in 1..8 {
        let time = 10_000 + 3_000 * frame;
        assert_eq!(at(&mut board, time, middle(1), &[frame as u8; 8]), Nothing);
    }
    assert_eq!(
        at(&mut board, 34_000, last(1), &[8; 6]),
        Handled(Answer::Written {
            start: 0,
            count: 64
        })
    );
    assert_eq!(board.memory[56..], [7, 7, 8, 8, 8, 8, 8, 8]);
}

#[test]
fn ignored_frames_do_not_renew() {
    let mut board = Bench::demo();
    assert_eq!(at(&mut board, 100, first(1), &[0x20]), Nothing);
    for (time, (header, data)) in (101..).zip(IGNORED) {
        assert_eq!(at(&mut board, time, header, data), Ignored);
        assert_eq!(board.times(), [(1, 100)]);
    }
    for (header, data) in IGNORED {
        assert_eq!(at(&mut board, 3_100, header, data), Ignored);
    }
    assert_eq!(board.times(), [(1, 100)]);
    tick(&mut board, 3_101);
    assert!(board.kept().is_empty());
}

#[test]
fn lone_ticks_and_whole_datagrams_do_not_renew() {
    let mut board = Bench::demo();
    assert_eq!(at(&mut board, 0, first(1), &[0x20]), Nothing);
    for time in 0..=3_000 {
        tick(&mut board, time);
        board.datagram(&WRITE).unwrap();
        assert_eq!(board.times(), [(1, 0)]);
    }
    // A call for a whole datagram brings no time and drops nothing either.
    board.time = 3_001;
    board.datagram(&WRITE).unwrap();
    assert_eq!(board.times(), [(1, 0)]);
    tick(&mut board, 3_001);
    assert!(board.kept().is_empty());
}

#[test]
fn other_sources_do_not_renew() {
    let mut board = Bench::demo();
    assert_eq!(at(&mut board, 0, first(1), &[0x20]), Nothing);
    assert_eq!(at(&mut board, 1_000, single(2), &WRITE), WRITTEN);
    assert_eq!(at(&mut board, 1_000, first(3), &WRITE[..6]), Nothing);
    assert_eq!(at(&mut board, 2_000, middle(3), &WRITE[6..]), Nothing);
    assert_eq!(
        at(&mut board, 3_000, last(3), &[0xCD]),
        Handled(Answer::Written { start: 2, count: 2 })
    );
    assert_eq!(board.times(), [(1, 0)]);
    assert_eq!(at(&mut board, 3_001, single(2), &WRITE), WRITTEN);
    assert!(board.kept().is_empty());
}

#[test]
fn a_frame_refused_with_2040_does_not_renew() {
    let strays: [(u32, &[u8]); 4] = [
        (single(1), &[0x20]),
        (first(1), &[0x20]),
        (middle(1), &[]),
        (last(2), &[0x20]),
    ];
    for (header, data) in strays {
        let mut board = Bench::demo();
        assert_eq!(at(&mut board, 0, first(1), &[0x20]), Nothing);
        assert_eq!(at(&mut board, 0, first(3), &[0x20]), Nothing);
        assert_eq!(
            at(&mut board, 2_000, header, data),
            TransportRefusal(0x2040)
        );
        // It breaks what its own source had, and no entry takes its time.
        let stray = header == last(2);
        let broken = if stray { Holds(hex("20")) } else { Swallowed };
        assert_eq!(board.kept(), [(1, broken), (3, Holds(hex("20")))]);
        assert_eq!(board.times(), [(1, 0), (3, 0)]);
        // Strays with nothing unfinished leave nothing behind.
        assert_eq!(
            at(&mut board, 3_000, middle(2), &[0]),
            TransportRefusal(0x2040)
        );
        tick(&mut board, 3_001);
        assert!(board.kept().is_empty());
        // The next First counts from its own time.
        assert_eq!(at(&mut board, 3_002, first(1), &[0x20]), Nothing);
        assert_eq!(board.times(), [(1, 3_002)]);
    }
}

#[test]
fn a_frame_refused_with_2000_does_not_renew() {
    for refused in [middle(1), last(1)] {
        let mut board = Bench::demo();
        for source in [1, 2] {
            assert_eq!(at(&mut board, 0, first(source), &[0x20; 8]), Nothing);
            for _ in 0..8 {
                assert_eq!(at(&mut board, 10, middle(source), &[0; 8]), Nothing);
            }
        }
        assert_eq!(
            at(&mut board, 3_010, refused, &[0]),
            TransportRefusal(0x2000)
        );
        let mut expected = vec![(1, 10), (2, 10)];
        expected.retain(|&(source, _)| refused == middle(1) || source == 2);
        assert_eq!(board.times(), expected);
        // Too late even for 0x2000: nothing is unfinished any more.
        assert_eq!(
            at(&mut board, 3_011, middle(2), &[0]),
            TransportRefusal(0x2040)
        );
        assert!(board.kept().is_empty());
    }
}

#[test]
fn a_frame_refused_with_2020_does_not_renew() {
    let mut board = Bench::demo();
    for source in 1..=8 {
        assert_eq!(at(&mut board, 0, first(source), &[0x20]), Nothing);
    }
    let full = board.times();
    for time in [0, 1, 1_500, 2_999, 3_000] {
        assert_eq!(
            at(&mut board, time, first(9), &[0x20]),
            TransportRefusal(0x2020)
        );
        assert_eq!(board.times(), full);
    }
    tick(&mut board, 3_001);
    assert!(board.kept().is_empty());
}

#[test]
fn a_frame_that_breaks_a_datagram_does_not_renew_it() {
    for start in STARTS {
        for refused in [0, 1, 1_500, 2_999, 3_000] {
            let mut board = broken(start, start + refused);
            assert_eq!(board.times(), [(1, start)]);
            tick(&mut board, start + 3_000);
            assert_eq!(board.kept(), [(1, Swallowed)]);
            assert_eq!(board.times(), [(1, start)]);
            let mut framed = board.clone();
            tick(&mut board, start + 3_001);
            assert_eq!(at(&mut framed, start + 3_001, 0, &[]), Ignored);
            for mut late in [board, framed] {
                assert!(late.kept().is_empty());
                // What is left of the broken datagram is stray now.
                for (header, data) in [(middle(1), &[0][..]), (middle(1), &[]), (last(1), &[])] {
                    assert_eq!(
                        at(&mut late, start + 3_001, header, data),
                        TransportRefusal(0x2040)
                    );
                    assert!(late.kept().is_empty());
                }
            }
        }
    }
}

#[test]
fn a_middle_past_72_bytes_and_an_empty_one_do_not_renew_either() {
    for (refused, code) in [(&[0][..], 0x2000), (&[], 0x2040)] {
        let mut board = Bench::demo();
        assert_eq!(at(&mut board, 0, first(1), &[0x20; 8]), Nothing);
        for _ in 0..8 {
            assert_eq!(at(&mut board, 10, middle(1), &[0; 8]), Nothing);
        }
        assert_eq!(
            at(&mut board, 2_000, middle(1), refused),
            TransportRefusal(code)
        );
        assert_eq!(board.times(), [(1, 10)]);
        tick(&mut board, 3_010);
        assert_eq!(board.kept(), [(1, Swallowed)]);
        tick(&mut board, 3_011);
        assert!(board.kept().is_empty());
    }
}

#[test]
fn a_swallowed_middle_renews_its_own_source_alone() {
    for data in [&[][..], &[0], &[0x20; 8]] {
        let mut board = broken(0, 2_000);
        assert_eq!(at(&mut board, 0, first(2), &[0x20]), Nothing);
        assert_eq!(
            at(&mut board, 0, single(2), &[0x20]),
            TransportRefusal(0x2040)
        );
        assert_eq!(at(&mut board, 0, first(3), &[0x20]), Nothing);
        for step in 1..=30 {
            let time = 3_000 * step;
            assert_eq!(at(&mut board, time, middle(1), data), Nothing);
            // The others are there at 3,000 and gone at 6,000.
            let mut expected = vec![(1, time), (2, 0), (3, 0)];
            expected.truncate(if step == 1 { 3 } else { 1 });
            assert_eq!(board.times(), expected);
        }
        let mut late = board.clone();
        assert_eq!(at(&mut board, 93_000, last(1), data), Nothing);
        assert!(board.kept().is_empty());
        assert_eq!(
            at(&mut late, 93_001, last(1), data),
            TransportRefusal(0x2040)
        );
        assert!(late.kept().is_empty());
    }
}

#[test]
fn the_drop_comes_before_a_frame_of_a_source_being_swallowed() {
    let cases = [
        (single(1), &WRITE[..], WRITTEN, WRITTEN),
        (first(1), &WRITE[..], Nothing, Nothing),
        (middle(1), &[0], Nothing, TransportRefusal(0x2040)),
        (middle(1), &[], Nothing, TransportRefusal(0x2040)),
        (last(1), &WRITE[..], Nothing, TransportRefusal(0x2040)),
    ];
    for (header, data, in_time, late) in cases {
        for (time, answer) in [(3_005, in_time), (3_006, late)] {
            let mut board = broken(5, 6);
            assert_eq!(at(&mut board, time, header, data), answer);
            let kept = match header {
                _ if header == first(1) => Some(Holds(WRITE.to_vec())),
                _ if header == middle(1) && time == 3_005 => Some(Swallowed),
                _ => None,
            };
            let times = kept.as_ref().map(|_| (1, time));
            assert_eq!(board.times(), times.as_slice());
            assert_eq!(board.kept(), kept.map(|book| (1, book)).as_slice());
        }
    }
}

#[test]
fn what_is_ignored_does_not_renew_a_source_being_swallowed() {
    for (header, data) in IGNORED {
        let mut board = broken(7, 8);
        assert_eq!(at(&mut board, 8, first(3), &[0x20]), Nothing);
        for time in [8, 3_006, 3_007] {
            assert_eq!(at(&mut board, time, header, data), Ignored);
            assert_eq!(
                board.kept(),
                [(1, Swallowed), (3, Holds(hex("20")))],
                "at {time}"
            );
            assert_eq!(board.times(), [(1, 7), (3, 8)]);
        }
        assert_eq!(at(&mut board, 3_008, header, data), Ignored);
        assert_eq!(board.times(), [(3, 8)]);
    }
    // Nor do frames of other tools, lone ticks and whole datagrams.
    let mut board = broken(0, 0);
    for time in 0..=3_000 {
        tick(&mut board, time);
        board.datagram(&WRITE).unwrap();
        assert_eq!(at(&mut board, time, single(2), &WRITE), WRITTEN);
        assert_eq!(board.times(), [(1, 0)]);
    }
    tick(&mut board, 3_001);
    assert!(board.kept().is_empty());
}

#[test]
fn a_datagram_opened_after_swallowing_counts_from_its_own_first() {
    let mut board = broken(0, 1_000);
    assert_eq!(at(&mut board, 2_000, middle(1), &[0]), Nothing);
    assert_eq!(at(&mut board, 5_000, first(1), &WRITE[..6]), Nothing);
    assert_eq!(board.times(), [(1, 5_000)]);
    let mut late = board.clone();
    assert_eq!(at(&mut board, 8_000, last(1), &WRITE[6..]), WRITTEN);
    assert_eq!(
        at(&mut late, 8_001, last(1), &WRITE[6..]),
        TransportRefusal(0x2040)
    );
}

#[test]
fn eight_abandoned_sources_being_swallowed_lock_nobody_out() {
    for start in STARTS {
        let mut board = Bench::demo();
        for source in 1..=8 {
            assert_eq!(at(&mut board, start, first(source), &[0x20]), Nothing);
            assert_eq!(
                at(&mut board, start, single(source), &[0x20]),
                TransportRefusal(0x2040)
            );
        }
        let all: Vec<_> = (1..=8).map(|source| (source, Swallowed)).collect();
        assert_eq!(
            at(&mut board, start + 3_000, first(9), &[0x20]),
            TransportRefusal(0x2020)
        );
        assert_eq!(board.kept(), all);
        for source in 9..=16 {
            assert_eq!(
                at(&mut board, start + 3_001, first(source), &[0x20]),
                Nothing
            );
        }
        let all: Vec<_> = (9..=16).map(|source| (source, Holds(hex("20")))).collect();
        assert_eq!(board.kept(), all);
    }
}

#[test]
fn eight_abandoned_datagrams_lock_nobody_out() {
    for start in STARTS {
        let mut board = Bench::demo();
        // A tick apart, the last of them at the start.
        for source in 1..=8 {
            let time = start.saturating_sub(8 - u64::from(source));
            assert_eq!(at(&mut board, time, first(source), &[0x20]), Nothing);
        }
        let opened = board.times();
        let (earliest, latest) = (opened[0].1, opened[7].1);
        // The first place is free 3,001 ticks after it was taken, not sooner.
        assert_eq!(
            at(&mut board, earliest + 3_000, first(9), &[0x20]),
            TransportRefusal(0x2020)
        );
        let mut patient = board.clone();
        assert_eq!(
            at(&mut board, earliest + 3_001, first(9), &[0x20, 9]),
            Nothing
        );
        let mut expected = opened.clone();
        expected.retain(|&(_, time)| time > earliest);
        expected.push((9, earliest + 3_001));
        assert_eq!(board.times(), expected);
        // All eight places are free 3,001 ticks after the last frame that was accepted.
        let time = latest + 3_001;
        for source in 9..=16 {
            assert_eq!(at(&mut patient, time, first(source), &[0x20]), Nothing);
        }
        assert_eq!(
            at(&mut patient, time, first(17), &[0x20]),
            TransportRefusal(0x2020)
        );
        assert!(patient.times().iter().all(|entry| entry.1 == time));
    }
}

#[test]
fn counts_of_16_and_32_bits_do_not_come_round() {
    for start in STARTS {
        for gap in [
            3_001,
            62_000,
            65_535,
            65_536,
            65_537,
            68_536,
            131_072,
            4_294_967_295,
            4_294_967_296,
            4_294_970_296,
            1 << 48,
        ] {
            let Some(time) = start.checked_add(gap) else {
                continue;
            };
            let mut board = board_with(&[(1, start)]);
            tick(&mut board, time);
            assert!(board.kept().is_empty(), "{start} and {gap}");
            let mut board = board_with(&[(1, start)]);
            assert_eq!(at(&mut board, time, first(1), &[0x20]), Nothing);
            assert_eq!(board.times(), [(1, time)]);
        }
    }
}

#[test]
fn an_entry_of_a_later_time_is_not_old() {
    for (stored, time) in [
        (1, 0),
        (3_001, 0),
        (65_536, 0),
        (10_000, 3_001),
        (u64::MAX, 0),
        (u64::MAX, 3_001),
        (u64::MAX, u64::MAX - 1),
    ] {
        let mut board = board_with(&[(1, stored), (2, stored)]);
        tick(&mut board, time);
        assert_eq!(board.times(), [(1, stored), (2, stored)]);
        // A frame that is accepted now has the present time from now on.
        assert_eq!(at(&mut board, time, middle(1), &[0x20]), Nothing);
        assert_eq!(board.times(), [(1, time), (2, stored)]);
        let Some(late) = time.checked_add(3_001) else {
            continue;
        };
        tick(&mut board, late - 1);
        assert_eq!(board.times()[0], (1, time));
        tick(&mut board, late);
        assert!(board.times().iter().all(|entry| entry.0 == 2));
    }
}

/// An error, and how a sound board comes to be refused with it.
type Spoiled = (CallError, fn(&mut Bench));

const SPOILED: [Spoiled; 10] = [
    (B11TooManySpaces, |board| {
        board.spaces = vec![space(1, 0, 0, 0); 17]
    }),
    (B12MemoryTooLarge, |board| board.memory.resize(65_537, 0)),
    (B13FlashTooLarge, |board| board.flash.resize(65_537, 0)),
    (B14AliasOutOfRange, |board| board.alias = 0),
    (B14AliasOutOfRange, |board| board.alias = 4_096),
    (B2LowestAboveHighest(1), |board| {
        board.spaces[1].lowest = 0x30
    }),
    (B3WindowPastEnd(0), |board| board.spaces[0].highest = 48),
    (B4MustBeReadOnly(2), |board| {
        board.spaces[2].read_only = false
    }),
    (B5NumberUsedTwice(3), |board| board.spaces[3].number = 0xFD),
    (B6ReplyBufferTooShort, |board| board.reply.truncate(71)),
];

#[test]
fn a_refused_call_drops_nothing_and_renews_nothing() {
    let frames: [(u32, &[u8]); 6] = [
        (single(9), &[0x20]),
        (first(9), &[0x20]),
        (middle(1), &[0x20]),
        (last(1), &[]),
        (0x1922_B001, &[]),
        (middle(1), &[0; 9]),
    ];
    let sound = board_with(&[(1, 0), (2, 0), (3, 5_000)]);
    let swallowing = board_of(&[swallowed_at(1, 0), entry_at(2, 0), swallowed_at(3, 5_000)]);
    for (error, spoil) in SPOILED {
        for (time, state) in [0, 3_000, 3_001, 5_000, 8_001, u64::MAX]
            .into_iter()
            .flat_map(|time| [(time, &sound), (time, &swallowing)])
        {
            let mut spoiled = state.clone();
            spoil(&mut spoiled);
            spoiled.time = time;
            for (header, data) in frames {
                let mut board = spoiled.clone();
                assert_eq!(board.frame(header, data), Err(error));
                board.assert_as(&spoiled);
            }
        }
    }
    // What was refused has not renewed: the next call that is not refused drops.
    for board in [sound, swallowing] {
        assert_refused_calls_do_not_renew(board);
    }
}

/// Takes a board with tools 1 and 2 at time 0 and tool 3 at time 5,000.
fn assert_refused_calls_do_not_renew(mut board: Bench) {
    board.reply.truncate(71);
    board.time = 2_000;
    assert_eq!(board.frame(middle(1), &[0x20]), Err(B6ReplyBufferTooShort));
    board.time = 3_001;
    assert_eq!(board.frame(middle(1), &[0x20]), Err(B6ReplyBufferTooShort));
    assert_eq!(board.times(), [(1, 0), (2, 0), (3, 5_000)]);
    board.reply.resize(72, FILL);
    assert_eq!(
        at(&mut board, 3_001, middle(1), &[0x20]),
        TransportRefusal(0x2040)
    );
    assert_eq!(board.times(), [(3, 5_000)]);
}

#[test]
fn a_lone_tick_tests_neither_description_nor_reply_buffer() {
    for (_, spoil) in SPOILED {
        let mut board = board_with(&[(1, 0), (2, 1)]);
        spoil(&mut board);
        tick(&mut board, 3_000);
        assert_eq!(board.times(), [(1, 0), (2, 1)]);
        tick(&mut board, 3_001);
        assert_eq!(board.times(), [(2, 1)]);
    }
}

#[test]
fn a_lone_tick_tests_b7() {
    let bytes = [7; 72];
    let damaged: [&[Unfinished]; 9] = [
        &[entry(1, 73, &bytes)],
        &[entry(4_096, 0, &[])],
        &[entry_at(1, 0), entry_at(1, 9_000)],
        &[entry_at(1, 0), entry_at(2, 0), entry(3, usize::MAX, &bytes)],
        &[entry_at(65_535, 9_000), entry_at(2, 0), entry_at(3, 9_000)],
        &[swallowed_at(4_096, 0)],
        &[swallowed_at(1, 0), swallowed_at(1, 9_000)],
        &[swallowed_at(1, 0), entry_at(2, 0), entry_at(1, 9_000)],
        &[entry_at(1, 0), swallowed_at(2, 0), swallowed_at(1, 9_000)],
    ];
    for entries in damaged {
        // Where the damaged entry is itself due, and where another is.
        for time in [0, 3_000, 3_001, 12_000, u64::MAX] {
            let mut board = Bench::demo();
            board.reception = Reception::from_unfinished(entries).unwrap();
            let before = board.clone();
            board.time = time;
            assert_eq!(board.lone_tick(), Err(B7BadReceptionState));
            board.assert_as(&before);
            assert_eq!(board.frame(single(9), &[0x20]), Err(B7BadReceptionState));
            board.assert_as(&before);
        }
    }
}

#[test]
fn the_demonstration_board_takes_times() {
    let mut board = demo_board();
    let mut reply = [FILL; 72];
    assert_eq!(board.frame(10, first(1), &[0x20], &mut reply), Ok(Nothing));
    assert_eq!(board.time(3_010), Ok(()));
    assert_eq!(board.reception.kept_for(1), Kept::Bytes(&[0x20]));
    assert_eq!(
        board.frame(3_011, last(1), &[0xA8], &mut reply),
        Ok(TransportRefusal(0x2040))
    );
    assert_eq!(
        board.frame(3_011, first(1), &[0x20], &mut reply),
        Ok(Nothing)
    );
    assert_eq!(board.time(6_012), Ok(()));
    assert_eq!(board.reception.kept_for(1), Kept::Nothing);
    assert_eq!(handle_time(&mut Reception::new(), u64::MAX), Ok(()));
}

#[test]
fn times_in_any_order() {
    // Entries of any time may be handed in, and a caller's times may even fall. The places are
    // held against a plain list of sources and times.
    let mut numbers = Numbers(0x2545_F491_4F6C_DD1D);
    let mut dropped = 0;
    for _ in 0..2_000 {
        // Sources, times, and whether the source is being swallowed.
        let mut listed: Vec<(u16, u64, bool)> = (1..=numbers.below(9) as u16)
            .map(|source| {
                let time = u64::from(numbers.below(10_000));
                (source, time, numbers.below(3) == 0)
            })
            .collect();
        let entries: Vec<_> = listed
            .iter()
            .map(|&(source, time, swallowed)| Unfinished {
                swallowed,
                ..entry_at(source, time)
            })
            .collect();
        let mut board = board_of(&entries);
        // So few frames that no datagram goes past 72 bytes.
        for _ in 0..70 {
            let time = u64::from(numbers.below(14_000));
            let before = listed.len();
            listed.retain(|&(_, accepted, _)| time <= accepted + 3_000);
            dropped += before - listed.len();
            let source = 1 + numbers.below(10) as u16;
            let found = listed.iter().position(|entry| entry.0 == source);
            match (numbers.below(6), found) {
                (0, _) => tick(&mut board, time),
                (1, Some(found)) => {
                    let answer = at(&mut board, time, last(u32::from(source)), &[]);
                    let (_, _, swallowed) = listed.remove(found);
                    assert_eq!(matches!(answer, Handled(_)), !swallowed);
                    assert_eq!(answer == Nothing, swallowed);
                }
                // Breaks a datagram, or opens one where the source is being swallowed.
                (2, Some(found)) => {
                    let answer = at(&mut board, time, first(u32::from(source)), &[]);
                    let (_, accepted, swallowed) = &mut listed[found];
                    if *swallowed {
                        assert_eq!(answer, Nothing);
                        *accepted = time;
                    } else {
                        assert_eq!(answer, TransportRefusal(0x2040));
                    }
                    *swallowed = !*swallowed;
                }
                (_, Some(found)) => {
                    let answer = at(&mut board, time, middle(u32::from(source)), &[0x20]);
                    assert_eq!(answer, Nothing);
                    listed[found].1 = time;
                }
                (_, None) if listed.len() < 8 => {
                    let answer = at(&mut board, time, first(u32::from(source)), &[]);
                    assert_eq!(answer, Nothing);
                    listed.push((source, time, false));
                }
                _ => assert_eq!(at(&mut board, time, 0, &[]), Ignored),
            }
            listed.sort_unstable();
            let mut kept: Vec<_> = board
                .reception
                .unfinished()
                .map(|entry| (entry.source, entry.last_accepted, entry.swallowed))
                .collect();
            kept.sort_unstable();
            assert_eq!(kept, listed);
        }
    }
    assert!(dropped > 10_000, "{dropped}");
}
