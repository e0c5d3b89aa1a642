//! Holds the tests of C-15: a broken datagram gets one refusal, and what is left of it is swallowed.
//! They say what starts the swallowing, what is swallowed, what ends it, and what its place counts
//! for. How it grows old is tested with the times, what B7 says of it with the caller's errors.

mod common;

use common::{entry, first, hex, last, middle, single, swallowed, Bench, Book, FILL};
use model::{Answer, FrameAnswer, Kept, Reception, Unfinished};
use Book::{Holds, Swallowed};
use FrameAnswer::{Handled, Ignored, Nothing, TransportRefusal};

const WRITE: [u8; 7] = [0x20, 0x01, 0, 0, 0, 2, 0xAB];
const WRITTEN: FrameAnswer = Handled(Answer::Written { start: 2, count: 1 });

/// A frame that leaves memory, lock and reply buffer alone, unless it finishes a datagram.
fn send(board: &mut Bench, header: u32, data: &[u8]) -> FrameAnswer {
    let before = board.clone();
    board.reply.fill(FILL);
    let answer = board.frame(header, data).expect("no error of the caller");
    if !matches!(answer, Handled(_)) {
        assert_eq!(board.memory, before.memory);
        assert_eq!(board.lock, before.lock);
        assert!(board.reply.iter().all(|&byte| byte == FILL));
    }
    answer
}

/// Opens a datagram and joins this many bytes to it, at most 8 in a frame.
fn open(board: &mut Bench, source: u32, bytes: &[u8]) {
    let (start, rest) = bytes.split_at(bytes.len().min(8));
    assert_eq!(send(board, first(source), start), Nothing);
    for part in rest.chunks(8) {
        assert_eq!(send(board, middle(source), part), Nothing);
    }
    assert_eq!(
        board.reception.kept_for(source as u16),
        Kept::Bytes(bytes),
        "{source}"
    );
}

/// Opens a datagram and breaks it.
fn swallow(board: &mut Bench, source: u32) {
    open(board, source, &[0x20]);
    assert_eq!(
        send(board, first(source), &[0x20]),
        TransportRefusal(0x2040)
    );
    assert_eq!(board.reception.kept_for(source as u16), Kept::Swallowed);
}

/// A board where tool 1 is being swallowed, and no other tool is unfinished.
fn swallowing() -> Bench {
    let mut board = Bench::demo();
    swallow(&mut board, 1);
    assert_eq!(board.kept(), [(1, Swallowed)]);
    board
}

/// Every frame of tool 1 that breaks a datagram of so many bytes without being a Last, with the
/// code of its refusal.
fn breaking(joined: usize) -> Vec<(u32, Vec<u8>, u16)> {
    let mut frames = vec![(middle(1), vec![], 0x2040)];
    for length in 0..=8 {
        frames.push((single(1), vec![0x20; length], 0x2040));
        frames.push((first(1), vec![0x20; length], 0x2040));
        if joined + length > 72 {
            frames.push((middle(1), vec![0x20; length], 0x2000));
        }
    }
    frames
}

#[test]
fn each_refusal_that_starts_the_swallowing() {
    for joined in [0, 1, 8, 64, 65, 71, 72] {
        for (header, data, code) in breaking(joined) {
            let mut board = Bench::demo();
            open(&mut board, 1, &vec![0x20; joined]);
            open(&mut board, 2, &[0x20]);
            assert_eq!(send(&mut board, header, &data), TransportRefusal(code));
            assert_eq!(board.kept(), [(1, Swallowed), (2, Holds(hex("20")))]);
            // The rest of the datagram, and its Last.
            for _ in 0..3 {
                assert_eq!(send(&mut board, middle(1), &[0x20; 8]), Nothing);
                assert_eq!(board.kept(), [(1, Swallowed), (2, Holds(hex("20")))]);
            }
            assert_eq!(send(&mut board, last(1), &[0x20; 8]), Nothing);
            assert_eq!(board.kept(), [(2, Holds(hex("20")))]);
            // Now nothing is unfinished.
            for header in [middle(1), last(1)] {
                assert_eq!(send(&mut board, header, &[0]), TransportRefusal(0x2040));
            }
            assert_eq!(send(&mut board, single(1), &WRITE), WRITTEN);
            assert_eq!(board.kept(), [(2, Holds(hex("20")))]);
        }
    }
}

#[test]
fn a_middle_up_to_72_bytes_breaks_nothing() {
    for length in 1..=8 {
        let mut board = Bench::demo();
        open(&mut board, 1, &vec![0x20; 72 - length]);
        assert_eq!(send(&mut board, middle(1), &vec![0x20; length]), Nothing);
        assert_eq!(board.kept(), [(1, Holds(vec![0x20; 72]))]);
        assert_eq!(
            send(&mut board, middle(1), &[0x20]),
            TransportRefusal(0x2000)
        );
        assert_eq!(board.kept(), [(1, Swallowed)]);
    }
}

#[test]
fn a_refused_last_frees_the_place() {
    for length in 1..=8 {
        let mut board = Bench::demo();
        open(&mut board, 1, &vec![0x20; 73 - length]);
        assert_eq!(
            send(&mut board, last(1), &vec![0x20; length]),
            TransportRefusal(0x2000)
        );
        assert!(board.kept().is_empty());
        for (header, data) in [(middle(1), &[0][..]), (middle(1), &[]), (last(1), &[0])] {
            assert_eq!(send(&mut board, header, data), TransportRefusal(0x2040));
            assert!(board.kept().is_empty());
        }
    }
}

#[test]
fn strays_start_no_swallowing() {
    let mut board = Bench::demo();
    open(&mut board, 2, &[0x20]);
    for _ in 0..3 {
        for length in 0..=8 {
            for header in [middle(1), last(1), middle(1)] {
                assert_eq!(
                    send(&mut board, header, &vec![0x20; length]),
                    TransportRefusal(0x2040)
                );
                assert_eq!(board.kept(), [(2, Holds(hex("20")))]);
                assert_eq!(board.reception.kept_for(1), Kept::Nothing);
            }
        }
    }
}

#[test]
fn a_first_without_room_starts_no_swallowing() {
    let mut board = Bench::demo();
    for source in 1..=8 {
        open(&mut board, source, &[0x20]);
    }
    let full = board.kept();
    assert_eq!(
        send(&mut board, first(9), &[0x20]),
        TransportRefusal(0x2020)
    );
    for header in [middle(9), middle(9), last(9), last(9)] {
        assert_eq!(send(&mut board, header, &[0]), TransportRefusal(0x2040));
        assert_eq!(board.kept(), full);
    }
    // Not even where a place is freed meanwhile.
    assert_eq!(
        send(&mut board, first(9), &[0x20]),
        TransportRefusal(0x2020)
    );
    assert_eq!(
        send(&mut board, last(1), &[0xA8]),
        Handled(Answer::UpdateComplete)
    );
    assert_eq!(send(&mut board, middle(9), &[0]), TransportRefusal(0x2040));
    assert_eq!(board.kept(), full[1..]);
}

#[test]
fn a_datagram_refused_as_a_whole_starts_no_swallowing() {
    let mut board = Bench::demo();
    for (data, code) in [
        (&[][..], 0x1080),
        (&[0x21], 0x1042),
        (&[0x20, 0x44], 0x1041),
    ] {
        let refused = Handled(Answer::Rejected(code));
        assert_eq!(send(&mut board, single(1), data), refused);
        assert_eq!(send(&mut board, first(1), data), Nothing);
        assert_eq!(send(&mut board, last(1), &[]), refused);
        assert!(board.kept().is_empty());
        for header in [middle(1), last(1)] {
            assert_eq!(send(&mut board, header, &[0]), TransportRefusal(0x2040));
        }
    }
}

#[test]
fn middles_of_any_length_are_swallowed() {
    let mut board = swallowing();
    for length in (0..=8).chain((0..=8).rev()) {
        assert_eq!(send(&mut board, middle(1), &vec![0x20; length]), Nothing);
        assert_eq!(board.kept(), [(1, Swallowed)]);
    }
}

#[test]
fn no_total_ends_the_swallowing() {
    let mut board = swallowing();
    // Past every count of 8 and 16 bits, in frames and in bytes.
    for _ in 0..70_000 {
        let answer = board.frame(middle(1), &[0x20; 8]);
        assert_eq!(answer, Ok(Nothing));
    }
    assert_eq!(board.kept(), [(1, Swallowed)]);
    assert_eq!(send(&mut board, last(1), &[0x20; 8]), Nothing);
    assert!(board.kept().is_empty());
}

#[test]
fn a_last_of_any_length_is_swallowed_and_frees_the_place() {
    for length in 0..=8 {
        // Even one that would make a command by itself.
        let data = [&WRITE[..], &[0xCD]].concat();
        for middles in 0..3 {
            let mut board = swallowing();
            for _ in 0..middles {
                assert_eq!(send(&mut board, middle(1), &[0x20]), Nothing);
            }
            assert_eq!(send(&mut board, last(1), &data[..length]), Nothing);
            assert!(board.kept().is_empty());
            assert_eq!(board.reception.kept_for(1), Kept::Nothing);
            // One Last alone.
            let refused = TransportRefusal(0x2040);
            let mut again = board.clone();
            assert_eq!(send(&mut again, last(1), &data[..length]), refused);
            assert!(again.kept().is_empty());
            assert_eq!(send(&mut board, middle(1), &data[..length]), refused);
            assert!(board.kept().is_empty());
        }
    }
}

#[test]
fn a_single_ends_the_swallowing_and_is_handled() {
    let handled: [(&[u8], FrameAnswer); 5] = [
        (&WRITE, WRITTEN),
        (&[0x20, 0xA8], Handled(Answer::UpdateComplete)),
        (&[0x20, 0x80], Handled(Answer::Replied(7))),
        (&[], Handled(Answer::Rejected(0x1080))),
        (&[0x21], Handled(Answer::Rejected(0x1042))),
    ];
    for (data, answer) in handled {
        let mut board = swallowing();
        assert_eq!(send(&mut board, single(1), data), answer);
        assert!(board.kept().is_empty());
        assert_eq!(send(&mut board, last(1), &[]), TransportRefusal(0x2040));
        assert_eq!(send(&mut board, single(1), data), answer);
    }
    let mut board = swallowing();
    assert_eq!(send(&mut board, single(1), &WRITE), WRITTEN);
    assert_eq!(board.memory[1..4], [0, 0xAB, 0]);
}

#[test]
fn a_first_ends_the_swallowing_and_opens() {
    for length in 0..=7 {
        let mut board = Bench::demo();
        // Nothing of the broken datagram, nor of what was swallowed, is left.
        open(&mut board, 1, &[0x55; 40]);
        assert_eq!(send(&mut board, middle(1), &[]), TransportRefusal(0x2040));
        assert_eq!(send(&mut board, middle(1), &[0x66; 8]), Nothing);
        assert_eq!(send(&mut board, first(1), &WRITE[..length]), Nothing);
        assert_eq!(board.kept(), [(1, Holds(WRITE[..length].to_vec()))]);
        assert_eq!(send(&mut board, last(1), &WRITE[length..]), WRITTEN);
        assert_eq!(board.memory[1..4], [0, 0xAB, 0]);
        assert!(board.kept().is_empty());
    }
}

#[test]
fn each_broken_datagram_gets_its_own_refusal() {
    let mut board = Bench::demo();
    for _ in 0..5 {
        // Opened, broken by a First, and opened anew by the next.
        assert_eq!(send(&mut board, first(1), &[0x20]), Nothing);
        assert_eq!(
            send(&mut board, first(1), &[0x20]),
            TransportRefusal(0x2040)
        );
        assert_eq!(send(&mut board, first(1), &[0x20]), Nothing);
        assert_eq!(send(&mut board, middle(1), &[]), TransportRefusal(0x2040));
        assert_eq!(send(&mut board, middle(1), &[]), Nothing);
        // Opened anew and made too long.
        open(&mut board, 1, &[0x20; 72]);
        assert_eq!(
            send(&mut board, middle(1), &[0x20]),
            TransportRefusal(0x2000)
        );
        assert_eq!(send(&mut board, middle(1), &[0x20]), Nothing);
        assert_eq!(send(&mut board, single(1), &WRITE), WRITTEN);
        assert!(board.kept().is_empty());
    }
}

#[test]
fn a_first_always_has_its_own_place() {
    // Tool `own` is being swallowed among so many others; it stands in every place once.
    for others in [0, 1, 6, 7] {
        for own in 1..=others + 1 {
            let mut board = Bench::demo();
            for source in 1..=others + 1 {
                open(&mut board, source, &[0x20, source as u8]);
            }
            let mut expected = board.kept();
            assert_eq!(send(&mut board, single(own), &[]), TransportRefusal(0x2040));
            expected[own as usize - 1].1 = Swallowed;
            assert_eq!(board.kept(), expected);
            let mut handled = board.clone();
            assert_eq!(send(&mut board, first(own), &WRITE[..3]), Nothing);
            expected[own as usize - 1].1 = Holds(WRITE[..3].to_vec());
            assert_eq!(board.kept(), expected);
            assert_eq!(send(&mut board, last(own), &WRITE[3..]), WRITTEN);
            expected.remove(own as usize - 1);
            assert_eq!(board.kept(), expected);
            // A Single leaves the others alone, and the place to a ninth tool.
            assert_eq!(send(&mut handled, single(own), &WRITE), WRITTEN);
            assert_eq!(handled.kept(), expected);
            assert_eq!(send(&mut handled, first(9), &[0x20]), Nothing);
            assert_eq!(handled.kept().len(), others as usize + 1);
        }
    }
}

#[test]
fn a_place_being_swallowed_is_one_of_the_eight() {
    for broken in 1..=8 {
        let mut board = Bench::demo();
        for source in 1..=8 {
            open(&mut board, source, &[0x20]);
        }
        // The first so many are being swallowed.
        for source in 1..=broken {
            assert_eq!(
                send(&mut board, first(source), &[0x20]),
                TransportRefusal(0x2040)
            );
        }
        let full = board.kept();
        assert_eq!(full.len(), 8);
        for data in [&[][..], &[0x20]] {
            assert_eq!(send(&mut board, first(9), data), TransportRefusal(0x2020));
            assert_eq!(board.kept(), full);
        }
        assert_eq!(send(&mut board, single(9), &WRITE), WRITTEN);
        // Swallowed Middles free nothing, the Last does.
        assert_eq!(send(&mut board, middle(broken), &[0]), Nothing);
        assert_eq!(
            send(&mut board, first(9), &[0x20]),
            TransportRefusal(0x2020)
        );
        assert_eq!(send(&mut board, last(broken), &[0]), Nothing);
        assert_eq!(board.kept().len(), 7);
        open(&mut board, 9, &[0x20]);
        assert_eq!(
            send(&mut board, first(broken), &[0x20]),
            TransportRefusal(0x2020)
        );
        assert_eq!(
            send(&mut board, last(9), &[0xA8]),
            Handled(Answer::UpdateComplete)
        );
    }
}

#[test]
fn a_place_used_again_is_not_swallowed() {
    // Freed by a Last, by a Single, and by its age; then another tool has it.
    for end in 0..3 {
        let mut board = swallowing();
        match end {
            0 => assert_eq!(send(&mut board, last(1), &[]), Nothing),
            1 => assert_eq!(send(&mut board, single(1), &WRITE), WRITTEN),
            _ => {
                board.time = 3_001;
                assert_eq!(board.lone_tick(), Ok(()));
            }
        }
        assert!(board.kept().is_empty());
        open(&mut board, 2, &WRITE[..5]);
        assert_eq!(send(&mut board, middle(2), &WRITE[5..6]), Nothing);
        assert_eq!(board.kept(), [(2, Holds(WRITE[..6].to_vec()))]);
        assert_eq!(send(&mut board, last(2), &WRITE[6..]), WRITTEN);
    }
}

#[test]
fn two_tools_take_turns() {
    let mut board = Bench::demo();
    open(&mut board, 1, &WRITE[..2]);
    open(&mut board, 2, &hex("200100"));
    // Tool 1 breaks its datagram; tool 2 carries on between its frames.
    assert_eq!(
        send(&mut board, first(1), &WRITE[..2]),
        TransportRefusal(0x2040)
    );
    assert_eq!(send(&mut board, middle(2), &hex("0000")), Nothing);
    assert_eq!(send(&mut board, middle(1), &[0x11; 8]), Nothing);
    assert_eq!(send(&mut board, middle(2), &hex("0A")), Nothing);
    assert_eq!(send(&mut board, middle(1), &[]), Nothing);
    assert_eq!(
        board.kept(),
        [(1, Swallowed), (2, Holds(hex("20010000000A")))]
    );
    assert_eq!(
        send(&mut board, last(2), &hex("77")),
        Handled(Answer::Written {
            start: 10,
            count: 1
        })
    );
    assert_eq!(board.kept(), [(1, Swallowed)]);
    // Tool 2 has nothing unfinished now, and its strays are not swallowed with those of tool 1.
    assert_eq!(send(&mut board, middle(2), &[0]), TransportRefusal(0x2040));
    assert_eq!(send(&mut board, last(2), &[0]), TransportRefusal(0x2040));
    assert_eq!(send(&mut board, middle(1), &[0]), Nothing);
    // Both are being swallowed, and each has its own Last.
    open(&mut board, 2, &[0x20]);
    assert_eq!(send(&mut board, single(2), &[]), TransportRefusal(0x2040));
    assert_eq!(board.kept(), [(1, Swallowed), (2, Swallowed)]);
    assert_eq!(send(&mut board, last(1), &[0]), Nothing);
    assert_eq!(board.kept(), [(2, Swallowed)]);
    assert_eq!(send(&mut board, middle(1), &[0]), TransportRefusal(0x2040));
    assert_eq!(send(&mut board, middle(2), &[0]), Nothing);
    assert_eq!(send(&mut board, first(1), &WRITE[..6]), Nothing);
    assert_eq!(send(&mut board, last(2), &[0]), Nothing);
    assert_eq!(send(&mut board, last(1), &WRITE[6..]), WRITTEN);
    assert!(board.kept().is_empty());
    assert_eq!(board.memory[2], 0xAB);
    assert_eq!(board.memory[10], 0x77);
}

#[test]
fn what_is_ignored_is_ignored_while_swallowing() {
    let mut board = swallowing();
    open(&mut board, 2, &[0x20]);
    let before = board.clone();
    let assert_ignored = |board: &mut Bench, header: u32, data: &[u8]| {
        assert_eq!(send(board, header, data), Ignored);
        board.assert_as(&before);
    };
    for top in (0..=0xFF).filter(|top| !(0x1A..=0x1D).contains(top)) {
        assert_ignored(&mut board, top << 24 | 0x22_B001, &WRITE);
    }
    for kind in [0x1A00_0000, 0x1B00_0000, 0x1C00_0000, 0x1D00_0000] {
        for high in [0x2000_0000, 0x4000_0000, 0x8000_0000, 0xE000_0000] {
            assert_ignored(&mut board, kind | high | 0x22_B001, &WRITE);
        }
        for destination in [0, 0x22A, 0x22C, 0xFFF] {
            assert_ignored(&mut board, kind | destination << 12 | 0x001, &WRITE);
            assert_ignored(&mut board, kind | destination << 12 | 0x001, &[]);
        }
        assert_ignored(&mut board, kind | 0x22_B22B, &WRITE);
        for length in [9, 64, 73] {
            assert_ignored(&mut board, kind | 0x22_B001, &vec![0x20; length]);
        }
    }
    assert_ignored(&mut board, 0x19A2_8001, &hex("022B00"));
    assert_ignored(&mut board, 0x19A4_8001, &hex("022B2040"));
    assert_eq!(board.kept(), [(1, Swallowed), (2, Holds(hex("20")))]);
}

#[test]
fn source_zero_and_the_last_source_are_swallowed_too() {
    for source in [0, 0xFFF] {
        let mut board = Bench::demo();
        swallow(&mut board, source);
        assert_eq!(send(&mut board, middle(source), &[]), Nothing);
        assert_eq!(send(&mut board, last(source), &[]), Nothing);
        assert!(board.kept().is_empty());
        swallow(&mut board, source);
        assert_eq!(send(&mut board, single(source), &WRITE), WRITTEN);
        assert!(board.kept().is_empty());
    }
}

#[test]
fn a_state_handed_in_goes_on_as_one_that_came_about() {
    let bytes = [0x55; 72];
    let mut turned = [
        Unfinished {
            length: 200,
            bytes: &bytes,
            ..swallowed(1)
        },
        entry(2, 1, &[0x20]),
        Unfinished {
            length: 72,
            bytes: &bytes,
            ..swallowed(3)
        },
    ];
    let mut came_about = Bench::demo();
    swallow(&mut came_about, 3);
    open(&mut came_about, 2, &[0x20]);
    swallow(&mut came_about, 1);
    let frames: [(u32, &[u8]); 9] = [
        (middle(1), &[0x20; 8]),
        (middle(3), &[]),
        (first(1), &[0x20]),
        (middle(1), &[0xA8]),
        (last(3), &[0xA8]),
        (last(3), &[0xA8]),
        (last(1), &[]),
        (single(2), &[0x20, 0xA8]),
        (single(2), &[0x20, 0xA8]),
    ];
    for _ in 0..3 {
        turned.rotate_left(1);
        let mut handed_in = Bench::demo();
        handed_in.reception = Reception::from_unfinished(&turned).unwrap();
        let mut came_about = came_about.clone();
        came_about.reply.fill(FILL);
        came_about.assert_same(&handed_in);
        for (header, data) in frames {
            let answer = send(&mut handed_in, header, data);
            assert_eq!(send(&mut came_about, header, data), answer);
            handed_in.assert_same(&came_about);
        }
        assert!(handed_in.kept().is_empty());
    }
}
