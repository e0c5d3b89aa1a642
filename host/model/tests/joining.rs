//! Holds the tests of the joining of frames: order, totals, room, and what is ignored. What becomes
//! of a source after its datagram was broken is tested apart, with the swallowing.

mod common;

use common::{first, hex, last, middle, single, Bench, Book, FILL};
use model::{Answer, FrameAnswer, Reception};
use Book::{Holds, Swallowed};
use FrameAnswer::{Handled, Ignored, Nothing, TransportRefusal};

const WRITE: [u8; 7] = [0x20, 0x01, 0, 0, 0, 2, 0xAB];

fn send(board: &mut Bench, header: u32, data: &[u8]) -> FrameAnswer {
    let before = board.clone();
    board.reply.fill(FILL);
    let answer = board.frame(header, data).expect("no error of the caller");
    if !matches!(answer, Handled(_)) {
        assert_eq!(board.memory, before.memory);
        assert_eq!(board.lock, before.lock);
    }
    if !matches!(answer, Handled(Answer::Replied(_))) {
        assert!(board.reply.iter().all(|&byte| byte == FILL));
    }
    if answer == Ignored {
        assert_eq!(board.kept(), before.kept());
    }
    answer
}

/// The answer to a write of `count` bytes of memory from index `start` on.
const fn written(start: usize, count: usize) -> FrameAnswer {
    Handled(Answer::Written { start, count })
}

#[test]
fn a_single_is_a_whole_datagram() {
    let mut board = Bench::demo();
    assert_eq!(send(&mut board, single(1), &WRITE), written(2, 1));
    assert_eq!(board.memory[2], 0xAB);
    assert_eq!(
        send(&mut board, single(1), &[]),
        Handled(Answer::Rejected(0x1080))
    );
    assert_eq!(
        send(&mut board, single(1), &[0x21]),
        Handled(Answer::Rejected(0x1042))
    );
    assert_eq!(
        send(&mut board, single(1), &hex("20410000000202")),
        Handled(Answer::Replied(8))
    );
    assert_eq!(board.reply[..8], hex("205100000002AB00"));
    assert!(board.kept().is_empty());
}

#[test]
fn first_middle_last_are_joined_in_order() {
    let mut board = Bench::demo();
    assert_eq!(send(&mut board, first(1), &hex("2001")), Nothing);
    assert_eq!(send(&mut board, middle(1), &hex("000000")), Nothing);
    assert_eq!(send(&mut board, middle(1), &hex("04")), Nothing);
    assert_eq!(board.kept(), [(1, Holds(hex("200100000004")))]);
    assert_eq!(send(&mut board, last(1), &hex("1122")), written(4, 2));
    assert_eq!(board.memory[3..7], [0, 0x11, 0x22, 0]);
    assert!(board.kept().is_empty());
}

#[test]
fn frames_of_no_bytes() {
    let mut board = Bench::demo();
    // Opened with zero bytes is unfinished all the same.
    assert_eq!(send(&mut board, first(1), &[]), Nothing);
    assert_eq!(board.kept(), [(1, Holds(vec![]))]);
    assert_eq!(
        send(&mut board, last(1), &[]),
        Handled(Answer::Rejected(0x1080))
    );
    assert!(board.kept().is_empty());
    assert_eq!(send(&mut board, first(1), &[]), Nothing);
    assert_eq!(
        send(&mut board, last(1), &hex("20A8")),
        Handled(Answer::UpdateComplete)
    );
    assert_eq!(send(&mut board, first(1), &[]), Nothing);
    assert_eq!(send(&mut board, first(1), &[]), TransportRefusal(0x2040));
    assert_eq!(board.kept(), [(1, Swallowed)]);
    assert_eq!(send(&mut board, last(1), &[]), Nothing);
    assert!(board.kept().is_empty());
    // A Last of no bytes ends what is there.
    assert_eq!(send(&mut board, first(1), &hex("20A8")), Nothing);
    assert_eq!(
        send(&mut board, last(1), &[]),
        Handled(Answer::UpdateComplete)
    );
    // An empty Middle breaks a datagram; with none unfinished it is refused too.
    assert_eq!(send(&mut board, first(1), &hex("20A8")), Nothing);
    assert_eq!(send(&mut board, middle(1), &[]), TransportRefusal(0x2040));
    assert_eq!(board.kept(), [(1, Swallowed)]);
    assert_eq!(send(&mut board, middle(1), &[]), Nothing);
    assert_eq!(send(&mut board, last(1), &[]), Nothing);
    assert!(board.kept().is_empty());
    assert_eq!(send(&mut board, middle(1), &[]), TransportRefusal(0x2040));
    assert_eq!(send(&mut board, last(1), &[]), TransportRefusal(0x2040));
    assert!(board.kept().is_empty());
}

#[test]
fn frames_out_of_order() {
    for stray in [single(1), first(1)] {
        let mut board = Bench::demo();
        assert_eq!(send(&mut board, first(2), &hex("20")), Nothing);
        assert_eq!(send(&mut board, first(1), &hex("2001")), Nothing);
        assert_eq!(send(&mut board, stray, &WRITE), TransportRefusal(0x2040));
        assert_eq!(board.memory[2], 0);
        assert_eq!(board.kept(), [(1, Swallowed), (2, Holds(hex("20")))]);
        // What is left of the broken datagram is swallowed, up to its Last.
        assert_eq!(send(&mut board, middle(1), &hex("00")), Nothing);
        assert_eq!(send(&mut board, last(1), &hex("00")), Nothing);
        assert_eq!(board.kept(), [(2, Holds(hex("20")))]);
        // Each stray frame afterwards gets its own refusal.
        for header in [middle(1), last(1), last(1), middle(1)] {
            assert_eq!(
                send(&mut board, header, &hex("00")),
                TransportRefusal(0x2040)
            );
            assert_eq!(board.kept(), [(2, Holds(hex("20")))]);
        }
        assert_eq!(send(&mut board, single(1), &WRITE), written(2, 1));
        assert_eq!(board.kept(), [(2, Holds(hex("20")))]);
    }
}

#[test]
fn totals_of_72_and_73_bytes() {
    let fill = |board: &mut Bench, frames: usize| {
        assert_eq!(send(board, first(1), &[0x20; 8]), Nothing);
        for _ in 1..frames {
            assert_eq!(send(board, middle(1), &[0x44; 8]), Nothing);
        }
    };
    let mut board = Bench::demo();
    fill(&mut board, 8);
    assert_eq!(
        send(&mut board, last(1), &[0; 8]),
        Handled(Answer::Rejected(0x1041))
    );
    fill(&mut board, 9);
    assert_eq!(
        board.kept(),
        [(1, Holds([[0x20; 8].as_slice(), &[0x44; 64]].concat()))]
    );
    assert_eq!(
        send(&mut board, last(1), &[]),
        Handled(Answer::Rejected(0x1041))
    );
    fill(&mut board, 9);
    assert_eq!(send(&mut board, last(1), &[0]), TransportRefusal(0x2000));
    assert!(board.kept().is_empty());
    assert_eq!(send(&mut board, last(1), &[]), TransportRefusal(0x2040));
    fill(&mut board, 9);
    assert_eq!(send(&mut board, middle(1), &[0]), TransportRefusal(0x2000));
    assert_eq!(board.kept(), [(1, Swallowed)]);
    assert_eq!(send(&mut board, last(1), &[]), Nothing);
    assert!(board.kept().is_empty());
    // An empty Middle is tested before the total.
    fill(&mut board, 9);
    assert_eq!(send(&mut board, middle(1), &[]), TransportRefusal(0x2040));
    assert_eq!(board.kept(), [(1, Swallowed)]);
    // Past 72 by more than one.
    assert_eq!(send(&mut board, first(1), &[0; 7]), Nothing);
    for _ in 0..8 {
        assert_eq!(send(&mut board, middle(1), &[0; 8]), Nothing);
    }
    assert_eq!(
        send(&mut board, middle(1), &[0; 2]),
        TransportRefusal(0x2000)
    );
}

#[test]
fn the_eighth_and_the_ninth_source() {
    let mut board = Bench::demo();
    for source in 1..=8 {
        assert_eq!(
            send(&mut board, first(source), &[0x20, source as u8]),
            Nothing
        );
    }
    let full = board.kept();
    assert_eq!(full.len(), 8);
    assert_eq!(
        send(&mut board, first(9), &[0x20]),
        TransportRefusal(0x2020)
    );
    assert_eq!(board.kept(), full);
    // Nothing was opened.
    assert_eq!(send(&mut board, middle(9), &[0]), TransportRefusal(0x2040));
    assert_eq!(send(&mut board, last(9), &[0]), TransportRefusal(0x2040));
    assert_eq!(send(&mut board, middle(9), &[]), TransportRefusal(0x2040));
    assert_eq!(board.kept(), full);
    // A Single needs no room.
    assert_eq!(send(&mut board, single(9), &WRITE), written(2, 1));
    // A First from one of the eight is out of order, not without room; its place stays taken up to
    // the Last.
    assert_eq!(
        send(&mut board, first(4), &[0x20]),
        TransportRefusal(0x2040)
    );
    assert_eq!(board.kept().len(), 8);
    assert_eq!(
        send(&mut board, first(9), &[0x20, 9]),
        TransportRefusal(0x2020)
    );
    assert_eq!(send(&mut board, last(4), &[]), Nothing);
    assert_eq!(board.kept().len(), 7);
    assert_eq!(send(&mut board, first(9), &[0x20, 9]), Nothing);
    assert_eq!(
        send(&mut board, first(4), &[0x20]),
        TransportRefusal(0x2020)
    );
    // Room freed by a Last that finishes, by one past 72 bytes and by a Single that ends the
    // swallowing is used again.
    assert_eq!(
        send(&mut board, last(1), &[]),
        Handled(Answer::Rejected(0x1080))
    );
    assert_eq!(send(&mut board, first(4), &[0x20, 4]), Nothing);
    for _ in 0..8 {
        assert_eq!(send(&mut board, middle(2), &[0; 8]), Nothing);
    }
    assert_eq!(send(&mut board, last(2), &[0; 8]), TransportRefusal(0x2000));
    assert_eq!(send(&mut board, first(1), &[0x20, 1]), Nothing);
    assert_eq!(
        send(&mut board, single(3), &WRITE),
        TransportRefusal(0x2040)
    );
    assert_eq!(
        send(&mut board, first(2), &[0x20, 2]),
        TransportRefusal(0x2020)
    );
    assert_eq!(send(&mut board, single(3), &WRITE), written(2, 1));
    assert_eq!(send(&mut board, first(2), &[0x20, 2]), Nothing);
    assert_eq!(
        send(&mut board, first(3), &[0x20, 3]),
        TransportRefusal(0x2020)
    );
    let expected = [1, 2, 4, 5, 6, 7, 8, 9].map(|source| (source, Holds(vec![0x20, source as u8])));
    assert_eq!(board.kept(), expected);
}

#[test]
fn interleaved_sources_are_kept_apart() {
    let mut board = Bench::demo();
    for source in 0..8 {
        assert_eq!(
            send(&mut board, first(source), &hex("200100000000")),
            Nothing
        );
    }
    for source in (0..8).rev() {
        assert_eq!(
            send(&mut board, middle(source), &[source as u8 + 1; 3]),
            Nothing
        );
    }
    for source in [3, 1, 0, 7, 5, 6, 4, 2] {
        let answer = send(&mut board, last(source), &[source as u8 + 0x10]);
        assert_eq!(answer, written(0, 4));
        let one = source as u8 + 1;
        assert_eq!(board.memory[..5], [one, one, one, source as u8 + 0x10, 0]);
    }
}

#[test]
fn source_zero_and_the_last_source() {
    let mut board = Bench::demo();
    for source in [0, 0xFFF] {
        assert_eq!(send(&mut board, first(source), &hex("20")), Nothing);
        assert_eq!(
            send(&mut board, last(source), &hex("A8")),
            Handled(Answer::UpdateComplete)
        );
        assert_eq!(
            send(&mut board, single(source), &hex("20A8")),
            Handled(Answer::UpdateComplete)
        );
    }
}

#[test]
fn what_is_ignored() {
    let mut board = Bench::demo();
    assert_eq!(send(&mut board, first(0x123), &hex("2001")), Nothing);
    // Any other header, Received OK and Rejected among them.
    for top in (0..=0xFF).filter(|top| !(0x1A..=0x1D).contains(top)) {
        assert_eq!(send(&mut board, top << 24 | 0x22_B123, &WRITE), Ignored);
    }
    assert_eq!(send(&mut board, 0x19A2_8123, &hex("022B00")), Ignored);
    assert_eq!(send(&mut board, 0x19A4_8123, &hex("022B2040")), Ignored);
    for kind in [0x1A00_0000, 0x1B00_0000, 0x1C00_0000, 0x1D00_0000] {
        // Over 29 bits.
        for high in [0x2000_0000, 0x4000_0000, 0x8000_0000, 0xE000_0000] {
            assert_eq!(send(&mut board, kind | high | 0x22_B123, &WRITE), Ignored);
        }
        // Another destination.
        for destination in [0, 0x22A, 0x22C, 0x300, 0xFFF] {
            assert_eq!(
                send(&mut board, kind | destination << 12 | 0x123, &WRITE),
                Ignored
            );
        }
        // The board's own alias as source.
        assert_eq!(send(&mut board, kind | 0x22_B22B, &WRITE), Ignored);
        assert_eq!(send(&mut board, kind | 0x22_B22B, &[]), Ignored);
        // Data over 8 bytes.
        assert_eq!(send(&mut board, kind | 0x22_B123, &[0; 9]), Ignored);
        assert_eq!(send(&mut board, kind | 0x22_B123, &[0; 100]), Ignored);
    }
    assert_eq!(board.kept(), [(0x123, Holds(hex("2001")))]);
    assert_eq!(
        send(&mut board, last(0x123), &hex("0000000255")),
        written(2, 1)
    );
    assert_eq!(board.memory[2], 0x55);
}

#[test]
fn the_order_of_the_places_does_not_matter() {
    let bytes = hex("20010000000301");
    let entries: Vec<_> = (1..=8)
        .map(|source| common::entry(source, bytes.len(), &bytes))
        .collect();
    for turn in 0..8 {
        let mut turned = entries.clone();
        turned.rotate_left(turn);
        let mut board = Bench::demo();
        board.reception = Reception::from_unfinished(&turned).unwrap();
        assert_eq!(
            send(&mut board, first(9), &[0x20]),
            TransportRefusal(0x2020)
        );
        assert_eq!(send(&mut board, last(5), &[5]), written(3, 2));
        assert_eq!(board.memory[3..5], [1, 5]);
        assert_eq!(send(&mut board, first(9), &[0x20]), Nothing);
        let sources: Vec<u16> = board.kept().iter().map(|kept| kept.0).collect();
        assert_eq!(sources, [1, 2, 3, 4, 6, 7, 8, 9]);
    }
}
