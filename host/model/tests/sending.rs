//! Holds the tests of what the board sends for a frame: the transport reply and the reply's frames.

mod common;

use common::{first, hex, last, middle, single, space, Bench};
use model::{
    cut, frames_to_send, parse_line, print_line, received_ok_frame, CallError, Frame, FrameAnswer,
    LONGEST_LINE, MOST_SENT,
};

fn other() -> Frame {
    Frame::new(0x0BAD_F00D, &[0xEE; 8]).unwrap()
}

/// Hands the board a frame and gives what it sends; the room behind that has to keep what it had.
fn sent(board: &mut Bench, header: u32, data: &[u8]) -> Vec<Frame> {
    let answer = board.frame(header, data);
    let mut room = [other(); MOST_SENT];
    let count = frames_to_send(board.alias, header, answer, &board.reply, &mut room);
    assert!(room[count..].iter().all(|frame| *frame == other()));
    room[..count].to_vec()
}

fn lines(frames: &[Frame]) -> Vec<String> {
    frames
        .iter()
        .map(|frame| String::from_utf8_lossy(print_line(frame, &mut [0; LONGEST_LINE])).into())
        .collect()
}

#[test]
fn the_session_of_document_01() {
    let session: [(&str, &[&str]); 7] = [
        (":X1A22B123N200100000002ABCD;", &[":X19A2822BN012300;"]),
        (":X1B22B123N200800000002FD0F;", &[]),
        (
            ":X1A22B456N20410000000202;",
            &[":X19A2822BN045680;", ":X1A45622BN205100000002ABCD;"],
        ),
        (":X1D22B123N5A;", &[":X19A2822BN012300;"]),
        (
            ":X1A22B456N20410000000202;",
            &[":X19A2822BN045680;", ":X1A45622BN205100000002AACD;"],
        ),
        (
            ":X1A22B123N20030000000001;",
            &[":X19A2822BN012380;", ":X1A12322BN201B000000001083;"],
        ),
        (":X1A300123N2080;", &[]),
    ];
    let mut board = Bench::demo();
    for (line, expected) in session {
        let frame = parse_line(line.as_bytes()).unwrap();
        let sent = sent(&mut board, frame.header(), frame.data());
        assert_eq!(lines(&sent), expected, "{line}");
    }
}

#[test]
fn nothing_is_sent_for_an_error_of_the_caller_an_ignored_and_a_joined_frame() {
    let read = hex("20410000000201");
    let mut board = Bench::demo();
    // Ignored: another header, over 29 bits, another destination, the board itself, over 8 bytes.
    for header in [0x19A2_8123, 0x3A22_B123, 0x1A22_C123, 0x1A22_B22B] {
        assert_eq!(board.frame(header, &read), Ok(FrameAnswer::Ignored));
        assert_eq!(sent(&mut board, header, &read), []);
    }
    assert_eq!(sent(&mut board, single(1), &[0x20; 9]), []);
    // Joined.
    assert_eq!(sent(&mut board, first(1), &read), []);
    assert_eq!(sent(&mut board, middle(1), &[1]), []);
    assert_eq!(sent(&mut board, first(2), &[]), []);
    // Errors of the caller.
    for spoil in [
        |board: &mut Bench| board.alias = 0,
        |board: &mut Bench| board.alias = 0x122B,
        |board: &mut Bench| board.spaces[0].lowest = 0x20,
        |board: &mut Bench| board.reply.truncate(71),
    ] {
        let mut board = Bench::demo();
        spoil(&mut board);
        assert!(board.frame(single(1), &read).is_err());
        assert_eq!(sent(&mut board, single(1), &read), []);
    }
    for error in [
        CallError::B11TooManySpaces,
        CallError::B14AliasOutOfRange,
        CallError::B2LowestAboveHighest(0),
        CallError::B5NumberUsedTwice(15),
        CallError::B7BadReceptionState,
    ] {
        let mut room = [other(); MOST_SENT];
        let count = frames_to_send(0x22B, single(1), Err(error), &[], &mut room);
        assert_eq!((count, room), (0, [other(); MOST_SENT]));
    }
}

#[test]
fn a_refusal_is_one_rejected() {
    let mut board = Bench::demo();
    let one = |board: &mut Bench, header, data: &[u8]| lines(&sent(board, header, data)).join(" ");
    assert_eq!(one(&mut board, last(1), &[]), ":X19A4822BN00012040;");
    for source in 1..=8 {
        assert_eq!(one(&mut board, first(source), &[0x20; 8]), "");
    }
    assert_eq!(one(&mut board, first(9), &[0x20]), ":X19A4822BN00092020;");
    assert_eq!(one(&mut board, middle(3), &[]), ":X19A4822BN00032040;");
    for _ in 0..8 {
        assert_eq!(one(&mut board, middle(8), &[0x20; 8]), "");
    }
    assert_eq!(one(&mut board, last(8), &[0x20]), ":X19A4822BN00082000;");
    assert_eq!(one(&mut board, single(0xFFF), &[]), ":X19A4822BN0FFF1080;");
    assert_eq!(one(&mut board, single(0), &[0x21]), ":X19A4822BN00001042;");
    assert_eq!(
        one(&mut board, single(0xABC), &hex("2044")),
        ":X19A4822BN0ABC1041;"
    );
}

#[test]
fn what_is_done_without_a_reply_is_one_received_ok() {
    let mut board = Bench::demo();
    for datagram in ["20010000000011", "200900000000FF11", "20A8"] {
        assert_eq!(
            sent(&mut board, single(0x456), &hex(datagram)),
            [received_ok_frame(0x22B, 0x456, 0)]
        );
    }
}

#[test]
fn a_reply_goes_behind_received_ok_in_up_to_nine_frames() {
    let mut board = Bench::with_spaces(&[space(0x10, 0, 0xFF, 0)]);
    board.memory = (0..=255).collect();
    for count in 1..=64u8 {
        let datagram = [&hex("20400000000310")[..], &[count]].concat();
        let frames = sent(&mut board, single(0x123), &datagram);
        let length = 7 + usize::from(count);
        assert_eq!(frames[0], received_ok_frame(0x22B, 0x123, 0x80));
        assert_eq!(
            frames[1..],
            cut(&board.reply[..length], 0x123, 0x22B).unwrap()[..]
        );
        assert_eq!(frames.len(), 1 + length.div_ceil(8));
    }
    assert_eq!(MOST_SENT, 10);
    // A failure is a reply as well.
    assert_eq!(
        lines(&sent(&mut board, single(0x123), &hex("2040000000031101"))),
        [
            ":X19A2822BN012380;",
            ":X1B12322BN2058000000031110;",
            ":X1D12322BN81;"
        ]
    );
}
