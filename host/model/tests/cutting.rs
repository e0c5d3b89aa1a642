//! Holds the tests of cutting (B9), of the transport reply frames and of GridConnect lines.

mod common;

use common::{hex, Bench};
use model::{
    cut, cut_into, parse_line, print_line, received_ok_frame, rejected_frame, transport_reply,
    Answer, CallError, Frame, FrameAnswer, LONGEST_LINE, MOST_FRAMES,
};

fn text(frame: &Frame) -> String {
    String::from_utf8(print_line(frame, &mut [0; LONGEST_LINE]).to_vec()).unwrap()
}

#[test]
fn every_length_is_cut_by_the_rule() {
    let bytes: Vec<u8> = (0..72).collect();
    for length in 0..=72 {
        let frames = cut(&bytes[..length], 0x123, 0x22B).unwrap();
        let joined: Vec<u8> = frames
            .iter()
            .flat_map(|frame| frame.data().to_vec())
            .collect();
        assert_eq!(joined, bytes[..length]);
        let kinds: Vec<u32> = frames.iter().map(|frame| frame.header() >> 24).collect();
        let sizes: Vec<usize> = frames.iter().map(|frame| frame.data().len()).collect();
        assert!(frames
            .iter()
            .all(|frame| frame.header() & 0xFF_FFFF == 0x12_322B));
        if length <= 8 {
            assert_eq!(kinds, [0x1A]);
        } else {
            assert_eq!(frames.len(), length.div_ceil(8));
            assert_eq!(kinds[0], 0x1B);
            assert!(kinds[1..kinds.len() - 1].iter().all(|&kind| kind == 0x1C));
            assert_eq!(kinds[kinds.len() - 1], 0x1D);
            assert!(sizes[..sizes.len() - 1].iter().all(|&size| size == 8));
            assert!((1..=8).contains(&sizes[sizes.len() - 1]));
        }
    }
}

#[test]
fn what_is_cut_is_joined_again() {
    for length in 6..=70 {
        let mut datagram = hex("200100000000");
        datagram.resize(length, 0x5A);
        let mut whole = Bench::demo();
        whole.spaces = vec![common::space(0xFD, 0, 63, 0)];
        whole.memory = vec![0; 64];
        let mut joined = whole.clone();
        let answer = whole.datagram(&datagram).unwrap();
        let frames = cut(&datagram, 0x22B, 0x123).unwrap();
        let (end, begin) = frames.split_last().unwrap();
        for frame in begin {
            assert_eq!(
                joined.frame(frame.header(), frame.data()),
                Ok(FrameAnswer::Nothing)
            );
        }
        assert_eq!(
            joined.frame(end.header(), end.data()),
            Ok(FrameAnswer::Handled(answer))
        );
        joined.assert_same(&whole);
    }
}

#[test]
fn lent_room_behind_the_frames_keeps_what_it_had() {
    let other = Frame::new(0x1234_5678, &[9; 5]).unwrap();
    let bytes: Vec<u8> = (0..80).collect();
    for length in 0..=80 {
        let mut room = [other; MOST_FRAMES];
        let count = cut_into(&bytes[..length], 0x123, 0x22B, &mut room);
        let made = cut(&bytes[..length], 0x123, 0x22B);
        match (count, made) {
            (Ok(count), Ok(made)) => {
                assert_eq!(room[..count], made[..]);
                assert!(room[count..].iter().all(|frame| *frame == other));
            }
            (count, made) => {
                assert!(length > 72);
                assert_eq!(count, Err(CallError::B9CannotBeCut));
                assert_eq!(made, Err(CallError::B9CannotBeCut));
                assert_eq!(room, [other; MOST_FRAMES]);
            }
        }
    }
    let mut room = [other; MOST_FRAMES];
    assert_eq!(
        cut_into(&[], 4_096, 2, &mut room),
        Err(CallError::B9CannotBeCut)
    );
    assert_eq!(
        cut_into(&[], 1, 4_096, &mut room),
        Err(CallError::B9CannotBeCut)
    );
    assert_eq!(room, [other; MOST_FRAMES]);
}

#[test]
fn b9() {
    assert_eq!(cut(&[0; 73], 1, 2), Err(CallError::B9CannotBeCut));
    assert_eq!(cut(&[], 4_096, 2), Err(CallError::B9CannotBeCut));
    assert_eq!(cut(&[], 1, 4_096), Err(CallError::B9CannotBeCut));
    assert_eq!(cut(&[], 65_535, 65_535), Err(CallError::B9CannotBeCut));
    assert_eq!(cut(&[0; 72], 4_095, 4_095).unwrap().len(), 9);
    assert_eq!(cut(&[], 0, 0).unwrap().len(), 1);
}

#[test]
fn transport_replies() {
    assert_eq!(
        text(&received_ok_frame(0x22B, 0x123, 0)),
        ":X19A2822BN012300;"
    );
    assert_eq!(
        text(&received_ok_frame(0x22B, 0x456, 0x80)),
        ":X19A2822BN045680;"
    );
    assert_eq!(
        text(&rejected_frame(0x22B, 0xFFF, 0x2040)),
        ":X19A4822BN0FFF2040;"
    );
    let reply = |answer| transport_reply(0x22B, 0x001, answer).map(|frame| text(&frame));
    assert_eq!(reply(FrameAnswer::Ignored), None);
    assert_eq!(reply(FrameAnswer::Nothing), None);
    assert_eq!(
        reply(FrameAnswer::TransportRefusal(0x2020)).unwrap(),
        ":X19A4822BN00012020;"
    );
    assert_eq!(
        reply(FrameAnswer::Handled(Answer::Rejected(0x1080))).unwrap(),
        ":X19A4822BN00011080;"
    );
    assert_eq!(
        reply(FrameAnswer::Handled(Answer::Written { start: 7, count: 1 })).unwrap(),
        ":X19A2822BN000100;"
    );
    assert_eq!(
        reply(FrameAnswer::Handled(Answer::UpdateComplete)).unwrap(),
        ":X19A2822BN000100;"
    );
    assert_eq!(
        reply(FrameAnswer::Handled(Answer::Replied(8))).unwrap(),
        ":X19A2822BN000180;"
    );
}

#[test]
fn lines_come_back_as_they_were() {
    for line in [
        ":X1A22B123N200100000002ABCD;",
        ":X1A22B123N;",
        ":X00000000N00;",
        ":XFFFFFFFFN0123456789ABCDEF;",
        ":X19A2822BN012300;",
    ] {
        assert_eq!(text(&parse_line(line.as_bytes()).unwrap()), line);
    }
    let longest = parse_line(b":X1A22B123N0123456789ABCDEF;").unwrap();
    assert_eq!(longest.header(), 0x1A22_B123);
    assert_eq!(longest.data(), hex("0123456789ABCDEF"));
    assert_eq!(text(&longest).len(), LONGEST_LINE);
}

#[test]
fn any_other_line_is_no_frame() {
    for line in [
        "",
        ":",
        ":X",
        ";",
        "?",
        ":X1A22B123N",
        ":X1A22B123;",
        "X1A22B123N;",
        ":x1A22B123N;",
        ":X1A22B123n;",
        ":X1a22B123N;",
        ":X1A22B123Nab;",
        ":X1A22B123N0;",
        ":X1A22B123N000;",
        ":X1A22B123N000102030405060708;",
        ":X1A22B123N00010203040506070;",
        ":X1A22B12N00;",
        ":X1A22B1234N00;",
        ":X1A22B123N00;;",
        ":X1A22B123N00; ",
        " :X1A22B123N00;",
        ":X1A22B123N00;\r",
        ":X1A22B123N 0;",
        ":X1A22B123N0G;",
        ":X1A22B123N+0;",
        ":X+A22B123N00;",
        ":S123N00;",
        ":X1A22B123R00;",
        ":X1A22B123N00",
    ] {
        assert_eq!(parse_line(line.as_bytes()), None, "{line}");
    }
    assert_eq!(parse_line(b":X1A22B123N\xFF\xFF;"), None);
    assert_eq!(parse_line(b":X1A22B123N00;\0"), None);
}

#[test]
fn frames_have_at_most_8_bytes() {
    assert!(Frame::new(0, &[0; 8]).is_some());
    assert!(Frame::new(0, &[0; 9]).is_none());
    assert!(Frame::new(0, &[0; 264]).is_none());
}
