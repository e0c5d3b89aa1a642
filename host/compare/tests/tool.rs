//! Holds what document 01 and change requests C-12 and C-16 say of the tool's half, asked of the
//! library through its C edge: commands, the replies of the demonstration board, changes, and what
//! is refused.

use compare::demonstration::{Demonstration, ALIAS};
use compare::ffi::tool::{self, Bytes, Change, Composed, Pair, Reply};
use compare::ffi::{self, Flag, SENT_SIZE};
use compare::layout::frame_in;
use compare::tool::said::NOTHING;

const YES: Flag = Flag::of(true);
const NO: Flag = Flag::of(false);
/// What a buffer holds before.
const FILL: u8 = 0xEE;

/// The command that is written into a buffer of so many bytes, or the number of its refusal.
fn written(size: usize, compose: impl Fn(&mut [u8]) -> Composed) -> Result<Vec<u8>, u32> {
    let mut buffer = vec![FILL; size];
    let Composed { refusal, len } = compose(&mut buffer);
    assert!(buffer[len..].iter().all(|&byte| byte == FILL));
    if refusal == 0 {
        buffer.truncate(len);
        return Ok(buffer);
    }
    assert_eq!(len, 0);
    Err(refusal)
}

#[test]
fn the_one_form_of_each_command() {
    let command = |digits, compose: &dyn Fn(&mut [u8]) -> Composed| {
        assert_eq!(written(72, compose), Ok(bytes(digits)));
        assert_eq!(written(100, compose), Ok(bytes(digits)));
        assert_eq!(written(71, compose), Err(2));
        assert_eq!(written(0, compose), Err(2));
    };
    command("20410000000202", &|to| tool::compose_read(0xFD, 2, 2, to));
    command("20420000000202", &|to| tool::compose_read(0xFE, 2, 2, to));
    command("20430000000240", &|to| tool::compose_read(0xFF, 2, 64, to));
    command("204000000002FC02", &|to| tool::compose_read(0xFC, 2, 2, to));
    command("2040010203040001", &|to| {
        tool::compose_read(0, 0x0102_0304, 1, to)
    });
    command("200100000002ABCD", &|to| {
        tool::compose_write(0xFD, 2, &[0xAB, 0xCD], to)
    });
    command("20000000010010AB", &|to| {
        tool::compose_write(0x10, 0x100, &[0xAB], to)
    });
    command("2009000000020F5A", &|to| {
        tool::compose_masked_write(0xFD, 2, &[0x0F, 0x5A], to)
    });
    command("200800000002100F5A", &|to| {
        tool::compose_masked_write(0x10, 2, &[0x0F, 0x5A], to)
    });
    command("2080", &tool::compose_options);
    command("2084FD", &|to| tool::compose_information(0xFD, to));
    command("2088000000000001", &|to| {
        tool::compose_lock(&[0, 0, 0, 0, 0, 1], to)
    });
    command("20A8", &tool::compose_update_complete);
}

#[test]
fn what_is_out_of_range_is_refused_first() {
    for size in [0, 71, 72, 100] {
        for count in [0, 65, 128, 129, 255, 256, 257, 320, 1 << 32, usize::MAX] {
            let refused = written(size, |to| tool::compose_read(0xFD, 0, count, to));
            assert_eq!(refused, Err(1), "{count}");
        }
        for length in [0, 65, 66, 255, 256, 320] {
            let data = vec![1; length];
            let refused = written(size, |to| tool::compose_write(0xFD, 0, &data, to));
            assert_eq!(refused, Err(1), "{length}");
        }
        for length in [0, 1, 3, 63, 65, 66, 256, 258] {
            let pairs = vec![1; length];
            let refused = written(size, |to| tool::compose_masked_write(0xFD, 0, &pairs, to));
            assert_eq!(refused, Err(1), "{length}");
        }
        for length in [0, 5, 7, 262] {
            let id = vec![1; length];
            let refused = written(size, |to| tool::compose_lock(&id, to));
            assert_eq!(refused, Err(1), "{length}");
        }
    }
    let most = [1; 64];
    let longest = written(72, |to| tool::compose_write(0xFC, 0, &most, to));
    assert_eq!(longest.map(|command| command.len()), Ok(71));
    let longest = written(72, |to| tool::compose_masked_write(0xFF, 0, &most, to));
    assert_eq!(longest.map(|command| command.len()), Ok(70));
}

const fn given(start: usize, len: usize) -> Bytes {
    Bytes {
        given: YES,
        start,
        len,
    }
}

#[test]
fn what_the_demonstration_board_answers() {
    let placed = |kind, space, form, address, code, bytes| Reply {
        kind,
        space,
        form,
        address,
        code,
        bytes,
        ..NOTHING
    };
    let none = NOTHING.bytes;
    let mut information = Reply {
        kind: 6,
        space: 0x10,
        ..NOTHING
    };
    information.information.present = YES;
    information.information.highest_address = 0x10F;
    information.information.flags = 2;
    information.information.has_lowest_address = YES;
    information.information.lowest_address = 0x100;
    let absent = Reply {
        kind: 6,
        space: 0x11,
        ..NOTHING
    };
    let mut options = Reply { kind: 5, ..NOTHING };
    options.options.commands = 0xE000;
    options.options.write_lengths = 0xF2;
    options.options.highest_space = 0xFF;
    options.options.has_lowest_space = YES;
    options.options.lowest_space = 0x10;
    let lock = Reply {
        kind: 7,
        bytes: given(2, 6),
        ..NOTHING
    };
    for (datagram, expected) in [
        ("20410000001F40", placed(1, 0xFD, 1, 0x1F, 0, given(6, 1))),
        ("20400000001FFD40", placed(1, 0xFD, 0, 0x1F, 0, given(7, 1))),
        ("204300000000C0", placed(1, 0xFF, 3, 0, 0, given(6, 16))),
        ("20410000002001", placed(2, 0xFD, 1, 0x20, 0x1082, none)),
        ("20010000001F1122", placed(4, 0xFD, 1, 0x1F, 0x1082, none)),
        ("20030000002001", placed(4, 0xFF, 3, 0x20, 0x1083, none)),
        ("20000000000011FF", placed(4, 0x11, 0, 0, 0x1081, none)),
        ("208410", information),
        ("208411", absent),
        ("2080", options),
        ("2088000000000001", lock),
    ] {
        let mut board = Demonstration::new();
        let numbers = board.datagram(&bytes(datagram));
        assert_eq!((numbers.kind, numbers.flags), (6, 0x80), "{datagram}");
        let reply = &board.reply()[..usize::from(numbers.reply_len)];
        assert_eq!(tool::read_reply(reply), expected, "{datagram}");
    }
}

#[test]
fn what_is_missing_is_told_apart() {
    let read = |digits| tool::read_reply(&bytes(digits));
    // No text, an empty one and one of two bytes.
    assert_eq!(read("2059000000201082").bytes, NOTHING.bytes);
    assert_eq!(read("205900000020108200").bytes, given(8, 0));
    assert_eq!(read("2059000000201082414200").bytes, given(8, 2));
    // No lowest space and space 0; behind it no text and an empty one.
    let options = [
        ("2082E000F2FF", NO, NOTHING.bytes),
        ("2082E000F2FF00", YES, NOTHING.bytes),
        ("2082E000F2FF0000", YES, given(7, 0)),
    ];
    for (digits, has, text) in options {
        let reply = read(digits);
        assert_eq!(reply.options.has_lowest_space, has, "{digits}");
        assert_eq!((reply.options.lowest_space, reply.bytes), (0, text));
    }
    // No lowest address and address 0.
    let information = [
        ("2087100000010F00", NO, NOTHING.bytes),
        ("2087100000010F0000", NO, given(8, 0)),
        ("2087100000010F0200000000", YES, NOTHING.bytes),
        ("2087100000010F020000000000", YES, given(12, 0)),
    ];
    for (digits, has, text) in information {
        let reply = read(digits);
        assert_eq!(reply.information.has_lowest_address, has, "{digits}");
        assert_eq!((reply.information.lowest_address, reply.bytes), (0, text));
    }
    for none in [
        "",
        "20",
        "2080",
        "21510000001F00",
        "20510000001F",
        "205000000000FD",
        "20590000002010",
        "205900000020108241",
        "2059000000201082004100",
        "2011000000000000",
        "2082E000F2",
        "2082E000F2FF1041",
        "2087100000010F02000001",
        "208A0102030405",
        "208A01020304050607",
    ] {
        assert_eq!(read(none), NOTHING, "{none}");
    }
}

#[test]
fn the_contents_of_transport_replies() {
    let ok = |content: &[u8]| {
        let read = tool::read_received_ok(content);
        (read.refusal, read.pending.get(), read.timeout)
    };
    assert_eq!(ok(&[]), (0, false, 0));
    assert_eq!(ok(&[0x80]), (0, true, 0));
    assert_eq!(ok(&[0x7F]), (0, false, 15));
    assert_eq!(ok(&[0x80, 0]), (3, false, 0));
    let rejected = |content: &[u8]| {
        let read = tool::read_rejected(content);
        (read.refusal, read.code, read.further)
    };
    // Where there are no further bytes they start at the end, and never behind it.
    assert_eq!(rejected(&[]), (0, 0, given(0, 0)));
    assert_eq!(rejected(&[0x20]), (0, 0x2000, given(1, 0)));
    assert_eq!(rejected(&[0x10, 0x80]), (0, 0x1080, given(2, 0)));
    assert_eq!(rejected(&[1; 66]), (0, 0x0101, given(2, 64)));
    assert_eq!(rejected(&[1; 67]), (3, 0, NOTHING.bytes));
}

#[test]
fn a_reply_in_frames() {
    let mut board = Demonstration::new();
    let command = written(72, |to| tool::compose_read(0xFE, 0, 64, to)).expect("a command");
    let mut room = [0; SENT_SIZE];
    assert_eq!(ffi::cut(&command, 0x123, ALIAS, &mut room), 1);
    let frame = frame_in(room.first_chunk().expect("a frame"));
    let numbers = board.frame(frame.header, &frame.bytes[..frame.len as usize]);
    assert_eq!(numbers.frame_count, 8);
    let (mut pool, mut places) = ([FILL; ffi::POOL_BYTES], [0; ffi::PLACES_SIZE]);
    let mut kinds = Vec::new();
    let mut datagram = Vec::new();
    for frame in board.sent(8) {
        let data = &frame.bytes[..frame.len as usize];
        let joined = tool::join(0x123, &mut pool, &mut places, frame.header, data);
        kinds.push(joined.kind);
        datagram = pool[joined.start..joined.end].to_vec();
    }
    assert_eq!(kinds, [1, 2, 2, 2, 2, 2, 2, 5]);
    assert_eq!(datagram, board.reply()[..54]);
    let read = tool::read_reply(&datagram);
    assert_eq!((read.kind, read.bytes), (1, given(6, 48)));
    assert_eq!(places, [0; ffi::PLACES_SIZE]);
}

#[test]
fn a_reply_that_is_broken() {
    let (mut pool, mut places) = ([FILL; ffi::POOL_BYTES], [0; ffi::PLACES_SIZE]);
    let mut joined = |header, data: &[u8]| {
        let joined = tool::join(0x123, &mut pool, &mut places, header, data);
        let datagram = pool[joined.start..joined.end].to_vec();
        (joined.kind, joined.code, datagram, places[6])
    };
    let [single, first, middle, last] = [0x1A12_322B, 0x1B12_322B, 0x1C12_322B, 0x1D12_322B];
    let (refused, nothing) = ((3, 0x2040, vec![], 1), (2, 0, vec![], 1));
    assert_eq!(joined(first, &[0x20]), (2, 0, vec![], 0));
    assert_eq!(joined(first, &[0x20]), refused);
    assert_eq!(joined(middle, &[0x50]), nothing);
    assert_eq!(joined(middle, &[]), nothing);
    assert_eq!(joined(last, &[0x50]), (2, 0, vec![], 0));
    assert_eq!(joined(last, &[0x50]), (3, 0x2040, vec![], 0));
    // A First or a Single begins anew.
    assert_eq!(joined(first, &[0x20]), (2, 0, vec![], 0));
    assert_eq!(joined(middle, &[]), refused);
    assert_eq!(joined(first, &[0x20, 0x51]), (2, 0, vec![], 0));
    assert_eq!(joined(last, &[9]), (5, 0, vec![0x20, 0x51, 9], 0));
    assert_eq!(joined(first, &[0x20]), (2, 0, vec![], 0));
    assert_eq!(joined(single, &[0x20]), refused);
    assert_eq!(joined(single, &[0x20]), (4, 0, vec![], 0));
}

#[test]
fn two_pairs_in_one() {
    let together = |earlier: [u8; 2], later: [u8; 2]| {
        let [earlier, later] = [earlier, later].map(|[mask, data]| Pair { mask, data });
        let Pair { mask, data } = tool::put_together(earlier, later);
        [mask, data]
    };
    assert_eq!(together([0x01, 0x01], [0x80, 0x80]), [0x81, 0x81]);
    // Of a bit that both touch the later is seen, be it 0 or 1.
    assert_eq!(together([0x0F, 0x0F], [0x03, 0x00]), [0x0F, 0x0C]);
    assert_eq!(together([0x0F, 0x00], [0x03, 0x03]), [0x0F, 0x03]);
    // Data outside a mask play no part.
    assert_eq!(together([0x01, 0xFE], [0x02, 0xFD]), [0x03, 0x00]);
    assert_eq!(together([0x00, 0xFF], [0x00, 0xFF]), [0x00, 0x00]);
    assert_eq!(together([0xFF, 0x5A], [0x00, 0xFF]), [0xFF, 0x5A]);
    assert_eq!(together([0x00, 0xFF], [0xFF, 0x5A]), [0xFF, 0x5A]);
}

/// The start and the pairs of the next change, with a buffer of so many bytes, or none, or the
/// number of its refusal.
fn changed(images: [&[u8]; 2], from: usize, size: usize) -> Result<Option<(usize, Vec<u8>)>, u32> {
    let mut pairs = vec![FILL; size];
    let Change {
        refusal,
        given,
        start,
        count,
    } = tool::next_change(images[0], images[1], from, &mut pairs);
    assert!(pairs[2 * count..].iter().all(|&byte| byte == FILL));
    pairs.truncate(2 * count);
    if given == YES {
        assert!(refusal == 0 && count != 0);
        return Ok(Some((start, pairs)));
    }
    assert_eq!((given, start, count), (NO, 0, 0));
    if refusal == 0 {
        Ok(None)
    } else {
        Err(refusal)
    }
}

#[test]
fn the_next_change() {
    let images = [
        &[0x0F, 0x10, 0x20, 0xFF, 0x40][..],
        &[0x0E, 0x10, 0x31, 0x00, 0x40],
    ];
    let change = |from, size| changed(images, from, size);
    assert_eq!(change(0, 64), Ok(Some((0, bytes("010000001111FF00")))));
    assert_eq!(change(1, 65), Ok(Some((2, bytes("1111FF00")))));
    assert_eq!(change(2, 64), Ok(Some((2, bytes("1111FF00")))));
    assert_eq!(change(3, 100), Ok(Some((3, bytes("FF00")))));
    for from in [4, 5, 6, 256, 1 << 32, usize::MAX] {
        assert_eq!(change(from, 64), Ok(None), "{from}");
        assert_eq!(change(from, 63), Err(2), "{from}");
        assert_eq!(change(from, 0), Err(2), "{from}");
        let unequal = [images[0], &images[1][..4]];
        assert_eq!(changed(unequal, from, 63), Err(1), "{from}");
        assert_eq!(changed([&[], &[1]], from, 64), Err(1), "{from}");
    }
    assert_eq!(change(0, 63), Err(2));
    assert_eq!(changed([&[], &[]], 0, 64), Ok(None));
    assert_eq!(changed([&[7], &[7]], 0, 64), Ok(None));
}

#[test]
fn the_reach_of_a_change() {
    let old = [0; 66];
    let change = |places: &[usize], from| {
        let mut new = old;
        places.iter().for_each(|&place| new[place] = 0x80);
        let found = changed([&old, &new], from, 64).expect("it is not refused");
        found.map(|(start, pairs)| (start, pairs.len() / 2))
    };
    assert_eq!(change(&[1, 32], 0), Some((1, 32)));
    assert_eq!(change(&[1, 33], 0), Some((1, 1)));
    assert_eq!(change(&[1, 32, 33], 0), Some((1, 32)));
    assert_eq!(change(&[1, 32, 33], 33), Some((33, 1)));
    assert_eq!(change(&[1, 5, 33], 2), Some((5, 29)));
    assert_eq!(change(&[65], 0), Some((65, 1)));
    assert_eq!(change(&[34, 65], 34), Some((34, 32)));
    assert_eq!(change(&[34, 65], 35), Some((65, 1)));
}

#[test]
fn a_lamp_of_each_of_two_tools() {
    let mut board = Demonstration::new();
    board.memory[32] = 0x0F;
    // Both have read 0x0F. The one clears the lowest bit through 0xFE, the other sets the highest
    // through 0x10.
    for (space, address, new) in [(0xFE, 0x20, 0x0E), (0x10, 0x100, 0x8F)] {
        let change = changed([&[0x0F], &[new]], 0, 64).expect("it is not refused");
        let (start, pairs) = change.expect("a change");
        let address = address + start as u32;
        let command = written(72, |to| {
            tool::compose_masked_write(space, address, &pairs, to)
        });
        let numbers = board.datagram(&command.expect("a command"));
        assert_eq!((numbers.kind, numbers.changed_at), (5, 32));
    }
    assert_eq!(board.memory[32], 0x8E);
}

#[test]
fn the_version_of_the_edge() {
    assert_eq!(tool::version(), tool::VERSION);
}

fn bytes(digits: &str) -> Vec<u8> {
    (0..digits.len())
        .step_by(2)
        .map(|at| u8::from_str_radix(&digits[at..at + 2], 16).expect("a pair of digits"))
        .collect()
}
