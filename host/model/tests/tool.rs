//! Holds the tests of the tool's half: the writer against the board's reading of its commands, and
//! the readers, also against what the board itself answers.

mod common;

use std::collections::HashSet;

use common::{hex, in_flash, read_only, space, Bench, Numbers, FILL};
use model::{
    read_received_ok, read_rejected, read_reply, received_ok_frame, rejected_frame,
    transport_reply, write_command, Answer, FrameAnswer, NamedSpace, ReceivedOk, RejectedContent,
    Reply, Request, ToolRefusal,
};

const SIXTY_SIX: [u8; 66] = [0x5A; 66];

fn read(space: u8, address: u32, count: u8) -> Request<'static> {
    Request::Read {
        space,
        address,
        count,
    }
}

fn write(space: u8, address: u32, bytes: &[u8]) -> Request<'_> {
    Request::Write {
        space,
        address,
        bytes,
    }
}

fn write_masked(space: u8, address: u32, pairs: &[u8]) -> Request<'_> {
    Request::WriteMasked {
        space,
        address,
        pairs,
    }
}

/// The command for a request. Holds the rule about the bytes behind it to the writer.
fn written(request: &Request) -> Vec<u8> {
    let mut commands = Vec::new();
    for (size, fill) in [(72, FILL), (72, !FILL), (73, FILL), (200, FILL)] {
        let mut buffer = vec![fill; size];
        let length = write_command(request, &mut buffer).expect("a request in range");
        assert!(buffer[length..].iter().all(|&byte| byte == fill));
        buffer.truncate(length);
        commands.push(buffer);
    }
    commands.dedup();
    assert_eq!(commands.len(), 1, "{request:?}");
    commands.remove(0)
}

/// What the writer says with a buffer of this size, which it leaves as it was.
fn refused(request: &Request, size: usize) -> ToolRefusal {
    let before: Vec<u8> = (0..size).map(|at| at as u8 ^ FILL).collect();
    let mut buffer = before.clone();
    let refusal = write_command(request, &mut buffer).expect_err("a refusal");
    assert_eq!(buffer, before);
    refusal
}

/// Asserts that a request is written, or else refused with W1 whatever the buffer is.
fn assert_in_range(request: &Request, in_range: bool) {
    if in_range {
        written(request);
        assert_eq!(refused(request, 71), ToolRefusal::W2);
    } else {
        for size in [0, 1, 71, 72, 73, 200] {
            assert_eq!(refused(request, size), ToolRefusal::W1, "{request:?}");
        }
    }
}

// The writer.

#[test]
fn the_refusals_by_name() {
    let all = [ToolRefusal::W1, ToolRefusal::W2, ToolRefusal::W3];
    assert_eq!(all.map(ToolRefusal::number), [1, 2, 3]);
    assert_eq!(all.map(|refusal| refusal.to_string()), ["W1", "W2", "W3"]);
}

#[test]
fn counts_out_of_range() {
    for space in [0x00, 0x10, 0xFC, 0xFD, 0xFE, 0xFF] {
        for count in 0..=255 {
            assert_in_range(&read(space, 0, count), (1..=64).contains(&count));
        }
        for count in [0, 65, 0x80, 0x81, 0xC0, 0xFF] {
            assert_eq!(refused(&read(space, 0, count), 72), ToolRefusal::W1);
        }
        for count in [1, 64] {
            assert_eq!(written(&read(space, 0, count)).last(), Some(&count));
        }
    }
}

#[test]
fn lengths_of_data_out_of_range() {
    let bytes = [0x11; 1000];
    for space in [0x00, 0x10, 0xFC, 0xFD, 0xFE, 0xFF] {
        for length in (0..=80).chain([128, 256, 1000]) {
            let request = write(space, 7, &bytes[..length]);
            assert_in_range(&request, (1..=64).contains(&length));
        }
    }
    assert_eq!(written(&write(0x10, 0, &bytes[..1])).len(), 8);
    assert_eq!(written(&write(0x10, 0, &bytes[..64])).len(), 71);
    assert_eq!(written(&write(0xFD, 0, &bytes[..1])).len(), 7);
    assert_eq!(written(&write(0xFD, 0, &bytes[..64])).len(), 70);
    assert_eq!(refused(&write(0xFD, 0, &[]), 72), ToolRefusal::W1);
    assert_eq!(refused(&write(0xFD, 0, &bytes[..65]), 72), ToolRefusal::W1);
}

#[test]
fn lengths_of_pairs_out_of_range() {
    let pairs = [0x11; 1000];
    for space in [0x00, 0x10, 0xFC, 0xFD, 0xFE, 0xFF] {
        for length in (0..=80).chain([128, 255, 256, 1000]) {
            let request = write_masked(space, 7, &pairs[..length]);
            let in_range = length % 2 == 0 && (1..=32).contains(&(length / 2));
            assert_in_range(&request, in_range);
        }
    }
    for length in [0, 1, 63, 65, 66] {
        let request = write_masked(0xFE, 0, &pairs[..length]);
        assert_eq!(refused(&request, 72), ToolRefusal::W1);
    }
    assert_eq!(written(&write_masked(0xFE, 0, &pairs[..2])).len(), 8);
    assert_eq!(written(&write_masked(0xFE, 0, &pairs[..64])).len(), 70);
    assert_eq!(written(&write_masked(0xFC, 0, &pairs[..64])).len(), 71);
}

#[test]
fn lengths_of_node_ids_out_of_range() {
    for fill in [0x00, 0x11] {
        let id = [fill; 72];
        for length in 0..=72 {
            assert_in_range(&Request::Lock { id: &id[..length] }, length == 6);
        }
    }
    for id in [&[1, 2, 3, 4, 5][..], &[1, 2, 3, 4, 5, 6, 7]] {
        assert_eq!(refused(&Request::Lock { id }, 72), ToolRefusal::W1);
    }
}

#[test]
fn buffers_under_72_bytes_after_the_range() {
    let in_range = [
        read(0x10, 0, 1),
        read(0xFD, 0, 64),
        write(0x10, 0, &[1]),
        write(0xFE, 0, &SIXTY_SIX[..64]),
        write_masked(0x10, 0, &[1, 2]),
        write_masked(0xFF, 0, &SIXTY_SIX[..64]),
        Request::Options,
        Request::Information { space: 0xFD },
        Request::Lock { id: &[0; 6] },
        Request::UpdateComplete,
    ];
    for request in in_range {
        for size in 0..72 {
            assert_eq!(refused(&request, size), ToolRefusal::W2);
        }
        assert!(written(&request).len() <= 71);
    }
    let out_of_range = [
        read(0x10, 0, 0),
        write(0x10, 0, &SIXTY_SIX[..65]),
        write_masked(0x10, 0, &[1]),
        Request::Lock { id: &[0; 5] },
    ];
    for request in out_of_range {
        for size in [0, 71, 72] {
            assert_eq!(refused(&request, size), ToolRefusal::W1);
        }
    }
}

#[test]
fn the_bytes_of_each_command() {
    let of = |request: Request, expected: &str| assert_eq!(written(&request), hex(expected));
    of(read(0x10, 0x0102_0304, 1), "2040 01020304 10 01");
    of(read(0x00, 0xFFFF_FFFF, 64), "2040 FFFFFFFF 00 40");
    of(read(0xFC, 0, 2), "2040 00000000 FC 02");
    of(read(0xFD, 0x1F, 64), "2041 0000001F 40");
    of(read(0xFE, 0x1000_0000, 1), "2042 10000000 01");
    of(read(0xFF, 0, 3), "2043 00000000 03");
    of(write(0x10, 0x100, &[0xAB, 0xCD]), "2000 00000100 10 ABCD");
    of(write(0xFC, 0, &[0xFD]), "2000 00000000 FC FD");
    of(write(0xFD, 2, &[0xAB, 0xCD]), "2001 00000002 ABCD");
    of(write(0xFE, 0x0A0B_0C0D, &[0]), "2002 0A0B0C0D 00");
    of(write(0xFF, 0, &[1]), "2003 00000000 01");
    of(
        write_masked(0x10, 0x100, &[0x0F, 0x5A]),
        "2008 00000100 10 0F5A",
    );
    of(
        write_masked(0xFD, 2, &[0x0F, 0x5A, 0x00, 0xFF]),
        "2009 00000002 0F5A 00FF",
    );
    of(write_masked(0xFE, 1, &[0, 0]), "200A 00000001 0000");
    of(
        write_masked(0xFF, 0xFFFF_FFFF, &[0xFF, 1]),
        "200B FFFFFFFF FF01",
    );
    of(Request::Options, "2080");
    of(Request::Information { space: 0x00 }, "2084 00");
    of(Request::Information { space: 0xFD }, "2084 FD");
    of(Request::Information { space: 0xFF }, "2084 FF");
    let id = &hex("050101011805");
    of(Request::Lock { id }, "2088 050101011805");
    of(Request::Lock { id: &[0; 6] }, "2088 000000000000");
    of(Request::UpdateComplete, "20A8");
}

#[test]
fn the_demonstration_board_answers_written_commands() {
    let mut board = Bench::demo();
    let mut say = |request: Request| {
        let command: String = written(&request)
            .iter()
            .map(|byte| format!("{byte:02X}"))
            .collect();
        board.say(&command)
    };
    assert_eq!(say(write(0xFD, 2, &[0xAB, 0xCD])), "written 2+2");
    assert_eq!(say(read(0xFD, 2, 2)), "205100000002ABCD");
    assert_eq!(say(write_masked(0xFD, 2, &[0x0F, 0x5A])), "written 2+1");
    assert_eq!(say(read(0xFD, 2, 2)), "205100000002AACD");
    assert_eq!(say(write(0xFF, 0, &[1])), "201B000000001083");
    assert_eq!(say(write(0x10, 0x10F, &[0x77])), "written 47+1");
    assert_eq!(say(read(0x10, 0x10E, 64)), "20500000010E100077");
    assert_eq!(say(read(0x11, 0, 64)), "205800000000111081");
    assert_eq!(say(Request::Options), "2082E000F2FF10");
    assert_eq!(
        say(Request::Information { space: 0x10 }),
        "2087100000010F0200000100"
    );
    assert_eq!(say(Request::Lock { id: &[9; 6] }), "208A090909090909");
    assert_eq!(say(Request::Lock { id: &[0; 6] }), "208A000000000000");
    assert_eq!(say(Request::UpdateComplete), "update complete");
}

/// The request that document 01 has the board read in a datagram, written here apart from the
/// library; `None` for one that the board rejects.
fn board_reads(datagram: &[u8]) -> Option<Request<'_>> {
    match *datagram {
        [0x20, 0x80] => Some(Request::Options),
        [0x20, 0x84, space] => Some(Request::Information { space }),
        [0x20, 0x88, ref id @ ..] if id.len() == 6 => Some(Request::Lock { id }),
        [0x20, 0xA8] => Some(Request::UpdateComplete),
        [0x20, command, a, b, c, d, ref behind @ ..] => {
            let address = u32::from_be_bytes([a, b, c, d]);
            let (space, rest) = match command & 0x03 {
                0 => (*behind.first()?, &behind[1..]),
                bits => (0xFC + bits, behind),
            };
            match (command & 0xFC, rest.len()) {
                (0x40, 1) if (1..=64).contains(&(rest[0] & 0x7F)) => {
                    Some(read(space, address, rest[0] & 0x7F))
                }
                (0x00, 1..=64) => Some(write(space, address, rest)),
                (0x08, 2..=64) if rest.len() % 2 == 0 => Some(write_masked(space, address, rest)),
                _ => None,
            }
        }
        _ => None,
    }
}

/// Asserts that the board accepts a datagram just where a request can be read in it, and that the
/// writer's command for that request is not longer, and the same unless the datagram spends a
/// byte 6 or a reserved bit that the writer does not. Says whether it is accepted.
fn assert_no_form_is_shorter(board: &mut Bench, datagram: &[u8]) -> bool {
    let accepted = !matches!(board.datagram(datagram), Ok(Answer::Rejected(_)));
    let request = board_reads(datagram);
    assert_eq!(accepted, request.is_some(), "{datagram:02X?}");
    let Some(request) = request else {
        return false;
    };
    let command = written(&request);
    assert_eq!(board_reads(&command), Some(request));
    let long_form = matches!(
        datagram,
        [_, 0x00 | 0x08 | 0x40, _, _, _, _, 0xFD..=0xFF, ..]
    );
    assert_eq!(command.len() + usize::from(long_form), datagram.len());
    let top_bit = matches!(request, Request::Read { .. }) && datagram.last() >= Some(&0x80);
    assert_eq!(command == datagram, !long_form && !top_bit);
    true
}

#[test]
fn no_accepted_form_of_up_to_three_bytes_is_shorter() {
    let mut board = Bench::demo();
    let mut accepted = 0;
    let mut count = |datagram: &[u8]| {
        accepted += u32::from(assert_no_form_is_shorter(&mut board, datagram));
    };
    count(&[]);
    for first in 0..=255 {
        count(&[first]);
        for second in 0..=255 {
            count(&[first, second]);
            count(&[0x20, first, second]);
        }
    }
    // 20 80, 20 A8, and 20 84 with each space.
    assert_eq!(accepted, 2 + 256);
}

#[test]
fn no_accepted_form_with_any_sixth_and_seventh_byte_is_shorter() {
    let mut board = Bench::demo();
    let mut accepted = 0;
    for command in [0x00, 0x01, 0x03, 0x08, 0x0A, 0x40, 0x41, 0x42, 0x43] {
        for sixth in 0..=255 {
            let short = [0x20, command, 0, 0, 0, 3, sixth];
            accepted += u32::from(assert_no_form_is_shorter(&mut board, &short));
            for seventh in 0..=255 {
                let long = [0x20, command, 0, 0, 0, 3, sixth, seventh];
                accepted += u32::from(assert_no_form_is_shorter(&mut board, &long));
            }
        }
    }
    let any = 256 * 256;
    // Writes with 1 byte, with 1 byte behind byte 6 and with 2 bytes; 1 pair without byte 6; reads
    // of 64 counts with and without the reserved bit, the space in byte 6 and in the bits.
    assert_eq!(
        accepted,
        2 * 256 + 3 * any + any + 256 * 2 * 64 + 3 * 2 * 64
    );
}

#[test]
fn no_accepted_form_of_any_length_is_shorter() {
    let mut board = Bench::demo();
    let mut numbers = Numbers(0x2545_F491_4F6C_DD1D);
    let mut accepted = [false; 256];
    for command in 0..=255u8 {
        for length in 2..=74 {
            for sixth in [0x00, 0x10, 0x40, 0xFC, 0xFD, 0xFE, 0xFF] {
                let mut datagram = numbers.bytes(length);
                datagram[0] = 0x20;
                datagram[1] = command;
                if let Some(byte) = datagram.get_mut(6) {
                    *byte = sixth;
                }
                accepted[usize::from(command)] |= assert_no_form_is_shorter(&mut board, &datagram);
            }
        }
    }
    assert_eq!(accepted.iter().filter(|&&command| command).count(), 16);
}

#[test]
fn unequal_requests_have_unequal_bytes() {
    let mut commands = HashSet::new();
    let mut add = |request: Request| {
        let command = written(&request);
        assert_eq!(board_reads(&command), Some(request));
        assert!(commands.insert(command), "{request:?}");
    };
    add(Request::Options);
    add(Request::UpdateComplete);
    for space in 0..=255u8 {
        add(Request::Information { space });
        add(Request::Lock {
            id: &[space, 0, 0, 0, 0, 0],
        });
        for count in 1..=64 {
            add(read(space, 0, count));
            add(read(space, 1 << ((count - 1) / 2), count));
        }
        let other = [space; 64];
        for length in 1..=64 {
            add(write(space, 0, &SIXTY_SIX[..length]));
            add(write(space, 0x5A00_0000, &SIXTY_SIX[..length]));
            // Data that begin with what could be the byte 6 of another.
            if space != 0x5A {
                add(write(0xFD, 0, &other[..length]));
                add(write(0x5A, 0, &other[..length]));
            }
            if length % 2 == 0 {
                add(write_masked(space, 0, &SIXTY_SIX[..length]));
            }
        }
    }
}

// The readers of Received OK and Rejected.

#[test]
fn received_ok_of_no_byte_and_one_byte() {
    let none = ReceivedOk {
        reply_pending: false,
        timeout: 0,
    };
    assert_eq!(read_received_ok(&[]), Ok(none));
    assert_eq!(read_received_ok(&[0x00]), Ok(none));
    for flags in 0..=255u8 {
        let expected = ReceivedOk {
            reply_pending: flags >= 128,
            timeout: flags % 16,
        };
        assert_eq!(read_received_ok(&[flags]), Ok(expected));
    }
    // The reserved bits say nothing.
    assert_eq!(read_received_ok(&[0x70]), Ok(none));
    assert_eq!(
        read_received_ok(&[0xF5]),
        Ok(ReceivedOk {
            reply_pending: true,
            timeout: 5
        })
    );
}

#[test]
fn received_ok_over_one_byte() {
    for length in 2..=80 {
        for fill in [0x00, 0x80] {
            assert_eq!(read_received_ok(&vec![fill; length]), Err(ToolRefusal::W3));
        }
    }
}

fn rejected(code: u16, further: &[u8]) -> Result<RejectedContent<'_>, ToolRefusal> {
    Ok(RejectedContent { code, further })
}

#[test]
fn rejected_of_each_length() {
    assert_eq!(read_rejected(&[]), rejected(0, &[]));
    assert_eq!(read_rejected(&[0x10]), rejected(0x1000, &[]));
    assert_eq!(read_rejected(&[0x00]), rejected(0, &[]));
    assert_eq!(read_rejected(&[0x10, 0x80]), rejected(0x1080, &[]));
    assert_eq!(read_rejected(&[0x20, 0x40, 0]), rejected(0x2040, &[0]));
    let content: Vec<u8> = (1..=80).collect();
    for length in 2..=66 {
        let expected = rejected(0x0102, &content[2..length]);
        assert_eq!(read_rejected(&content[..length]), expected);
    }
    assert_eq!(read_rejected(&content[..66]).unwrap().further.len(), 64);
    for length in 67..=80 {
        assert_eq!(read_rejected(&content[..length]), Err(ToolRefusal::W3));
    }
}

#[test]
fn the_transport_replies_of_the_board() {
    for flags in [0x00, 0x80] {
        let frame = received_ok_frame(0x22B, 0x123, flags);
        let expected = ReceivedOk {
            reply_pending: flags == 0x80,
            timeout: 0,
        };
        assert_eq!(read_received_ok(&frame.data()[2..]), Ok(expected));
    }
    for code in [0x1080, 0x1041, 0x1042, 0x2000, 0x2020, 0x2040] {
        let frame = rejected_frame(0x22B, 0x123, code);
        assert_eq!(read_rejected(&frame.data()[2..]), rejected(code, &[]));
    }
}

// The reader of reply datagrams.

/// The datagram with the fields of a reading, put together here apart from the library.
fn composed(reply: &Reply) -> Vec<u8> {
    let addressed = |base: u8, space: NamedSpace, address: u32| {
        let mut bytes = match space {
            NamedSpace::Byte6(_) => vec![0x20, base],
            NamedSpace::Fd => vec![0x20, base + 1],
            NamedSpace::Fe => vec![0x20, base + 2],
            NamedSpace::Ff => vec![0x20, base + 3],
        };
        bytes.extend(address.to_be_bytes());
        if let NamedSpace::Byte6(number) = space {
            bytes.push(number);
        }
        bytes
    };
    let ended = |text: Option<&[u8]>| text.map_or(vec![], |text| [text, &[0]].concat());
    match *reply {
        Reply::Read {
            space,
            address,
            data,
        } => [&addressed(0x50, space, address), data].concat(),
        Reply::ReadFailed {
            space,
            address,
            code,
            text,
        } => [
            addressed(0x58, space, address),
            code.to_be_bytes().to_vec(),
            ended(text),
        ]
        .concat(),
        Reply::Written { space, address } => addressed(0x10, space, address),
        Reply::WriteFailed {
            space,
            address,
            code,
            text,
        } => [
            addressed(0x18, space, address),
            code.to_be_bytes().to_vec(),
            ended(text),
        ]
        .concat(),
        Reply::Options {
            commands,
            write_lengths,
            highest_space,
            lowest_space,
            text,
        } => {
            assert!(lowest_space.is_some() || text.is_none());
            let [high, low] = commands.to_be_bytes();
            let mut bytes = vec![0x20, 0x82, high, low, write_lengths, highest_space];
            bytes.extend(lowest_space);
            bytes.extend(ended(text));
            bytes
        }
        Reply::Information {
            present,
            space,
            highest,
            flags,
            lowest,
            text,
        } => {
            assert_eq!(lowest.is_some(), flags & 0x02 != 0);
            let mut bytes = vec![0x20, if present { 0x87 } else { 0x86 }, space];
            bytes.extend(highest.to_be_bytes());
            bytes.push(flags);
            bytes.extend(lowest.map(u32::to_be_bytes).into_iter().flatten());
            bytes.extend(ended(text));
            bytes
        }
        Reply::Lock { id } => [&[0x20, 0x8A][..], &id].concat(),
    }
}

/// Whether the bytes have a form of a reply, by their length and the places of their zero bytes.
fn has_a_form(bytes: &[u8]) -> bool {
    let length = bytes.len();
    if !(2..=72).contains(&length) || bytes[0] != 0x20 {
        return false;
    }
    // A text from this place to the end, or none.
    let text_from = |start: usize| match bytes.get(start..) {
        Some([]) => true,
        Some(rest) => rest.iter().position(|&byte| byte == 0) == Some(rest.len() - 1),
        None => false,
    };
    let head = if bytes[1] & 0x03 == 0 { 7 } else { 6 };
    match bytes[1] {
        0x10..=0x13 => length == head,
        0x18..=0x1B | 0x58..=0x5B => length <= head + 2 + 63 && text_from(head + 2),
        0x50..=0x53 => length > head && length <= head + 64,
        0x82 => length == 6 || text_from(7),
        0x86 | 0x87 if length < 8 => false,
        0x86 | 0x87 => text_from(if bytes[7] & 0x02 == 0 { 8 } else { 12 }),
        0x8A => length == 8,
        _ => false,
    }
}

/// Asserts that bytes with a form are read so that the reading gives them back, and that others
/// are W3. Says which they are.
fn assert_read(bytes: &[u8]) -> bool {
    match read_reply(bytes) {
        Ok(reply) => {
            assert!(has_a_form(bytes), "{bytes:02X?}");
            assert_eq!(composed(&reply), bytes);
            true
        }
        Err(refusal) => {
            assert_eq!(refusal, ToolRefusal::W3);
            assert!(!has_a_form(bytes), "{bytes:02X?}");
            false
        }
    }
}

/// Asserts that this datagram in hex is read as this reply.
fn reads(datagram: &str, expected: Reply) {
    let bytes = hex(datagram);
    assert_eq!(read_reply(&bytes), Ok(expected), "{datagram}");
    assert!(assert_read(&bytes));
}

/// Asserts that this datagram in hex has no form.
fn no_form(datagram: &str) {
    let bytes = hex(datagram);
    assert_eq!(read_reply(&bytes), Err(ToolRefusal::W3), "{datagram}");
    assert!(!assert_read(&bytes));
}

const NAMES: [(&str, &str, NamedSpace); 6] = [
    ("0", "10", NamedSpace::Byte6(0x10)),
    ("0", "00", NamedSpace::Byte6(0x00)),
    ("0", "FD", NamedSpace::Byte6(0xFD)),
    ("1", "", NamedSpace::Fd),
    ("2", "", NamedSpace::Fe),
    ("3", "", NamedSpace::Ff),
];

/// The command digit for a digit of control bits, in the failure replies.
fn failed(bits: &str) -> char {
    ['8', '9', 'A', 'B'][bits.parse::<usize>().unwrap()]
}

#[test]
fn the_names_of_spaces() {
    for number in 0..=255 {
        let name = NamedSpace::shortest(number);
        assert_eq!(name.number(), number);
        assert_eq!(name.byte_6(), (number < 0xFD).then_some(number));
        assert_eq!(name.control_bits(), number.saturating_sub(0xFC));
        let in_byte_6 = NamedSpace::Byte6(number);
        assert_eq!(in_byte_6.number(), number);
        assert_eq!(in_byte_6.byte_6(), Some(number));
        assert_eq!(in_byte_6.control_bits(), 0);
        assert_eq!(in_byte_6 == name, number < 0xFD);
    }
}

#[test]
fn read_replies() {
    for (bits, byte_6, space) in NAMES {
        let head = format!("205{bits}01020304{byte_6}");
        let address = 0x0102_0304;
        for length in [1, 2, 63, 64] {
            let data = &SIXTY_SIX[..length];
            let reply = Reply::Read {
                space,
                address,
                data,
            };
            reads(&format!("{head}{}", "5A".repeat(length)), reply);
        }
        reads(
            &format!("{head}00"),
            Reply::Read {
                space,
                address,
                data: &[0],
            },
        );
        no_form(&head);
        no_form(&format!("{head}{}", "5A".repeat(65)));
        no_form(&format!("{head}{}", "5A".repeat(66)));
    }
    no_form("205001");
    no_form("2051010203");
}

#[test]
fn write_replies() {
    for (bits, byte_6, space) in NAMES {
        let head = format!("201{bits}FFFFFFFF{byte_6}");
        let address = 0xFFFF_FFFF;
        reads(&head, Reply::Written { space, address });
        no_form(&head[..head.len() - 2]);
        no_form(&format!("{head}00"));
        no_form(&format!("{head}1082"));
    }
}

#[test]
fn failure_replies() {
    for (bits, byte_6, space) in NAMES {
        let bits = failed(bits);
        let read_failed = format!("205{bits}00000020{byte_6}");
        let write_failed = format!("201{bits}00000020{byte_6}");
        let of = |behind: &str, code: u16, text: Option<&[u8]>| {
            reads(
                &format!("{read_failed}{behind}"),
                Reply::ReadFailed {
                    space,
                    address: 0x20,
                    code,
                    text,
                },
            );
            reads(
                &format!("{write_failed}{behind}"),
                Reply::WriteFailed {
                    space,
                    address: 0x20,
                    code,
                    text,
                },
            );
        };
        let of_none = |behind: &str| {
            no_form(&format!("{read_failed}{behind}"));
            no_form(&format!("{write_failed}{behind}"));
        };
        of("1082", 0x1082, None);
        of("0000", 0x0000, None);
        // The zero byte alone is an empty text.
        of("108200", 0x1082, Some(&[]));
        of("10814E6F00", 0x1081, Some(b"No"));
        of("1081FF00", 0x1081, Some(&[0xFF]));
        // Without the zero byte, with two, and with bytes behind it.
        of_none("10824E6F");
        of_none("10820000");
        of_none("10824E6F0000");
        of_none("10824E006F00");
        of_none("10824E006F");
        // Less than a code.
        of_none("");
        of_none("10");
        // 63 bytes with the zero byte, and 64.
        let text = [0x41; 64];
        for length in [61, 62] {
            let behind = format!("1082{}00", "41".repeat(length));
            of(&behind, 0x1082, Some(&text[..length]));
        }
        for length in [63, 64, 65] {
            of_none(&format!("1082{}00", "41".repeat(length)));
            of_none(&format!("1082{}", "41".repeat(length)));
        }
    }
}

#[test]
fn option_replies() {
    let of = |datagram: &str, lowest_space: Option<u8>, text: Option<&[u8]>| {
        reads(
            datagram,
            Reply::Options {
                commands: 0xE000,
                write_lengths: 0xF2,
                highest_space: 0xFF,
                lowest_space,
                text,
            },
        );
    };
    of("2082E000F2FF", None, None);
    of("2082E000F2FF00", Some(0x00), None);
    of("2082E000F2FF10", Some(0x10), None);
    of("2082E000F2FFFD00", Some(0xFD), Some(&[]));
    of("2082E000F2FF0000", Some(0x00), Some(&[]));
    of("2082E000F2FF41424300", Some(0x41), Some(b"BC"));
    let longest = [0x41; 64];
    of(
        &format!("2082E000F2FF10{}00", "41".repeat(64)),
        Some(0x10),
        Some(&longest),
    );
    no_form(&format!("2082E000F2FF10{}00", "41".repeat(65)));
    no_form("2082E000F2FF1041");
    no_form("2082E000F2FF414243");
    no_form("2082E000F2FF100000");
    no_form("2082E000F2FF10410042");
    no_form("2082E000F2FF1041004200");
    no_form("2082");
    no_form("2082E000");
    no_form("2082E000F2");
    // Every bit of every field as it stands.
    reads(
        "2082FFFFFF00FF",
        Reply::Options {
            commands: 0xFFFF,
            write_lengths: 0xFF,
            highest_space: 0x00,
            lowest_space: Some(0xFF),
            text: None,
        },
    );
    reads(
        "208200010000",
        Reply::Options {
            commands: 0x0001,
            write_lengths: 0x00,
            highest_space: 0x00,
            lowest_space: None,
            text: None,
        },
    );
}

#[test]
fn information_replies() {
    for (command, present) in [("86", false), ("87", true)] {
        let of = |behind: &str, flags: u8, lowest: Option<u32>, text: Option<&[u8]>| {
            reads(
                &format!("20{command}100000010F{behind}"),
                Reply::Information {
                    present,
                    space: 0x10,
                    highest: 0x10F,
                    flags,
                    lowest,
                    text,
                },
            );
        };
        let of_none = |behind: &str| no_form(&format!("20{command}100000010F{behind}"));
        of("00", 0x00, None, None);
        of("01", 0x01, None, None);
        of("0200000100", 0x02, Some(0x100), None);
        of("0300000000", 0x03, Some(0), None);
        of("03FFFFFFFF", 0x03, Some(0xFFFF_FFFF), None);
        // Texts, right behind the flags and behind the lowest address.
        of("0000", 0x00, None, Some(&[]));
        of("01414200", 0x01, None, Some(b"AB"));
        of("0041424300", 0x00, None, Some(b"ABC"));
        of("020000010000", 0x02, Some(0x100), Some(&[]));
        of("0200000100414200", 0x02, Some(0x100), Some(b"AB"));
        of("020000000041424300", 0x02, Some(0), Some(b"ABC"));
        // Bit 1 without its four bytes.
        for behind in ["02", "0200", "020000", "02000001", "03414200"] {
            of_none(behind);
        }
        // Without bit 1 those bytes are a text, and here none.
        of_none("0000000100");
        of_none("0100000000");
        of_none("00414200414200");
        of_none("0041");
        of_none("000000");
        of_none("020000010041");
        of_none("02000001000000");
        of_none("");
        // The reserved bits as they stand.
        of("FD", 0xFD, None, None);
        of("FC00", 0xFC, None, Some(&[]));
        of("FF00000001", 0xFF, Some(1), None);
        of("8641424344", 0x86, Some(0x4142_4344), None);
        // Up to 72 bytes in all.
        let text = [0x41; 63];
        of(&format!("00{}00", "41".repeat(63)), 0x00, None, Some(&text));
        of_none(&format!("00{}00", "41".repeat(64)));
        of(
            &format!("0200000100{}00", "41".repeat(59)),
            0x02,
            Some(0x100),
            Some(&text[..59]),
        );
        of_none(&format!("0200000100{}00", "41".repeat(60)));
        no_form(&format!("20{command}"));
        no_form(&format!("20{command}10000001"));
    }
}

#[test]
fn lock_replies() {
    reads("208A000000000000", Reply::Lock { id: [0; 6] });
    let id = [1, 2, 3, 4, 5, 6];
    reads("208A010203040506", Reply::Lock { id });
    for wrong in ["208A", "208A0102030405", "208A01020304050600"] {
        no_form(wrong);
    }
}

#[test]
fn no_reply_at_all() {
    no_form("");
    no_form("20");
    no_form("21");
    // Commands, and replies to commands that document 01 does not cover.
    for other in [
        "2080",
        "20A8",
        "2084FD",
        "2088010203040506",
        "20410000000001",
        "20010000000001",
        "207000000000100102",
        "20710000000001020000FFFF",
        "2079000000001082",
        "20310000000001020000FFFF",
        "2039000000001082",
        "208D0102030405060708",
    ] {
        no_form(other);
    }
    // Another byte 0.
    for first in (0..=255).filter(|&first| first != 0x20) {
        no_form(&format!("{first:02X}8A010203040506"));
        no_form(&format!("{first:02X}5100000002ABCD"));
    }
}

#[test]
fn different_datagrams_that_could_be_taken_for_each_other() {
    let pairs = [
        // Byte 6 and control bits.
        ("205000000000FDAB", "205100000000AB"),
        ("201000000000FE", "201200000000"),
        ("205800000000FF1082", "205B000000001082"),
        ("201800000000FD1083", "2019000000001083"),
        // Reads and writes.
        ("2059000000001082", "2019000000001082"),
        // No text and an empty text.
        ("2059000000001082", "205900000000108200"),
        ("2082E000F2FF10", "2082E000F2FF1000"),
        ("2087FD0000001F00", "2087FD0000001F0000"),
        ("2087FD0000001F0200000001", "2087FD0000001F020000000100"),
        // Not given and zero.
        ("2082E000F2FF", "2082E000F2FF00"),
        ("2087FD0000001F00", "2087FD0000001F0200000000"),
        // Not present, and present with the same fields.
        ("2086110000000000", "2087110000000000"),
        // Reserved bits.
        ("2087FD0000001F00", "2087FD0000001F04"),
        ("2082E000F2FF", "2082E001F2FF"),
    ];
    for (one, other) in pairs {
        let (one, other) = (hex(one), hex(other));
        assert_ne!(read_reply(&one).unwrap(), read_reply(&other).unwrap());
    }
}

#[test]
fn every_command_with_every_length() {
    let mut read = [0u32; 256];
    for command in 0..=255u8 {
        for length in 0..=80 {
            for fill in [0x00, 0x41, 0x42] {
                for zeros in [0, 1, 2] {
                    let mut bytes = vec![fill; length];
                    bytes
                        .iter_mut()
                        .rev()
                        .take(zeros)
                        .for_each(|byte| *byte = 0);
                    bytes
                        .iter_mut()
                        .zip([0x20, command])
                        .for_each(|(byte, begin)| *byte = begin);
                    read[usize::from(command)] += u32::from(assert_read(&bytes));
                }
            }
        }
    }
    for (command, &count) in read.iter().enumerate() {
        let reply = matches!(
            command,
            0x10..=0x13 | 0x18..=0x1B | 0x50..=0x53 | 0x58..=0x5B | 0x82 | 0x86 | 0x87 | 0x8A
        );
        assert_eq!(count > 0, reply, "{command:02X}");
    }
}

#[test]
fn replies_with_all_they_may_have_and_then_damaged() {
    let mut numbers = Numbers(0x9E37_79B9_7F4A_7C15);
    let mut seen = [0u32; 2];
    let bytes_of = |numbers: &mut Numbers, most: u32| {
        let count = numbers.below(most + 1) as usize;
        let mut bytes = numbers.bytes(count);
        bytes.iter_mut().for_each(|byte| *byte = (*byte).max(1));
        bytes
    };
    for _ in 0..60_000 {
        let data = numbers.bytes(64);
        let text = bytes_of(&mut numbers, 59);
        let text = (numbers.below(3) > 0).then_some(&text[..]);
        let name = NAMES[numbers.below(6) as usize].2;
        let address = numbers.below(u32::MAX);
        let code = numbers.below(0x1_0000) as u16;
        let reply = match numbers.below(7) {
            0 => Reply::Read {
                space: name,
                address,
                data: &data[..1 + numbers.below(64) as usize],
            },
            1 => Reply::ReadFailed {
                space: name,
                address,
                code,
                text,
            },
            2 => Reply::Written {
                space: name,
                address,
            },
            3 => Reply::WriteFailed {
                space: name,
                address,
                code,
                text,
            },
            4 => Reply::Options {
                commands: code,
                write_lengths: data[0],
                highest_space: data[1],
                lowest_space: (text.is_some() || data[2] < 128).then_some(data[3]),
                text,
            },
            5 => Reply::Information {
                present: data[0] < 128,
                space: data[1],
                highest: address,
                flags: data[2],
                lowest: (data[2] & 0x02 != 0).then_some(address ^ 0x55),
                text,
            },
            _ => Reply::Lock {
                id: *data.first_chunk().unwrap(),
            },
        };
        let mut bytes = composed(&reply);
        assert_eq!(read_reply(&bytes), Ok(reply));
        assert!(assert_read(&bytes));
        match numbers.below(4) {
            0 => bytes.truncate(numbers.below(bytes.len() as u32) as usize),
            1 => {
                let more = 1 + numbers.below(4) as usize;
                bytes.extend((0..more).map(|_| numbers.one_of(&[0x00, 0x41])));
            }
            2 => {
                let at = numbers.below(bytes.len() as u32) as usize;
                bytes[at] = 0;
            }
            _ => {
                let at = numbers.below(bytes.len().min(12) as u32) as usize;
                bytes[at] ^= 1 << numbers.below(8);
            }
        }
        seen[usize::from(assert_read(&bytes))] += 1;
    }
    assert!(seen.iter().all(|&count| count > 10_000), "{seen:?}");
}

#[test]
fn bytes_of_any_kind_are_read_or_w3() {
    let mut numbers = Numbers(0xD1B5_4A32_D192_ED03);
    for _ in 0..60_000 {
        let length = numbers.below(90) as usize;
        let mut bytes = numbers.bytes(length);
        assert_read(&bytes);
        assert_eq!(read_received_ok(&bytes).is_ok(), length <= 1);
        assert_eq!(read_rejected(&bytes).is_ok(), length <= 66);
        let commands = [
            0x10, 0x11, 0x18, 0x1B, 0x50, 0x52, 0x58, 0x59, 0x82, 0x86, 0x87, 0x8A,
        ];
        let begin = [0x20, numbers.one_of(&commands)];
        bytes
            .iter_mut()
            .zip(begin)
            .for_each(|(byte, begin)| *byte = begin);
        assert_read(&bytes);
    }
}

// The whole way: a request, its command, the board, and the reading of what comes back.

/// What document 01 has the board do with a request, written here apart from the library.
enum Deed<'b> {
    Reply(Reply<'b>),
    Write { start: usize, memory: Vec<u8> },
    Nothing,
}

fn deed<'b>(board: &'b Bench, request: &Request, name: NamedSpace) -> Deed<'b> {
    let described = |number: u8| board.spaces.iter().find(|space| space.number == number);
    match *request {
        Request::Read {
            space,
            address,
            count,
        } => {
            let failed = |code| {
                Deed::Reply(Reply::ReadFailed {
                    space: name,
                    address,
                    code,
                    text: None,
                })
            };
            match described(space) {
                None if space < 0xFD => failed(0x1081),
                Some(found) if found.lowest <= address && address <= found.highest => {
                    let store = if found.in_flash {
                        &board.flash
                    } else {
                        &board.memory
                    };
                    let start = (found.offset + (address - found.lowest)) as usize;
                    let left = (found.highest - address) as usize + 1;
                    let data = &store[start..start + left.min(usize::from(count))];
                    Deed::Reply(Reply::Read {
                        space: name,
                        address,
                        data,
                    })
                }
                _ => failed(0x1082),
            }
        }
        Request::Write {
            space,
            address,
            bytes,
        } => {
            let pairs: Vec<u8> = bytes.iter().flat_map(|&byte| [0xFF, byte]).collect();
            deed(board, &write_masked(space, address, &pairs), name)
        }
        Request::WriteMasked {
            space,
            address,
            pairs,
        } => {
            let failed = |code| {
                Deed::Reply(Reply::WriteFailed {
                    space: name,
                    address,
                    code,
                    text: None,
                })
            };
            let last = u64::from(address) + pairs.len() as u64 / 2 - 1;
            match described(space) {
                None if space < 0xFD => failed(0x1081),
                None if space == 0xFF => failed(0x1083),
                Some(found) if found.read_only => failed(0x1083),
                Some(found) if found.lowest <= address && last <= u64::from(found.highest) => {
                    let start = (found.offset + (address - found.lowest)) as usize;
                    let mut memory = board.memory.clone();
                    for (byte, pair) in memory[start..].iter_mut().zip(pairs.chunks(2)) {
                        *byte = *byte & !pair[0] | pair[1] & pair[0];
                    }
                    Deed::Write { start, memory }
                }
                _ => failed(0x1082),
            }
        }
        Request::Options => Deed::Reply(Reply::Options {
            commands: 0xE000,
            write_lengths: board.write_lengths,
            highest_space: 0xFF,
            lowest_space: board
                .spaces
                .iter()
                .map(|space| space.number)
                .chain([0xFD])
                .min(),
            text: None,
        }),
        Request::Information { space } => Deed::Reply(match described(space) {
            Some(found) => Reply::Information {
                present: true,
                space,
                highest: found.highest,
                flags: u8::from(found.read_only) + if found.lowest == 0 { 0 } else { 2 },
                lowest: (found.lowest != 0).then_some(found.lowest),
                text: None,
            },
            None => Reply::Information {
                present: false,
                space,
                highest: 0,
                flags: 0,
                lowest: None,
                text: None,
            },
        }),
        Request::Lock { id } => Deed::Reply(Reply::Lock {
            id: if board.lock == [0; 6] || id == [0; 6] {
                id.try_into().unwrap()
            } else {
                board.lock
            },
        }),
        Request::UpdateComplete => Deed::Nothing,
    }
}

/// A request in range, with one of these bytes and often at an end of a space of the board.
fn any_request<'a>(numbers: &mut Numbers, board: &Bench, bytes: &'a [u8]) -> Request<'a> {
    let any = numbers.byte();
    let mut space = numbers.one_of(&[any, 0xFC, 0xFD, 0xFE, 0xFF]);
    let mut address = numbers.below(u32::MAX) >> numbers.below(32);
    if !board.spaces.is_empty() && numbers.below(8) > 0 {
        let found = numbers.one_of(&board.spaces);
        space = found.number;
        let end = numbers.one_of(&[found.lowest, found.highest]);
        address = end.wrapping_add(numbers.below(40)).wrapping_sub(30);
    }
    let most = numbers.one_of(&[4, 16, 64]);
    let length = 1 + numbers.below(most) as usize;
    match numbers.below(16) {
        0..=4 => read(space, address, length as u8),
        5..=8 => write(space, address, &bytes[..length]),
        9..=11 => write_masked(space, address, &bytes[..(length + 1) & !1]),
        12 => Request::Options,
        13 => Request::Information { space },
        14 => Request::Lock {
            id: if any < 128 { &[0; 6] } else { &bytes[..6] },
        },
        _ => Request::UpdateComplete,
    }
}

/// The same request in a form that the writer does not use: the space in byte 6.
fn with_byte_6(command: &[u8]) -> Option<(Vec<u8>, NamedSpace)> {
    let bits = command[1] & 0x03;
    let addressed = matches!(command[1], 0x01..=0x03 | 0x09..=0x0B | 0x41..=0x43);
    addressed.then(|| {
        let space = 0xFC + bits;
        let head = [0x20, command[1] - bits];
        let bytes = [&head, &command[2..6], &[space], &command[6..]].concat();
        (bytes, NamedSpace::Byte6(space))
    })
}

#[test]
fn what_the_board_answers_to_requests_is_read() {
    let mut numbers = Numbers(0x853C_49E6_748F_EA9B);
    let mut large = Bench::with_spaces(&[
        space(0xFD, 0, 0x7F, 16),
        space(0xFE, 0x80, 0x17F, 0),
        in_flash(space(0xFF, 0, 0x5F, 3)),
        space(0x00, 0xFFFF_FF80, 0xFFFF_FFFF, 100),
        read_only(space(0xFC, 1, 0x40, 0)),
        space(0x42, 0, 0, 255),
    ]);
    large.memory = numbers.bytes(256);
    large.flash = numbers.bytes(100);
    let mut seen = [0u32; 9];
    for mut board in [Bench::demo(), large, Bench::with_spaces(&[])] {
        for _ in 0..12_000 {
            let bytes = numbers.bytes(64);
            let request = any_request(&mut numbers, &board, &bytes);
            let mut command = written(&request);
            let mut name = match request {
                Request::Read { space, .. }
                | Request::Write { space, .. }
                | Request::WriteMasked { space, .. } => NamedSpace::shortest(space),
                _ => NamedSpace::Byte6(0),
            };
            // Now and then a form that the board accepts as well.
            if numbers.below(4) == 0 {
                if let Some((long, long_name)) = with_byte_6(&command) {
                    command = long;
                    name = long_name;
                }
                if matches!(request, Request::Read { .. }) {
                    *command.last_mut().unwrap() |= 0x80;
                }
            }
            assert_eq!(board_reads(&command), Some(request));

            let before = board.clone();
            let answer = board.datagram(&command).unwrap();
            let frame = transport_reply(0x22B, 0x123, FrameAnswer::Handled(answer)).unwrap();
            let transport = read_received_ok(&frame.data()[2..]).unwrap();
            assert_eq!(transport.timeout, 0);
            let kind = match (deed(&before, &request, name), answer) {
                (Deed::Reply(expected), Answer::Replied(length)) => {
                    let reply = read_reply(&board.reply[..length]);
                    assert_eq!(reply, Ok(expected), "{request:?}");
                    assert!(transport.reply_pending);
                    assert_eq!(board.memory, before.memory);
                    match expected {
                        Reply::Read { .. } => 0,
                        Reply::ReadFailed { .. } => 1,
                        Reply::Written { .. } => unreachable!("the board has no such reply"),
                        Reply::WriteFailed { .. } => 2,
                        Reply::Options { .. } => 3,
                        Reply::Information { present: false, .. } => 4,
                        Reply::Information { present: true, .. } => 5,
                        Reply::Lock { .. } => 6,
                    }
                }
                (Deed::Write { start, memory }, Answer::Written { start: at, count }) => {
                    assert_eq!(at, start);
                    match request {
                        Request::Write { bytes, .. } => assert_eq!(count, bytes.len()),
                        Request::WriteMasked { pairs, .. } => assert_eq!(count, pairs.len() / 2),
                        _ => unreachable!("no write"),
                    }
                    assert_eq!(board.memory, memory);
                    assert!(!transport.reply_pending);
                    7
                }
                (Deed::Nothing, Answer::UpdateComplete) => {
                    assert_eq!(board.memory, before.memory);
                    assert!(!transport.reply_pending);
                    8
                }
                _ => panic!("{request:?}: {answer:?}"),
            };
            seen[kind] += 1;
        }
    }
    assert!(seen.iter().all(|&count| count > 200), "{seen:?}");
}
