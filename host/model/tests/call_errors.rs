//! Holds the tests of the errors of the caller, which go back to the caller: B11 to B14 and B2 to
//! B7, their order, the positions that B2 to B5 bring, and that nothing changes.

mod common;

use common::{entry, first, hex, in_flash, last, read_only, single, space, swallowed, Bench};
use model::{
    check_description, Answer, CallError, Description, FrameAnswer, Kept, Reception, Space,
    Unfinished,
};
use CallError::{
    B11TooManySpaces, B12MemoryTooLarge, B13FlashTooLarge, B14AliasOutOfRange,
    B2LowestAboveHighest, B3WindowPastEnd, B4MustBeReadOnly, B5NumberUsedTwice,
    B6ReplyBufferTooShort, B7BadReceptionState, B9CannotBeCut,
};

/// The error for a limit, and how a board comes to break it.
type Limit = (CallError, fn(&mut Bench));

/// The error for a fault at a position, and how the space there comes to have the fault.
type Fault = (fn(usize) -> CallError, fn(&mut [Space], usize));

/// The four limits in the order in which they are tested.
const LIMITS: [Limit; 4] = [
    (B11TooManySpaces, |board| board.spaces = sound_spaces(17)),
    (B12MemoryTooLarge, |board| board.memory.resize(65_537, 0)),
    (B13FlashTooLarge, |board| board.flash.resize(65_537, 0)),
    (B14AliasOutOfRange, |board| board.alias = 0),
];

/// The four faults of a space in the order in which they are tested. None undoes another, however
/// large memory and flash are. The first space cannot have the last fault: no space is earlier.
const FAULTS: [Fault; 4] = [
    (B2LowestAboveHighest, |spaces, at| spaces[at].lowest = 1),
    (B3WindowPastEnd, |spaces, at| spaces[at].offset = u32::MAX),
    (B4MustBeReadOnly, |spaces, at| spaces[at].in_flash = true),
    (B5NumberUsedTwice, |spaces, at| {
        spaces[at].number = spaces[0].number
    }),
];

/// Spaces of one byte each, with unlike numbers.
fn sound_spaces(count: u8) -> Vec<Space> {
    (0..count).map(|at| space(at * 15, 0, 0, 0)).collect()
}

/// Gives the space at a position the faults whose bits are set, and gives the error that is due if
/// every earlier space is sound.
fn spoil(spaces: &mut [Space], at: usize, faults: usize) -> Option<CallError> {
    let mut due = None;
    for (bit, (error, fault)) in FAULTS.iter().enumerate() {
        if faults >> bit & 1 == 1 && (bit < 3 || at > 0) {
            fault(spaces, at);
            due = due.or(Some(error(at)));
        }
    }
    due
}

/// The check of the description alone.
fn checked(bench: &Bench) -> Result<(), CallError> {
    let description = Description {
        alias: bench.alias,
        write_lengths: bench.write_lengths,
        spaces: &bench.spaces,
    };
    check_description(&description, bench.flash.len(), bench.memory.len())
}

/// Puts a write, a lock, a frame and an ignored frame to the board; all are refused alike and
/// nothing changes. The whole-datagram calls know nothing of B7, and a lone tick of B7 alone.
fn assert_refused(bench: &Bench, error: CallError) {
    let mut board = bench.clone();
    assert_eq!(board.lone_tick(), bench.reception.check());
    board.assert_as(bench);
    for datagram in ["", "20010000000011", "2088010203040506", "2080", "21"] {
        let mut board = bench.clone();
        let answer = board.datagram(&hex(datagram));
        if error == B7BadReceptionState {
            assert!(answer.is_ok());
        } else {
            assert_eq!(answer, Err(error));
            board.assert_as(bench);
        }
        for header in [0x1A, 0x1B, 0x1C, 0x1D, 0x19, 0x3A].map(|top| top << 24 | 0x22_B123) {
            let mut board = bench.clone();
            assert_eq!(board.frame(header, &hex(datagram)), Err(error));
            board.assert_as(bench);
        }
        let mut board = bench.clone();
        assert_eq!(board.frame(0x1A30_0123, &[0; 9]), Err(error));
        board.assert_as(bench);
    }
}

fn refused(spaces: &[Space], error: CallError) {
    assert_description_refused(&Bench::with_spaces(spaces), error);
}

/// The same for a board whose description alone is enough for the refusal.
fn assert_description_refused(bench: &Bench, error: CallError) {
    assert_eq!(checked(bench), Err(error));
    assert_refused(bench, error);
}

fn accepted(spaces: &[Space]) {
    assert_eq!(
        Bench::with_spaces(spaces).datagram(&hex("20A8")),
        Ok(Answer::UpdateComplete)
    );
}

#[test]
fn b11_spaces() {
    accepted(&[]);
    accepted(&sound_spaces(16));
    refused(&sound_spaces(17), B11TooManySpaces);
    // Counts whose low eight or sixteen bits are a count in range.
    for count in [256, 272, 65_536, 65_552] {
        let mut board = Bench::demo();
        board.spaces = vec![space(1, 0, 0, 0); count];
        assert_eq!(checked(&board), Err(B11TooManySpaces), "{count}");
    }
}

#[test]
fn b12_memory() {
    let mut bench = Bench::demo();
    bench.memory = vec![0; 65_536];
    assert_eq!(bench.datagram(&hex("20A8")), Ok(Answer::UpdateComplete));
    bench.memory.push(0);
    assert_description_refused(&bench, B12MemoryTooLarge);
    bench.memory.resize(131_072, 0);
    assert_description_refused(&bench, B12MemoryTooLarge);
}

#[test]
fn b13_flash() {
    let mut bench = Bench::demo();
    bench.flash = vec![0; 65_536];
    assert_eq!(bench.datagram(&hex("20A8")), Ok(Answer::UpdateComplete));
    bench.flash.push(0);
    assert_description_refused(&bench, B13FlashTooLarge);
    bench.flash.resize(131_072, 0);
    assert_description_refused(&bench, B13FlashTooLarge);
}

#[test]
fn b14_alias() {
    for alias in [1, 2, 0x22B, 4_094, 4_095] {
        let mut bench = Bench::demo();
        bench.alias = alias;
        assert_eq!(bench.datagram(&hex("20A8")), Ok(Answer::UpdateComplete));
    }
    for alias in [0, 4_096, 0x122B, 65_535] {
        let mut bench = Bench::demo();
        bench.alias = alias;
        assert_description_refused(&bench, B14AliasOutOfRange);
    }
}

#[test]
fn all_limits_reached_and_none_broken() {
    for alias in [1, 4_095] {
        let mut bench = Bench::with_spaces(&sound_spaces(16));
        bench.memory.resize(65_536, 0);
        bench.flash.resize(65_536, 0);
        bench.alias = alias;
        assert_eq!(checked(&bench), Ok(()));
        assert_eq!(bench.datagram(&hex("20A8")), Ok(Answer::UpdateComplete));
    }
}

/// A board that breaks the limits whose bits are set, and the first of them.
fn limits_broken(broken: usize) -> (Bench, Option<CallError>) {
    let mut board = Bench::with_spaces(&sound_spaces(16));
    let mut due = None;
    for (bit, (error, break_limit)) in LIMITS.iter().enumerate() {
        if broken >> bit & 1 == 1 {
            break_limit(&mut board);
            due = due.or(Some(*error));
        }
    }
    (board, due)
}

#[test]
fn the_first_limit_broken_is_given() {
    for broken in 1..16 {
        let (board, due) = limits_broken(broken);
        assert_description_refused(&board, due.unwrap());
    }
}

#[test]
fn limits_come_before_everything_else() {
    let bytes = [7; 72];
    for broken in 0..16 {
        let (sound, limit) = limits_broken(broken);
        for faults in 0..16 {
            for at in [0, 7, 15] {
                let mut board = sound.clone();
                let fault = spoil(&mut board.spaces, at, faults);
                assert_eq!(checked(&board).err(), limit.or(fault));
            }
        }
        // Every space is bad, the reply buffer is short and the reception state is damaged.
        let mut board = sound;
        for at in 0..board.spaces.len() {
            spoil(&mut board.spaces, at, 1 << (at % 4));
        }
        board.reply.truncate(71);
        board.reception = Reception::from_unfinished(&[entry(1, 73, &bytes)]).unwrap();
        assert_description_refused(&board, limit.unwrap_or(B2LowestAboveHighest(0)));
    }
}

#[test]
fn b2_lowest_above_highest() {
    refused(&[space(1, 1, 0, 0)], B2LowestAboveHighest(0));
    refused(&[space(1, u32::MAX, 0, u32::MAX)], B2LowestAboveHighest(0));
    refused(
        &[space(1, 0, 0, 0), space(1, 6, 5, 0)],
        B2LowestAboveHighest(1),
    );
    accepted(&[space(1, 5, 5, 0)]);
}

#[test]
fn b3_windows() {
    accepted(&[space(1, 0, 47, 0)]);
    refused(&[space(1, 0, 48, 0)], B3WindowPastEnd(0));
    accepted(&[space(1, 100, 146, 1)]);
    refused(&[space(1, 100, 147, 1)], B3WindowPastEnd(0));
    refused(&[space(1, 0, 0, 48)], B3WindowPastEnd(0));
    refused(&[space(1, 0, 0, u32::MAX)], B3WindowPastEnd(0));
    refused(&[space(1, 0, u32::MAX, 0)], B3WindowPastEnd(0));
    refused(&[space(1, 0, u32::MAX, u32::MAX)], B3WindowPastEnd(0));
    refused(&[space(1, 1, u32::MAX, 1)], B3WindowPastEnd(0));
    accepted(&[in_flash(space(1, 0, 15, 0))]);
    refused(&[in_flash(space(1, 0, 16, 0))], B3WindowPastEnd(0));
    refused(&[in_flash(space(1, 0, 0, 16))], B3WindowPastEnd(0));
    // Memory and flash differ in size, and each space is held to its own.
    refused(
        &[space(1, 0, 16, 0), in_flash(space(2, 0, 16, 0))],
        B3WindowPastEnd(1),
    );
    let mut bench = Bench::with_spaces(&[space(1, 0, 0, 0)]);
    bench.memory.clear();
    assert_refused(&bench, B3WindowPastEnd(0));
    let mut bench = Bench::with_spaces(&[in_flash(space(1, 0, 0, 0))]);
    bench.flash.clear();
    assert_refused(&bench, B3WindowPastEnd(0));
}

#[test]
fn b4_access() {
    let writable_in_flash = Space {
        read_only: false,
        ..in_flash(space(1, 0, 0, 0))
    };
    refused(&[writable_in_flash], B4MustBeReadOnly(0));
    refused(&[space(0xFF, 0, 0, 0)], B4MustBeReadOnly(0));
    refused(
        &[space(1, 0, 0, 0), space(0xFF, 0, 0, 0)],
        B4MustBeReadOnly(1),
    );
    accepted(&[read_only(space(0xFF, 0, 0, 0))]);
    accepted(&[
        read_only(space(0xFD, 0, 0, 0)),
        read_only(space(0xFE, 0, 0, 0)),
    ]);
}

#[test]
fn b5_numbers() {
    refused(
        &[space(1, 0, 0, 0), space(1, 0, 0, 0)],
        B5NumberUsedTwice(1),
    );
    refused(
        &[space(0, 0, 0, 0), space(64, 0, 0, 0), space(0, 0, 0, 0)],
        B5NumberUsedTwice(2),
    );
    accepted(&[0, 63, 64, 127, 128, 191, 192, 254].map(|number| space(number, 0, 0, 0)));
    let mut all: Vec<Space> = (0..16).map(|number| space(number * 16, 0, 0, 0)).collect();
    accepted(&all);
    all[15].number = 0;
    refused(&all, B5NumberUsedTwice(15));
}

#[test]
fn the_order_of_b2_to_b5() {
    // Each space goes through all its checks before the next.
    let b2 = space(9, 1, 0, 999);
    let b3 = Space {
        read_only: false,
        ..in_flash(space(9, 0, 99, 0))
    };
    let b4 = space(0xFF, 0, 0, 0);
    let sound = space(9, 0, 0, 0);
    refused(&[sound, sound, b2], B5NumberUsedTwice(1));
    refused(&[sound, b2, sound], B2LowestAboveHighest(1));
    refused(&[b4, b2], B4MustBeReadOnly(0));
    refused(&[b3, b2], B3WindowPastEnd(0));
    refused(&[sound, b3], B3WindowPastEnd(1));
    refused(&[read_only(b4), b4], B4MustBeReadOnly(1));
    refused(&[b2, b3, b4], B2LowestAboveHighest(0));
}

#[test]
fn positions_of_the_refused_space() {
    // A description of one space, one of 16 and all between, bad at each position in turn.
    for count in 1..=16 {
        for at in 0..usize::from(count) {
            for (bit, (error, _)) in FAULTS.iter().enumerate() {
                let mut board = Bench::with_spaces(&sound_spaces(count));
                let due = spoil(&mut board.spaces, at, 1 << bit);
                assert_eq!(checked(&board).err(), due);
                // The first space has no earlier one, so B5 begins at position 1.
                let b5_of_the_first = bit == 3 && at == 0;
                assert_eq!(due, (!b5_of_the_first).then(|| error(at)));
            }
        }
    }
}

#[test]
fn positions_come_back_from_every_call() {
    for at in [0, 1, 7, 14, 15] {
        for faults in [1, 2, 4, 8] {
            let mut spaces = sound_spaces(16);
            match spoil(&mut spaces, at, faults) {
                Some(due) => refused(&spaces, due),
                None => accepted(&spaces),
            }
        }
    }
}

#[test]
fn the_first_bad_space_decides() {
    // Every set of faults in one space together with every set of faults in a later one.
    for (earlier, later) in (0..16).flat_map(|later| (0..later).map(move |at| (at, later))) {
        for (faults, later_faults) in (0..16).flat_map(|one| (0..16).map(move |two| (one, two))) {
            let mut board = Bench::with_spaces(&sound_spaces(16));
            let due = spoil(&mut board.spaces, earlier, faults);
            let later_due = spoil(&mut board.spaces, later, later_faults);
            assert_eq!(checked(&board).err(), due.or(later_due));
        }
    }
    // From a position on every space is bad, the faults taking turns.
    for start in 0..16 {
        for turn in 0..4 {
            let mut spaces = sound_spaces(16);
            let due = (start..16)
                .map(|at| spoil(&mut spaces, at, 1 << ((at + turn) % 4)))
                .fold(None, Option::or);
            refused(&spaces, due.expect("a bad space"));
        }
    }
    // The fault that is tested last decides here, because its space comes first.
    let mut spaces = sound_spaces(16);
    spoil(&mut spaces, 15, 0b0001);
    spoil(&mut spaces, 14, 0b1000);
    refused(&spaces, B5NumberUsedTwice(14));
}

#[test]
fn b5_gives_the_position_of_the_later_space() {
    for later in 1..16 {
        for earlier in 0..later {
            let mut board = Bench::with_spaces(&sound_spaces(16));
            board.spaces[later].number = board.spaces[earlier].number;
            assert_eq!(checked(&board), Err(B5NumberUsedTwice(later)));
        }
    }
    // Of several pairs it is the one that is complete first, of three alike the second.
    let numbered =
        |numbers: &[u8]| -> Vec<Space> { numbers.iter().map(|&it| space(it, 0, 0, 0)).collect() };
    refused(&numbered(&[7, 8, 8, 7]), B5NumberUsedTwice(2));
    refused(&numbered(&[7, 8, 7, 8]), B5NumberUsedTwice(2));
    refused(&numbered(&[7, 8, 9, 7, 7]), B5NumberUsedTwice(3));
    refused(&numbered(&[7; 16]), B5NumberUsedTwice(1));
}

#[test]
fn b6_reply_buffer() {
    for length in [0, 1, 71] {
        let mut bench = Bench::demo();
        bench.reply.truncate(length);
        assert_refused(&bench, B6ReplyBufferTooShort);
        bench.spaces[3].highest = 0x110;
        assert_refused(&bench, B3WindowPastEnd(3));
        bench.spaces[0].highest = 48;
        assert_refused(&bench, B3WindowPastEnd(0));
    }
    let mut bench = Bench::demo();
    bench.reply.truncate(72);
    assert_eq!(bench.datagram(&hex("20A8")), Ok(Answer::UpdateComplete));
}

#[test]
fn b7_reception() {
    let bytes = [7; 72];
    let damaged: &[&[Unfinished]] = &[
        &[entry(1, 73, &bytes)],
        &[entry(1, usize::MAX, &bytes)],
        &[entry(4_096, 0, &[])],
        &[entry(65_535, 3, &bytes)],
        &[entry(5, 1, &bytes), entry(5, 1, &bytes)],
        &[entry(5, 1, &bytes), entry(5, 2, &bytes)],
        &[entry(0, 0, &[]), entry(1, 0, &[]), entry(0, 0, &[])],
        &[
            entry(0, 0, &[]),
            entry(1, 0, &[]),
            entry(2, 0, &[]),
            entry(3, 0, &[]),
            entry(4, 0, &[]),
            entry(5, 0, &[]),
            entry(6, 0, &[]),
            entry(7, 73, &bytes),
        ],
        // The source of the frame itself is damaged, or quite another.
        &[entry(0x123, 73, &bytes)],
        &[entry(0x123, 8, &bytes), entry(0x456, 73, &bytes)],
        // Sources that are being swallowed.
        &[swallowed(4_096)],
        &[swallowed(65_535)],
        &[swallowed(0x123), swallowed(4_096)],
        &[swallowed(0x123), swallowed(0x123)],
        &[swallowed(0), entry(1, 0, &[]), swallowed(0)],
        &[swallowed(5), entry(5, 0, &[])],
        &[entry(5, 0, &[]), swallowed(5)],
        &[entry(5, 1, &bytes), swallowed(6), swallowed(5)],
        &[swallowed(0x123), entry(0x456, 73, &bytes)],
        &[
            swallowed(0),
            swallowed(1),
            swallowed(2),
            swallowed(3),
            swallowed(4),
            swallowed(5),
            swallowed(6),
            swallowed(6),
        ],
    ];
    // At the later times every entry would be dropped.
    for (entries, time) in damaged
        .iter()
        .flat_map(|&entries| [0, 3_001, u64::MAX].map(|time| (entries, time)))
    {
        let mut bench = Bench::demo();
        bench.time = time;
        bench.reception = Reception::from_unfinished(entries).unwrap();
        assert_eq!(bench.reception.check(), Err(B7BadReceptionState));
        assert_refused(&bench, B7BadReceptionState);
        let mut short = bench.clone();
        short.reply.truncate(71);
        assert_refused(&short, B6ReplyBufferTooShort);
        short.spaces[1].lowest = 0x30;
        assert_refused(&short, B2LowestAboveHighest(1));
    }
}

#[test]
fn b7_asks_nothing_of_times() {
    let times = [0, 1, 3_001, 65_536, 4_294_967_296, u64::MAX - 1, u64::MAX];
    for (one, two, time) in times
        .iter()
        .flat_map(|one| times.iter().map(move |two| (*one, *two)))
        .flat_map(|(one, two)| times.map(|time| (one, two, time)))
    {
        let entries = [
            Unfinished {
                last_accepted: one,
                ..entry(1, 0, &[])
            },
            Unfinished {
                last_accepted: two,
                ..entry(2, 0, &[])
            },
        ];
        let mut bench = Bench::demo();
        bench.time = time;
        bench.reception = Reception::from_unfinished(&entries).unwrap();
        assert_eq!(bench.reception.check(), Ok(()));
        assert_eq!(bench.clone().lone_tick(), Ok(()));
        assert_eq!(bench.frame(0, &[]), Ok(FrameAnswer::Ignored));
    }
}

#[test]
fn b7_asks_nothing_of_the_length_of_what_is_swallowed() {
    let bytes: Vec<u8> = (0..100).collect();
    for length in [0, 1, 72, 73, 200, 65_536, usize::MAX] {
        for given in [0, 1, 72, 73, 100] {
            let entries = [
                Unfinished {
                    length,
                    bytes: &bytes[..given],
                    ..swallowed(1)
                },
                entry(2, 1, &[0x20]),
            ];
            let mut bench = Bench::demo();
            bench.reception = Reception::from_unfinished(&entries).unwrap();
            assert_eq!(bench.reception.check(), Ok(()));
            assert_eq!(bench.lone_tick(), Ok(()));
            assert_eq!(bench.reception.kept_for(1), Kept::Swallowed);
            assert_eq!(bench.frame(last(1), &[0]), Ok(FrameAnswer::Nothing));
            assert_eq!(bench.reception.kept_for(1), Kept::Nothing);
            // The length is not left behind for whoever has the place next.
            assert_eq!(bench.frame(first(3), &[0x20]), Ok(FrameAnswer::Nothing));
            assert_eq!(bench.reception.kept_for(3), Kept::Bytes(&[0x20]));
            assert_eq!(
                bench.frame(last(3), &[0xA8]),
                Ok(FrameAnswer::Handled(Answer::UpdateComplete))
            );
        }
    }
}

#[test]
fn sound_states_at_their_limits() {
    let bytes = [7; 72];
    let entries = [
        entry(0, 72, &bytes),
        entry(4_095, 72, &bytes),
        entry(1, 0, &[]),
        entry(0x22B, 1, &bytes),
    ];
    let mut bench = Bench::demo();
    bench.reception = Reception::from_unfinished(&entries).unwrap();
    assert_eq!(bench.reception.check(), Ok(()));
    assert_eq!(
        bench.frame(single(0x123), &hex("20A8")),
        Ok(FrameAnswer::Handled(Answer::UpdateComplete))
    );
    assert_eq!(bench.frame(first(0x123), &[]), Ok(FrameAnswer::Nothing));
    assert_eq!(bench.kept().len(), 5);
    // Eight sources that are being swallowed, the board's own alias among them.
    let entries = [0, 4_095, 0x22B, 1, 2, 3, 4, 5].map(swallowed);
    bench.reception = Reception::from_unfinished(&entries).unwrap();
    assert_eq!(bench.reception.check(), Ok(()));
    assert_eq!(bench.frame(last(0xFFF), &[]), Ok(FrameAnswer::Nothing));
    assert_eq!(bench.frame(last(0), &[]), Ok(FrameAnswer::Nothing));
    assert_eq!(bench.frame(last(0x22B), &[]), Ok(FrameAnswer::Ignored));
    assert_eq!(bench.kept().len(), 6);
}

#[test]
fn states_of_more_than_eight_entries_cannot_be_made() {
    let entries: Vec<_> = (0..9).map(|source| entry(source, 0, &[])).collect();
    assert!(Reception::from_unfinished(&entries).is_none());
    assert!(Reception::from_unfinished(&entries[..8]).is_some());
}

#[test]
fn entries_come_back_as_they_went_in() {
    let bytes: Vec<u8> = (0..72).collect();
    let mut entries = [
        entry(9, 200, &bytes),
        entry(9, 3, &bytes[..3]),
        entry(0xFFFF, 0, &[]),
        entry(3, 72, &bytes),
    ];
    entries[1].last_accepted = 65_536;
    entries[2].last_accepted = u64::MAX;
    entries[3].last_accepted = 4_294_967_296;
    let state = Reception::from_unfinished(&entries).unwrap();
    assert_eq!(state.unfinished().collect::<Vec<_>>(), entries);
    let mut turned = entries;
    turned.reverse();
    let other = Reception::from_unfinished(&turned).unwrap();
    assert!(state.keeps_the_same_as(&other));
    turned[0].last_accepted = 0;
    let other = Reception::from_unfinished(&turned).unwrap();
    assert!(!state.keeps_the_same_as(&other));
    turned[0] = entries[3];
    turned[0].length = 71;
    let other = Reception::from_unfinished(&turned).unwrap();
    assert!(!state.keeps_the_same_as(&other));
}

#[test]
fn of_what_is_swallowed_only_source_and_time_come_back() {
    let bytes = [7; 72];
    let went_in = [
        Unfinished {
            length: 200,
            bytes: &bytes,
            last_accepted: 65_536,
            ..swallowed(9)
        },
        Unfinished {
            length: 3,
            bytes: &bytes[..3],
            ..swallowed(0xFFFF)
        },
        entry(3, 0, &[]),
    ];
    let came_out = [
        Unfinished {
            last_accepted: 65_536,
            ..swallowed(9)
        },
        swallowed(0xFFFF),
        entry(3, 0, &[]),
    ];
    let state = Reception::from_unfinished(&went_in).unwrap();
    assert_eq!(state.unfinished().collect::<Vec<_>>(), came_out);
    assert_eq!(state.kept_for(9), Kept::Swallowed);
    assert_eq!(state.kept_for(0xFFFF), Kept::Swallowed);
    assert_eq!(state.kept_for(3), Kept::Bytes(&[]));
    assert_eq!(state.kept_for(4), Kept::Nothing);
    // The same in another order, whatever length and bytes were given with what is swallowed.
    let mut turned = came_out;
    turned.reverse();
    let other = Reception::from_unfinished(&turned).unwrap();
    assert!(state.keeps_the_same_as(&other) && other.keeps_the_same_as(&state));
    // Another time, another source, and an unfinished datagram of no bytes are not the same.
    let changes: [fn(&mut Unfinished); 3] = [
        |entry| entry.last_accepted += 1,
        |entry| entry.source -= 1,
        |entry| entry.swallowed = !entry.swallowed,
    ];
    for (at, change) in (0..3).flat_map(|at| changes.map(|change| (at, change))) {
        let mut changed = came_out;
        change(&mut changed[at]);
        let other = Reception::from_unfinished(&changed).unwrap();
        assert!(!state.keeps_the_same_as(&other) && !other.keeps_the_same_as(&state));
    }
}

#[test]
fn the_numbers_of_the_errors() {
    let all = [
        (B2LowestAboveHighest(0), 2, Some(0), "B2 of space 0"),
        (B2LowestAboveHighest(1), 2, Some(1), "B2 of space 1"),
        (B3WindowPastEnd(2), 3, Some(2), "B3 of space 2"),
        (B4MustBeReadOnly(9), 4, Some(9), "B4 of space 9"),
        (B5NumberUsedTwice(15), 5, Some(15), "B5 of space 15"),
        (B6ReplyBufferTooShort, 6, None, "B6"),
        (B7BadReceptionState, 7, None, "B7"),
        (B9CannotBeCut, 9, None, "B9"),
        (B11TooManySpaces, 11, None, "B11"),
        (B12MemoryTooLarge, 12, None, "B12"),
        (B13FlashTooLarge, 13, None, "B13"),
        (B14AliasOutOfRange, 14, None, "B14"),
    ];
    for (error, number, position, name) in all {
        assert_eq!(error.number(), number);
        assert_eq!(error.position(), position);
        assert_eq!(error.to_string(), name);
    }
    // The list is in the order of the numbers and, for one number, of the positions.
    assert!(all.windows(2).all(|pair| pair[0].0 < pair[1].0));
}

#[test]
fn the_position_is_part_of_the_error() {
    for (error, _) in FAULTS {
        for position in 0..16 {
            assert_eq!(error(position).position(), Some(position));
            assert_eq!(error(position).number(), error(0).number());
            assert_ne!(error(position), error(position + 1));
        }
    }
    for (error, _) in LIMITS {
        assert_eq!(error.position(), None);
    }
}
