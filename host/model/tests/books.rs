//! Holds a long run of random frames and lone ticks against the books of document 01, as C-15
//! changes them, written here once more and apart from the library: one book for each source, and
//! room for eight that are not blank. Each book hears every call's time, and drops by that and its
//! own tool's frames.

mod common;

use std::collections::BTreeMap;

use common::{Bench, Book, Numbers};
use model::{Answer, FrameAnswer};
use Book::{Holds, Swallowed};

enum Step {
    Ignored,
    Joined,
    Swallowed,
    Refused(u16),
    Finished(Vec<u8>),
}

/// The books that are not blank: what each has, and the time of its tool's last accepted frame.
type Books = BTreeMap<u16, (Book, u64)>;

/// What every book does at a time: one whose tool was last accepted over 3,000 ticks ago is blank.
fn hear(books: &mut Books, time: u64) {
    books.retain(|_, (_, accepted)| time <= *accepted + 3_000);
}

/// What the books say of one frame, whose time they have heard. A book that is missing is blank.
fn book(books: &mut Books, alias: u16, time: u64, header: u32, data: &[u8]) -> Step {
    let text = format!("{header:08X}");
    let (kind, destination, source) = (&text[..2], &text[2..5], &text[5..]);
    let own = format!("{alias:03X}");
    if !["1A", "1B", "1C", "1D"].contains(&kind)
        || destination != own
        || source == own
        || data.len() > 8
    {
        return Step::Ignored;
    }
    let source = u16::from_str_radix(source, 16).unwrap();
    // The book is blank from here on, unless something is written into it.
    let before = books.remove(&source);
    let (bytes, accepted) = match (kind, before) {
        // A Single or First of a tool that is being swallowed finds its book blank.
        ("1A", None | Some((Swallowed, _))) => return Step::Finished(data.to_vec()),
        ("1B", None | Some((Swallowed, _))) => {
            if books.len() == 8 {
                return Step::Refused(0x2020);
            }
            books.insert(source, (Holds(data.to_vec()), time));
            return Step::Joined;
        }
        (_, None) => return Step::Refused(0x2040),
        ("1C", Some((Swallowed, _))) => {
            books.insert(source, (Swallowed, time));
            return Step::Swallowed;
        }
        (_, Some((Swallowed, _))) => return Step::Swallowed,
        (_, Some((Holds(bytes), accepted))) => (bytes, accepted),
    };
    let joined = [&bytes, data].concat();
    let refused = match kind {
        "1C" if data.is_empty() => 0x2040,
        "1C" | "1D" if joined.len() > 72 => 0x2000,
        "1C" => {
            books.insert(source, (Holds(joined), time));
            return Step::Joined;
        }
        "1D" => return Step::Finished(joined),
        _ => 0x2040,
    };
    // A frame that is refused is not accepted: the time stays.
    if kind != "1D" {
        books.insert(source, (Swallowed, accepted));
    }
    Step::Refused(refused)
}

/// Data that often begin or carry on a sensible command.
fn data(numbers: &mut Numbers, kind: u32) -> Vec<u8> {
    let length = match numbers.below(40) {
        0 => 9,
        1 => 0,
        n => n % 9,
    };
    let mut bytes: Vec<u8> = (0..length).map(|_| numbers.below(64) as u8).collect();
    if kind <= 0x1B {
        let commands = [
            0x00, 0x01, 0x02, 0x03, 0x08, 0x09, 0x0A, 0x40, 0x41, 0x42, 0x43, 0x80, 0x84, 0x88,
            0xA8, 0x44,
        ];
        let start = [0x20, commands[numbers.below(16) as usize], 0, 0, 0];
        for (byte, begin) in bytes.iter_mut().zip(start) {
            *byte = begin;
        }
    }
    bytes
}

/// A time not before this one: most often a few ticks later or none, and now and then the last at
/// which a book still holds what it has, or the first at which it is blank.
fn later(numbers: &mut Numbers, books: &Books, time: u64) -> u64 {
    match numbers.below(300) {
        0 => time + u64::from(numbers.below(4_000)),
        1 => time + u64::from(numbers.below(200_000)),
        2..=9 if !books.is_empty() => {
            let chosen = numbers.below(books.len() as u32) as usize;
            let (_, accepted) = books.values().nth(chosen).unwrap();
            time.max(accepted + 3_000 + u64::from(numbers.below(2)))
        }
        _ => time + u64::from(numbers.below(5)),
    }
}

/// What the state keeps, as books.
fn kept(board: &Bench) -> Books {
    board
        .kept()
        .into_iter()
        .zip(board.times())
        .map(|((source, book), (_, time))| (source, (book, time)))
        .collect()
}

/// How many books say that their tool is being swallowed.
fn count_swallowed(books: &Books) -> usize {
    books.values().filter(|book| book.0 == Swallowed).count()
}

/// After frames have stopped being accepted, what was last accepted stays for 3,000 ticks, and then
/// all eight places are free.
fn assert_all_free_after(board: &Bench, last_accepted: u64) {
    let mut stays = board.clone();
    stays.time = last_accepted + 3_000;
    stays.lone_tick().unwrap();
    let mut newest = board.times();
    newest.retain(|&(_, time)| time == last_accepted);
    assert_eq!(stays.times(), newest);
    let mut free = board.clone();
    free.time = last_accepted + 3_001;
    free.lone_tick().unwrap();
    assert!(free.kept().is_empty());
}

#[test]
fn random_frames_and_lone_ticks_against_the_books() {
    let mut numbers = Numbers(0x9E37_79B9_7F4A_7C15);
    let mut seen = [0u32; 9];
    let mut swallowing = [0u32; 7];
    let (mut dropped, mut dropped_swallowed, mut at_the_last_tick) = (0, 0, 0);
    for (sources, start) in [
        (1, 0),
        (3, 60_000),
        (8, 4_294_900_000),
        (9, 0),
        (12, 1 << 40),
        (30, 65_000),
    ] {
        let mut joined = Bench::demo();
        let mut whole = Bench::demo();
        let mut books = Books::new();
        let (mut time, mut last_accepted) = (start, start);
        for _ in 0..40_000 {
            time = later(&mut numbers, &books, time);
            joined.time = time;
            let (unfinished, swallowed) = (books.len(), count_swallowed(&books));
            hear(&mut books, time);
            dropped += unfinished - books.len();
            dropped_swallowed += swallowed - count_swallowed(&books);
            if numbers.below(25) == 0 {
                joined.lone_tick().unwrap();
                assert_eq!(kept(&joined), books);
                continue;
            }
            let source = match numbers.below(sources + 1) {
                n if n == sources && numbers.below(4) == 0 => 0x22B,
                n => 0x225 + n % sources,
            };
            // Kinds that are in order most of the time, so that datagrams grow long.
            let before = books.get(&(source as u16)).cloned();
            let swallowed = matches!(before, Some((Swallowed, _)));
            let kind = match numbers.below(100) {
                0 => 0x19,
                1 => 0x1E,
                2 => 0x3A,
                3 => 0x1A,
                4 => 0x1B,
                5 => 0x1C,
                6 => 0x1D,
                7..=30 if before.is_none() => 0x1A,
                _ if before.is_none() => 0x1B,
                7..=15 => 0x1D,
                16..=20 if swallowed => 0x1A,
                21..=30 if swallowed => 0x1B,
                _ => 0x1C,
            };
            let destination = if numbers.below(30) == 0 { 0x22C } else { 0x22B };
            let header = kind << 24 | destination << 12 | source;
            let data = data(&mut numbers, kind);

            let exact = before.is_some_and(|(_, accepted)| time == accepted + 3_000);
            let (full, others) = (books.len() == 8, count_swallowed(&books));
            let step = book(&mut books, 0x22B, time, header, &data);
            let case = match (&step, kind) {
                (Step::Swallowed, 0x1C) => Some(usize::from(data.is_empty())),
                (Step::Swallowed, _) => Some(2),
                (Step::Finished(_), 0x1A) if swallowed => Some(3),
                (Step::Joined, 0x1B) if swallowed => Some(4 + usize::from(full)),
                (Step::Refused(0x2020), _) if others > 0 => Some(6),
                _ => None,
            };
            if let Some(case) = case {
                swallowing[case] += 1;
            }
            joined.reply.fill(0);
            whole.reply.fill(0);
            let answer = joined.frame(header, &data).unwrap();
            let expected = match step {
                Step::Ignored => FrameAnswer::Ignored,
                Step::Joined | Step::Swallowed => FrameAnswer::Nothing,
                Step::Refused(code) => FrameAnswer::TransportRefusal(code),
                Step::Finished(datagram) => {
                    FrameAnswer::Handled(whole.datagram(&datagram).unwrap())
                }
            };
            assert_eq!(answer, expected);
            assert_eq!(joined.memory, whole.memory);
            assert_eq!(joined.lock, whole.lock);
            assert_eq!(joined.reply, whole.reply);
            assert_eq!(kept(&joined), books);
            if matches!(answer, FrameAnswer::Nothing | FrameAnswer::Handled(_)) {
                last_accepted = time;
                at_the_last_tick += u32::from(exact);
            }
            seen[match answer {
                FrameAnswer::Ignored => 0,
                FrameAnswer::Nothing => 1,
                FrameAnswer::TransportRefusal(0x2000) => 2,
                FrameAnswer::TransportRefusal(0x2020) => 3,
                FrameAnswer::TransportRefusal(_) => 4,
                FrameAnswer::Handled(Answer::Rejected(_)) => 5,
                FrameAnswer::Handled(Answer::Written { .. }) => 6,
                FrameAnswer::Handled(Answer::UpdateComplete) => 7,
                FrameAnswer::Handled(Answer::Replied(_)) => 8,
            }] += 1;
        }
        assert_all_free_after(&joined, last_accepted);
    }
    assert!(seen.iter().all(|&count| count > 20), "{seen:?}");
    assert!(swallowing.iter().all(|&count| count > 20), "{swallowing:?}");
    assert!(dropped > 1_000, "{dropped}");
    assert!(dropped_swallowed > 100, "{dropped_swallowed}");
    assert!(at_the_last_tick > 100, "{at_the_last_tick}");
}
