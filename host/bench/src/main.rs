//! Holds the benchmark: library and model on the same frames, in nanoseconds for each frame that
//! comes in, with the frames that are to be sent for it made on either side.
//! `bench [--check] [NAME]` measures only what has the name in its own. With `--check` it prints
//! the ratio of each row and whether it is within the goal, and fails where one is not.

use std::env;
use std::hint::black_box;
use std::process::ExitCode;

use bench::measure::{measure, Figures, Subject};
use bench::scenes::{by_others, by_spaces, on_four_spaces, swallowed_on, with_others};
use bench::splitting::{chunk, split_by_library, split_by_model};
use compare::ffi;
use compare::layout::parsed_in;

/// The library is to take no longer than the model.
const GOAL: f64 = 1.0;

const RECEIVED_OK: &str = "Received OK frame";
const IDLE_TICK: &str = "lone tick, nothing unfinished";

/// The rows that the goal is not set for: calls of a few instructions, which the compiler puts
/// into their caller where they are the model's and cannot where they are the library's.
const EXEMPT: [&str; 2] = [RECEIVED_OK, IDLE_TICK];

const BOARD: u16 = 0x22B;
const TOOL: u16 = 0x123;

fn main() -> ExitCode {
    let mut check = false;
    let mut wanted = String::new();
    for argument in env::args().skip(1) {
        if argument == "--check" {
            check = true;
        } else {
            wanted = argument;
        }
    }
    let scenes = [on_four_spaces(), by_spaces(), by_others()];
    let mut groups: Vec<Vec<Subject>> = scenes
        .iter()
        .map(|scenes| scenes.iter().map(Subject::of_scene).collect())
        .collect();
    groups[2].push(swallowed(8));
    groups.push(smaller_calls());
    for group in &mut groups {
        group.retain(|subject| subject.name().contains(&wanted));
    }
    measure(&mut groups);
    if check {
        return print_ratios(&groups);
    }
    print_tables(&groups);
    ExitCode::SUCCESS
}

/// The figures of all rows.
fn print_tables(groups: &[Vec<Subject>]) {
    println!("Nanoseconds for each frame or call: the medians of many batches by turns.");
    let titles = [
        "for each frame, four spaces",
        "for each frame, by the number of spaces",
        "for each frame, by the unfinished datagrams of others",
        "for each call",
    ];
    for (title, group) in titles.iter().zip(groups) {
        println!();
        println!("| {title:53} | library | model | library / model |");
        println!("| {:-<53} | ------: | ----: | --------------: |", "");
        for subject in group {
            let Figures {
                library,
                model,
                ratio,
            } = subject.figures();
            let name = subject.name();
            println!("| {name:53} | {library:7.1} | {model:5.1} | {ratio:15.2} |");
        }
    }
}

/// The ratio of each row, the greatest last, and whether all are within the goal.
fn print_ratios(groups: &[Vec<Subject>]) -> ExitCode {
    let mut rows: Vec<(f64, &str)> = groups
        .iter()
        .flatten()
        .map(|subject| (subject.figures().ratio, subject.name()))
        .collect();
    rows.sort_by(|one, other| one.0.total_cmp(&other.0));
    let mut over = 0;
    for (ratio, name) in &rows {
        let mark = if EXEMPT.contains(name) {
            "  (no goal)"
        } else if *ratio > GOAL {
            over += 1;
            "  OVER"
        } else {
            ""
        };
        println!("{ratio:6.3}  {name}{mark}");
    }
    println!("bench: {} rows, {over} over {GOAL:.1}", rows.len());
    if over == 0 && !rows.is_empty() {
        ExitCode::SUCCESS
    } else {
        ExitCode::FAILURE
    }
}

/// The calls around the handling of a frame.
fn smaller_calls() -> Vec<Subject<'static>> {
    const REPLY: [u8; 70] = [0x5A; 70];
    const LINE: &[u8] = b":X1A22B123N200100000002ABCD;";
    const SHORT_LINE: &[u8] = b":X1A22B123N2080;";
    let mut room = [0; ffi::SENT_SIZE];
    let mut model_room = [model::Frame::EMPTY; model::MOST_FRAMES];
    let mut parsed = [0; ffi::PARSED_SIZE];
    let mut model_parsed = None;
    vec![
        cut("cut of 70 bytes", &REPLY),
        cut("cut of 8 bytes", &REPLY[..8]),
        Subject::new(
            RECEIVED_OK,
            1,
            repeat(move || ffi::received_ok(black_box(BOARD), TOOL, 0x80, black_box(&mut room))),
            repeat(move || {
                let room = black_box(&mut model_room);
                room[0] = model::received_ok_frame(black_box(BOARD), TOOL, 0x80);
                1
            }),
        ),
        Subject::new(
            "line with 8 bytes of data read",
            1,
            repeat(move || ffi::parse_line(black_box(LINE), black_box(&mut parsed))),
            repeat(move || *black_box(&mut model_parsed) = model::parse_line(black_box(LINE))),
        ),
        print("line with 8 bytes of data printed", LINE),
        print("line with 2 bytes of data printed", SHORT_LINE),
        split("line of a chunk of 64 KiB, split off and read"),
        Subject::of_ticks(IDLE_TICK, &with_others(0)),
        Subject::of_ticks("lone tick, eight unfinished, none due", &with_others(8)),
    ]
}

/// Middles of so many tools that are being swallowed, of one after the other.
fn swallowed(count: usize) -> Subject<'static> {
    let board = with_others(count);
    let name = format!("{count} being swallowed: Middle of one of them");
    Subject::of_swallowed(&name, &board, swallowed_on(&board))
}

/// A datagram cut into frames, on either side into lent room.
fn cut(name: &str, datagram: &'static [u8]) -> Subject<'static> {
    let mut room = [0; ffi::SENT_SIZE];
    let mut model_room = [model::Frame::EMPTY; model::MOST_FRAMES];
    Subject::new(
        name,
        1,
        repeat(move || ffi::cut(black_box(datagram), BOARD, TOOL, black_box(&mut room))),
        repeat(move || {
            model::cut_into(black_box(datagram), TOOL, BOARD, black_box(&mut model_room))
        }),
    )
}

/// The frame of a line printed, on either side into a lent buffer. The library puts a newline
/// behind it and looks whether there is room for it; the model's buffer has room for any line.
fn print(name: &str, line: &[u8]) -> Subject<'static> {
    let mut parsed = [0; ffi::PARSED_SIZE];
    ffi::parse_line(line, &mut parsed);
    let frame = parsed_in(&parsed).frame;
    let model_frame = model::parse_line(line).expect("a good line");
    let mut out = [0; 29];
    let mut model_out = [0; model::LONGEST_LINE];
    Subject::new(
        name,
        1,
        repeat(move || ffi::print_frame(black_box(&frame), black_box(&mut out), 0)),
        repeat(move || model::print_line(black_box(&model_frame), black_box(&mut model_out)).len()),
    )
}

/// A chunk split into lines, each of them read as a frame or found to be none.
fn split(name: &str) -> Subject<'static> {
    let text = chunk(1 << 16);
    let model_text = text.clone();
    let lines = split_by_library(&text);
    assert_eq!(lines, split_by_model(&text), "{name}");
    Subject::new(
        name,
        lines.lines,
        repeat(move || split_by_library(black_box(&text))),
        repeat(move || split_by_model(black_box(&model_text))),
    )
}

/// Does something so many times.
fn repeat<T>(mut once: impl FnMut() -> T) -> impl FnMut(usize) {
    move |times| {
        for _ in 0..times {
            black_box(once());
        }
    }
}
