//! Holds the program that prints GridConnect lines for the demonstration board: sessions of
//! several tools, mixed, always the same. `lines COUNT` prints so many.

use std::collections::VecDeque;
use std::env;
use std::io::{self, BufWriter, Write};
use std::process::ExitCode;

use compare::random::Random;

const SEED: u64 = 20;
const BOARD: u16 = 0x22B;
const TOOLS: [u16; 5] = [0x123, 0x456, 0x789, 0xABC, 0xFFE];

fn main() -> ExitCode {
    let Some(count) = env::args().nth(1).and_then(|text| text.parse().ok()) else {
        eprintln!("usage: lines COUNT");
        return ExitCode::from(2);
    };
    match print(count, BufWriter::new(io::stdout().lock())) {
        Ok(()) => ExitCode::SUCCESS,
        Err(error) => {
            eprintln!("lines: {error}");
            ExitCode::FAILURE
        }
    }
}

/// Prints so many lines. Each tool sends its datagrams one after the other; whose line is next is
/// drawn, so that datagrams of several frames overlap.
fn print(count: u64, mut out: impl Write) -> io::Result<()> {
    let mut random = Random::new(SEED);
    let mut waiting: [VecDeque<String>; TOOLS.len()] = Default::default();
    for _ in 0..count {
        let index = random.below(TOOLS.len());
        if waiting[index].is_empty() {
            waiting[index] = session(&mut random, TOOLS[index]);
        }
        let line = waiting[index].pop_front().unwrap_or_default();
        writeln!(out, "{line}")?;
    }
    out.flush()
}

/// What a tool sends next.
fn session(random: &mut Random, tool: u16) -> VecDeque<String> {
    let datagram = match random.below(32) {
        0..=8 => read(random),
        9..=14 => write(random),
        15..=19 => masked_write(random),
        20 => vec![0x20, 0x80],
        21 => vec![0x20, 0x84, random.pick(&[0x10, 0x11, 0xFD, 0xFE, 0xFF])],
        22 => vec![0x20, 0x88, 0, 0, 0, 0, 0, random.pick(&[0, 0, 1, 2])],
        23 => vec![0x20, 0xA8],
        24 => vec![0x20, random.byte()],
        25..=28 => return VecDeque::from([ignored(random, tool)]),
        29 => return VecDeque::from([stray(random, tool)]),
        _ => return VecDeque::from([no_frame(random)]),
    };
    model::cut(&datagram, BOARD, tool)
        .expect("a datagram of at most 72 bytes")
        .iter()
        .map(|frame| line(frame.header(), frame.data()))
        .collect()
}

fn line(header: u32, data: &[u8]) -> String {
    let data: String = data.iter().map(|byte| format!("{byte:02X}")).collect();
    format!(":X{header:08X}N{data};")
}

/// A space, as it is chosen in a command, and how far its addresses go.
fn start(random: &mut Random, base: u8) -> (Vec<u8>, usize) {
    let (low_bits, lowest, size) = random.pick(&[
        (1u8, 0usize, 0x20usize),
        (2, 0, 0x30),
        (3, 0, 0x10),
        (0, 0x100, 0x10),
    ]);
    // Now and then past the end.
    let at = random.below(size + 2);
    let mut start = vec![0x20, base + low_bits, 0, 0];
    start.extend(((lowest + at) as u16).to_be_bytes());
    if low_bits == 0 {
        start.push(0x10);
    }
    (start, size.saturating_sub(at).max(1))
}

fn read(random: &mut Random) -> Vec<u8> {
    let (mut datagram, _) = start(random, 0x40);
    datagram.push(random.pick(&[1, 2, 2, 4, 4, 8, 16, 64]));
    datagram
}

fn write(random: &mut Random) -> Vec<u8> {
    let (mut datagram, left) = start(random, 0x00);
    let count = match random.below(3) {
        0 => left,
        _ => random.between(1, left.min(2)),
    };
    datagram.extend(random.bytes(count));
    datagram
}

fn masked_write(random: &mut Random) -> Vec<u8> {
    let (mut datagram, left) = start(random, 0x08);
    let pairs = match random.below(3) {
        0 => left.min(32),
        _ => 1,
    };
    datagram.extend(random.bytes(2 * pairs));
    datagram
}

/// A frame that is none of the board's business.
fn ignored(random: &mut Random, tool: u16) -> String {
    let header = match random.below(3) {
        0 => 0x1A30_0000,
        1 => 0x1949_0000,
        _ => 0x195B_4000,
    };
    let count = random.between(0, 8);
    line(header | u32::from(tool), &random.bytes(count))
}

/// A Middle or Last of nothing.
fn stray(random: &mut Random, tool: u16) -> String {
    let kind = random.pick(&[0x1C00_0000, 0x1D00_0000]);
    line(kind | u32::from(BOARD) << 12 | u32::from(tool), &[0x20])
}

/// A line that is no frame.
fn no_frame(random: &mut Random) -> String {
    random
        .pick(&[
            "",
            "hello",
            ":X1A22B123N2080",
            ":X1a22B123N2080;",
            ":X1A22B123N208;",
            ":S123N2080;",
            ":X1A22B123N200100000002ABCDEF;",
        ])
        .to_owned()
}
