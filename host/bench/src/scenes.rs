//! Holds the scenes that are measured: a board, and the frames that it is fed with over and over.

use crate::boards::{Blueprint, Incoming};
use model::{Space, DEMONSTRATION_DESCRIPTION};

/// A board and the frames that are repeated.
pub struct Scene {
    /// What it shows.
    pub name: String,
    /// The board.
    pub blueprint: Blueprint,
    /// The frames, after which everything is as before but for memory and lock.
    pub frames: Vec<Incoming>,
}

const ALIAS: u16 = 0x22B;
const TOOL: u16 = 0x123;

fn demonstration() -> Blueprint {
    Blueprint {
        alias: ALIAS,
        spaces: DEMONSTRATION_DESCRIPTION.spaces.to_vec(),
        flash: b"<cdi/>\0\0\0\0\0\0\0\0\0\0".to_vec(),
        memory_len: 48,
        others: Vec::new(),
    }
}

/// The demonstration board with 64 bytes and more in each space.
fn wide() -> Blueprint {
    let mut wide = demonstration();
    for space in &mut wide.spaces {
        space.highest = space.lowest + 0x7F;
    }
    wide.flash = vec![0x3C; 128];
    wide.memory_len = 256;
    wide
}

/// A board with so many spaces of 16 bytes, the last of them number 0x10.
fn with_spaces(count: usize) -> Blueprint {
    let mut board = demonstration();
    board.spaces = (0..count)
        .map(|index| Space {
            number: 0x10 + (count - 1 - index) as u8,
            lowest: 0,
            highest: 0xF,
            read_only: false,
            in_flash: false,
            offset: 16 * index as u32,
        })
        .collect();
    board.memory_len = 16 * count;
    board
}

/// The board with so many tools that have a datagram unfinished.
#[must_use]
pub fn with_others(count: usize) -> Blueprint {
    let mut board = demonstration();
    board.others = (0..count).map(|index| 0x700 + index as u16).collect();
    board
}

/// Frames of tools that have a datagram unfinished, one of each tool.
pub struct Swallowed {
    /// These break the datagrams.
    pub breaking: Vec<Incoming>,
    /// These are then swallowed: Middles of 8 bytes.
    pub swallowed: Vec<Incoming>,
}

/// Such frames of the tools of this board.
#[must_use]
pub fn swallowed_on(board: &Blueprint) -> Swallowed {
    let middle = |source: &u16, data: &[u8]| {
        let header = 0x1C << 24 | u32::from(ALIAS) << 12 | u32::from(*source);
        Incoming::new(header, data)
    };
    let others = || board.others.iter();
    Swallowed {
        breaking: others().map(|source| middle(source, &[])).collect(),
        swallowed: others().map(|source| middle(source, &[0x5A; 8])).collect(),
    }
}

/// The frames that carry a datagram from the tool to the board.
fn frames(datagram: &[u8]) -> Vec<Incoming> {
    model::cut(datagram, ALIAS, TOOL)
        .expect("a datagram of at most 72 bytes")
        .iter()
        .map(|frame| Incoming::new(frame.header(), frame.data()))
        .collect()
}

/// A First and a Last, whatever the length.
fn in_two(datagram: &[u8]) -> Vec<Incoming> {
    let aliases = u32::from(ALIAS) << 12 | u32::from(TOOL);
    let (first, last) = datagram.split_at(datagram.len().min(8));
    vec![
        Incoming::new(0x1B << 24 | aliases, first),
        Incoming::new(0x1D << 24 | aliases, last),
    ]
}

/// A command with an address and this tail.
fn command(head: &[u8], tail: &[u8]) -> Vec<u8> {
    [head, tail].concat()
}

/// A scene of one datagram.
fn scene(name: &str, blueprint: Blueprint, frames: Vec<Incoming>) -> Scene {
    Scene {
        name: name.to_owned(),
        blueprint,
        frames,
    }
}

/// The scenes on the demonstration board and its wide form.
#[must_use]
pub fn on_four_spaces() -> Vec<Scene> {
    let pairs: Vec<u8> = (0..64)
        .map(|at| if at % 2 == 0 { 0x0F } else { at })
        .collect();
    let data: Vec<u8> = (0..64).collect();
    let ignored = vec![
        Incoming::new(0x1A30_0123, &[0x20, 0x80]),
        Incoming::new(0x1949_0123, &[0; 8]),
        Incoming::new(0x195B_4456, &[1, 2, 3, 4, 5, 6, 7, 8]),
    ];
    vec![
        scene(
            "read of 2 bytes, 0xFD, one frame",
            demonstration(),
            frames(&[0x20, 0x41, 0, 0, 0, 2, 2]),
        ),
        scene(
            "read of 4 bytes, space in byte 6, one frame",
            demonstration(),
            frames(&[0x20, 0x40, 0, 0, 1, 2, 0x10, 4]),
        ),
        scene(
            "write of 2 bytes, 0xFD, one frame",
            demonstration(),
            frames(&[0x20, 0x01, 0, 0, 0, 2, 0xAB, 0xCD]),
        ),
        scene(
            "masked write of 1 pair, 0xFD, one frame",
            demonstration(),
            frames(&[0x20, 0x09, 0, 0, 0, 2, 0x0F, 0x5A]),
        ),
        scene(
            "masked write of 1 pair, two frames",
            demonstration(),
            in_two(&[0x20, 0x08, 0, 0, 0, 2, 0xFD, 0x0F, 0x5A]),
        ),
        scene(
            "read fails 0x1082, one frame",
            demonstration(),
            frames(&[0x20, 0x41, 0, 0, 0, 0x20, 1]),
        ),
        scene(
            "rejected 0x1041, one frame",
            demonstration(),
            frames(&[0x20, 0x44]),
        ),
        scene("ignored frames", demonstration(), ignored),
        scene(
            "read of 64 bytes, one frame (wide)",
            wide(),
            frames(&[0x20, 0x41, 0, 0, 0, 2, 64]),
        ),
        scene(
            "write of 64 bytes, 71 in nine frames (wide)",
            wide(),
            frames(&command(&[0x20, 0x00, 0, 0, 1, 8, 0x10], &data)),
        ),
        scene(
            "masked write of 32 pairs, 71 in nine frames (wide)",
            wide(),
            frames(&command(&[0x20, 0x08, 0, 0, 1, 8, 0x10], &pairs)),
        ),
    ]
}

/// The scenes that show what a space costs.
#[must_use]
pub fn by_spaces() -> Vec<Scene> {
    let mut scenes = Vec::new();
    for count in [0, 1, 4, 8, 16] {
        scenes.push(scene(
            &format!("{count} spaces: ignored frame"),
            with_spaces(count),
            vec![Incoming::new(0x1A30_0123, &[0x20, 0x80])],
        ));
    }
    for count in [0, 1, 4, 8, 16] {
        scenes.push(scene(
            &format!("{count} spaces: read of 2 bytes of the last"),
            with_spaces(count),
            frames(&[0x20, 0x40, 0, 0, 0, 2, 0x10, 2]),
        ));
    }
    scenes
}

/// The scenes that show what the unfinished datagrams of others cost.
#[must_use]
pub fn by_others() -> Vec<Scene> {
    let mut scenes = Vec::new();
    for count in [0, 4, 7, 8] {
        scenes.push(scene(
            &format!("{count} unfinished: read of 2 bytes, one frame"),
            with_others(count),
            frames(&[0x20, 0x41, 0, 0, 0, 2, 2]),
        ));
    }
    for count in [0, 4, 7] {
        scenes.push(scene(
            &format!("{count} unfinished: masked write, two frames"),
            with_others(count),
            in_two(&[0x20, 0x08, 0, 0, 0, 2, 0xFD, 0x0F, 0x5A]),
        ));
    }
    scenes.push(scene(
        "8 unfinished: ignored frame",
        with_others(8),
        vec![Incoming::new(0x1A30_0123, &[0x20, 0x80])],
    ));
    scenes
}
