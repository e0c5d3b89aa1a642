//! Holds the expected output of the program `demo_vectors` to the model, where its input is a
//! board: the error that it is refused with, and the position.

use compare::layout::spaces_in;
use model::{handle_datagram, Description, Lock};

/// A file of the program.
fn file(name: &str) -> String {
    let path = format!(
        "{}/../../crates/demo_vectors/{name}",
        env!("CARGO_MANIFEST_DIR")
    );
    std::fs::read_to_string(&path).unwrap_or_else(|error| panic!("{path}: {error}"))
}

/// Hexadecimal digits as bytes; blanks mean nothing.
fn bytes(digits: &str) -> Vec<u8> {
    let digits: Vec<u8> = digits
        .chars()
        .filter(|&digit| digit != ' ')
        .map(|digit| digit.to_digit(16).expect("a digit") as u8)
        .collect();
    digits.chunks(2).map(|two| 16 * two[0] + two[1]).collect()
}

/// A number of some bytes, most significant first.
fn number(bytes: &[u8]) -> usize {
    bytes
        .iter()
        .fold(0, |high, &byte| 256 * high + usize::from(byte))
}

/// What the model says of a board: alias, sizes of memory, flash and reply buffer, and the table.
fn refusal(board: &[u8]) -> String {
    let mut head = [0; 9];
    let given = board.len().min(9);
    head[..given].copy_from_slice(&board[..given]);
    let table = &board[given..];
    let answer = handle_datagram(
        &Description {
            alias: number(&head[0..2]) as u16,
            write_lengths: 0xF2,
            spaces: &spaces_in(table),
        },
        &vec![0; number(&head[5..8])],
        &mut vec![0; number(&head[2..5])],
        &mut Lock::default(),
        &[],
        &mut vec![0; number(&head[8..9])],
    );
    let said = match answer {
        Ok(_) => "not refused".to_string(),
        Err(error) => format!("refused by {error}"),
    };
    let head: String = board[..given].iter().map(|b| format!("{b:02X}")).collect();
    format!("{head} and a table of {:04X} bytes: {said}", table.len())
}

#[test]
fn boards_of_the_vectors() {
    let (input, output) = (file("stdin"), file("stdout"));
    let mut printed = output.lines();
    let mut boards = 0;
    for line in input.lines().filter(|line| !line.starts_with('@')) {
        let printed = printed.next().expect("a line for each of the input");
        if let Some(board) = line.strip_prefix('!') {
            assert_eq!(printed, refusal(&bytes(board)), "{line}");
            boards += 1;
        }
    }
    assert_eq!(printed.next(), None);
    assert!(boards >= 60, "{boards} boards");
}
