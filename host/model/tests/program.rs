//! Holds the tests of the demonstration program: document 01's input and output, lines that are
//! no frames, reads of any size, and the program itself as a process.

use std::io::{self, BufRead, BufReader, Read, Write};
use std::process::{Child, ChildStdin, Command, Stdio};

use model::{run, session, Program};

const INPUT: &str = "\
:X1A22B123N200100000002ABCD;
:X1B22B123N200800000002FD0F;
:X1A22B456N20410000000202;
:X1D22B123N5A;
:X1A22B456N20410000000202;
:X1A22B123N20030000000001;
:X1A300123N2080;
";

const OUTPUT: &str = "\
:X19A2822BN012300;
:X19A2822BN045680;
:X1A45622BN205100000002ABCD;
:X19A2822BN012300;
:X19A2822BN045680;
:X1A45622BN205100000002AACD;
:X19A2822BN012380;
:X1A12322BN201B000000001083;
";

fn answers(input: impl AsRef<[u8]>, block_size: usize) -> String {
    let mut output = Vec::new();
    run(input.as_ref(), &mut output, block_size).unwrap();
    String::from_utf8(output).unwrap()
}

#[test]
fn the_input_of_document_01_in_reads_of_any_size() {
    for block_size in (1..=INPUT.len() + 1).chain([0, 4_096, 65_536]) {
        assert_eq!(answers(INPUT, block_size), OUTPUT);
        // The last line may lack its newline.
        assert_eq!(answers(INPUT.trim_end(), block_size), OUTPUT);
    }
}

#[test]
fn a_last_line_without_newline_is_answered() {
    let line = ":X1A22B123N20A8;";
    assert_eq!(answers(line, 7), ":X19A2822BN012300;\n");
    assert_eq!(answers(format!("{line}\n"), 7), ":X19A2822BN012300;\n");
    assert_eq!(answers("x", 7), "?\n");
    assert_eq!(answers("", 7), "");
}

#[test]
fn other_lines_print_a_question_mark_and_change_nothing() {
    assert_eq!(answers("\n", 64), "?\n");
    assert_eq!(answers("\n\n\n", 64), "?\n?\n?\n");
    assert_eq!(answers("x\n\n:X1A22B123N20A8;\r\n", 64), "?\n?\n?\n");
    let mixed: String = INPUT
        .lines()
        .map(|line| format!("{line} \n{line}\n"))
        .collect();
    let without: String = answers(mixed, 64)
        .lines()
        .filter(|line| *line != "?")
        .map(|line| format!("{line}\n"))
        .collect();
    assert_eq!(without, OUTPUT);
    assert_eq!(answers(b"\xFF\xFE\n\0\n", 64), "?\n?\n");
}

#[test]
fn lines_of_any_length() {
    let frame = ":X1A22B123N20A8;";
    for length in [1, 27, 28, 29, 30, 63, 64, 65, 100_000] {
        for block_size in [1, 28, 29, 64, 65_536] {
            let long = "A".repeat(length);
            let input = format!("{long}\n{frame}\n{frame}{long}\n{long}{frame}\n{frame}");
            assert_eq!(
                answers(input, block_size),
                "?\n:X19A2822BN012300;\n?\n?\n:X19A2822BN012300;\n"
            );
        }
    }
    // A line that only begins like a frame of the longest kind.
    let longest = ":X1A22B123N0000000000000000;";
    for block_size in [1, 28, 64] {
        assert_eq!(answers(longest, block_size), ":X19A4822BN01231042;\n");
        assert_eq!(answers(format!("{longest};\n"), block_size), "?\n");
        assert_eq!(answers(format!("{longest}{longest}\n"), block_size), "?\n");
    }
}

#[test]
fn refusals_are_printed_and_ignored_frames_are_not() {
    let input = "\
:X1D22B123N;
:X1B22B123N;
:X1C22B123N;
:X1A22B22BN20A8;
:X3A22B123N20A8;
:X19A28123N022B00;
:X1A22B123N;
:X1A22B000N20A8;
";
    let output = "\
:X19A4822BN01232040;
:X19A4822BN01232040;
:X19A4822BN01231080;
:X19A2822BN000000;
";
    assert_eq!(answers(input, 100), output);
}

#[test]
fn one_rejection_is_printed_for_one_broken_datagram() {
    // The Last of a write is lost, and the tool sends the next datagram in four frames: one
    // rejection for all of it, and the second attempt is answered.
    let attempt = "\
:X1B22B123N2001000000020102;
:X1C22B123N0304050607080910;
:X1C22B123N1112131415161718;
:X1D22B123N19;
";
    let lost = ":X1B22B123N2001000000020102;\n";
    let read = ":X1A22B456N20410000000203;\n";
    let stray = ":X1C22B123N00;\n:X1D22B123N;\n";
    let input = format!("{lost}{attempt}{read}{attempt}{read}{stray}");
    let output = "\
:X19A4822BN01232040;
:X19A2822BN045680;
:X1B45622BN2051000000020000;
:X1D45622BN00;
:X19A2822BN012300;
:X19A2822BN045680;
:X1B45622BN2051000000020102;
:X1D45622BN03;
:X19A4822BN01232040;
:X19A4822BN01232040;
";
    for block_size in [1, 64, 65_536] {
        assert_eq!(answers(&input, block_size), output);
    }
    assert_eq!(whole(&input), output);
}

#[test]
fn every_frame_comes_at_tick_0() {
    // However many lines come between, nothing that is unfinished is dropped.
    let others = ":X1A22B456N20A8;\n:X1A300123N2080;\nx\n".repeat(30_000);
    let input = format!(":X1B22B123N20;\n{others}:X1D22B123NA8;\n");
    let output = format!(
        "{}:X19A2822BN012300;\n",
        ":X19A2822BN045600;\n?\n".repeat(30_000)
    );
    assert_eq!(answers(&input, 65_536), output);
    assert_eq!(whole(&input), output);
    // Nor is a tool that is being swallowed forgotten.
    let input = format!(":X1B22B123N20;\n:X1B22B123N20;\n{others}:X1D22B123NA8;\n");
    let output = format!(
        ":X19A4822BN01232040;\n{}",
        ":X19A2822BN045600;\n?\n".repeat(30_000)
    );
    assert_eq!(answers(&input, 65_536), output);
    assert_eq!(whole(&input), output);
}

#[test]
fn a_long_reply_is_cut() {
    let output = "\
:X19A2822BN012380;
:X1B12322BN205000000000FF3C;
:X1C12322BN6364692F3E000000;
:X1D12322BN00000000000000;
";
    assert_eq!(answers(":X1A22B123N204000000000FF40;\n", 100), output);
}

fn whole(input: impl AsRef<[u8]>) -> String {
    String::from_utf8(session(input.as_ref())).unwrap()
}

#[test]
fn a_session_is_the_output_for_a_whole_text() {
    assert_eq!(whole(INPUT), OUTPUT);
    assert_eq!(whole(INPUT.trim_end()), OUTPUT);
    assert_eq!(whole(""), "");
    assert_eq!(whole("\n"), "?\n");
    assert_eq!(whole("\n\n"), "?\n?\n");
    assert_eq!(whole("x"), "?\n");
    assert_eq!(whole("x\n"), "?\n");
    assert_eq!(whole("x\n\ny"), "?\n?\n?\n");
    assert_eq!(
        whole(":X1A22B123N20A8;\n:X1A22B124N20A8;"),
        ":X19A2822BN012300;\n:X19A2822BN012400;\n"
    );
    // A fresh board each time.
    assert_eq!(whole(INPUT), OUTPUT);
}

#[test]
fn a_session_is_the_same_in_chunks_cut_anyhow() {
    let overlong = format!(":X1A22B123N20A8;{}\n", "0".repeat(70));
    let text = format!("{INPUT}\n{overlong}x\n:X1A22B123N2080;\r\n{INPUT}:X1A22B123N2080;");
    let text = text.as_bytes();
    let expected = session(text);
    for size in 1..=text.len() {
        let (mut program, mut out) = (Program::new(), Vec::new());
        for chunk in text.chunks(size) {
            program.feed(chunk, &mut out);
        }
        program.finish(&mut out);
        assert_eq!(out, expected, "chunks of {size}");
    }
    for at in 0..=text.len() {
        let (mut program, mut out) = (Program::new(), Vec::new());
        program.feed(&text[..at], &mut out);
        program.feed(&text[at..], &mut out);
        program.finish(&mut out);
        assert_eq!(out, expected, "cut at {at}");
    }
}

/// Gives its parts one by one, and checks that all earlier answers were written before each read.
struct Parts<'a> {
    parts: Vec<(&'a [u8], &'a str)>,
    written: &'a std::cell::RefCell<Vec<u8>>,
    expected: String,
    at: usize,
}

impl Read for Parts<'_> {
    fn read(&mut self, buffer: &mut [u8]) -> io::Result<usize> {
        assert_eq!(
            String::from_utf8(self.written.borrow().clone()).unwrap(),
            self.expected
        );
        let Some(&(part, answer)) = self.parts.get(self.at) else {
            return Ok(0);
        };
        self.at += 1;
        if part == b"interrupted" {
            return Err(io::ErrorKind::Interrupted.into());
        }
        buffer[..part.len()].copy_from_slice(part);
        self.expected.push_str(answer);
        Ok(part.len())
    }
}

struct Written<'a>(&'a std::cell::RefCell<Vec<u8>>);

impl Write for Written<'_> {
    fn write(&mut self, bytes: &[u8]) -> io::Result<usize> {
        // Short writes must be carried on.
        let count = bytes.len().min(5);
        self.0.borrow_mut().extend_from_slice(&bytes[..count]);
        Ok(count)
    }

    fn flush(&mut self) -> io::Result<()> {
        Ok(())
    }
}

#[test]
fn answers_are_written_before_the_next_read() {
    let written = std::cell::RefCell::new(Vec::new());
    let input = Parts {
        parts: vec![
            (b":X1A22B123N20A8;\n:X1A22", ":X19A2822BN012300;\n"),
            (b"B1", ""),
            (b"interrupted", ""),
            (b"24N20A8;", ""),
            (b"\nx\ny", ":X19A2822BN012400;\n?\n"),
            (b"\n", "?\n"),
            (b"\n:X1A22B125N20A8;", "?\n"),
        ],
        written: &written,
        expected: String::new(),
        at: 0,
    };
    run(input, Written(&written), 64).unwrap();
    let text = String::from_utf8(written.into_inner()).unwrap();
    assert!(text.ends_with("?\n:X19A2822BN012500;\n"));
}

fn start() -> (Child, ChildStdin) {
    let mut child = Command::new(env!("CARGO_BIN_EXE_model-gridconnect"))
        .stdin(Stdio::piped())
        .stdout(Stdio::piped())
        .spawn()
        .unwrap();
    let input = child.stdin.take().unwrap();
    (child, input)
}

#[test]
fn the_program_as_a_process() {
    for text in [INPUT, INPUT.trim_end()] {
        let (child, mut input) = start();
        input.write_all(text.as_bytes()).unwrap();
        drop(input);
        let output = child.wait_with_output().unwrap();
        assert!(output.status.success());
        assert_eq!(String::from_utf8(output.stdout).unwrap(), OUTPUT);
    }
}

#[test]
fn the_process_answers_while_its_input_stays_open() {
    let (mut child, mut input) = start();
    let mut output = BufReader::new(child.stdout.take().unwrap());
    for _ in 0..3 {
        input.write_all(b":X1A22B123N20A8;\n:X1A").unwrap();
        let mut line = String::new();
        output.read_line(&mut line).unwrap();
        assert_eq!(line, ":X19A2822BN012300;\n");
        input.write_all(b"\n").unwrap();
        line.clear();
        output.read_line(&mut line).unwrap();
        assert_eq!(line, "?\n");
    }
    drop(input);
    assert!(child.wait().unwrap().success());
}
