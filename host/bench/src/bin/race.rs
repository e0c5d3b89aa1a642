//! Holds the stopwatch: `race RUNS INPUT OUTPUT PROGRAM OUTPUT PROGRAM` runs two programs on the
//! same input by turns, each into its own output, and prints how long they take.

use std::env;
use std::fs::File;
use std::io;
use std::process::{Command, ExitCode};
use std::time::{Duration, Instant};

fn main() -> ExitCode {
    let arguments: Vec<String> = env::args().skip(1).collect();
    let [runs, input, output_a, program_a, output_b, program_b] = arguments.as_slice() else {
        eprintln!("usage: race RUNS INPUT OUTPUT PROGRAM OUTPUT PROGRAM");
        return ExitCode::from(2);
    };
    let runs: usize = match runs.parse() {
        Ok(runs) if runs > 0 => runs,
        _ => {
            eprintln!("race: {runs} runs");
            return ExitCode::from(2);
        }
    };
    match race(runs, input, [(output_a, program_a), (output_b, program_b)]) {
        Ok([a, b]) => {
            print(program_a, &a);
            print(program_b, &b);
            println!(
                "first / second: best {:.2}, median {:.2}",
                a[0].as_secs_f64() / b[0].as_secs_f64(),
                median(&a).as_secs_f64() / median(&b).as_secs_f64()
            );
            ExitCode::SUCCESS
        }
        Err(error) => {
            eprintln!("race: {error}");
            ExitCode::FAILURE
        }
    }
}

/// The times of both, shortest first.
fn race(runs: usize, input: &str, programs: [(&str, &str); 2]) -> io::Result<[Vec<Duration>; 2]> {
    let mut times = [Vec::new(), Vec::new()];
    // One run more than asked for: the first fills the caches and does not count.
    for run in 0..=runs {
        for ((output, program), times) in programs.iter().zip(&mut times) {
            let mut command = Command::new(program);
            command
                .stdin(File::open(input)?)
                .stdout(File::create(output)?);
            let start = Instant::now();
            let status = command.status()?;
            if run > 0 {
                times.push(start.elapsed());
            }
            if !status.success() {
                return Err(io::Error::other(format!("{program}: {status}")));
            }
        }
    }
    for times in &mut times {
        times.sort_unstable();
    }
    Ok(times)
}

fn median(times: &[Duration]) -> Duration {
    times[times.len() / 2]
}

fn print(program: &str, times: &[Duration]) {
    println!(
        "{program}: best {:.1} ms, median {:.1} ms of {} runs",
        times[0].as_secs_f64() * 1e3,
        median(times).as_secs_f64() * 1e3,
        times.len()
    );
}
