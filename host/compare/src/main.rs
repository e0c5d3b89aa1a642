//! Holds the program that runs the library and the model on random input and compares them after
//! every call: `compare [--seed N] [--calls N]`. Before that it compares them at every age of a
//! held place.

use std::env;
use std::process::ExitCode;
use std::time::Instant;

use compare::random::Random;
use compare::tally::Tally;
use compare::tool::Library;
use compare::world::World;
use compare::{ages, ffi};

const SEED: u64 = 1;
const CALLS: u64 = 10_000_000;

/// The place in the run. Where a side panics, it is printed on the way out, so that the call can
/// be had again.
struct Place {
    seed: u64,
    call: u64,
}

impl Drop for Place {
    fn drop(&mut self) {
        if std::thread::panicking() {
            eprintln!("panicked: seed {}, call {}", self.seed, self.call);
        }
    }
}

fn main() -> ExitCode {
    let Some((seed, calls)) = arguments() else {
        eprintln!("usage: compare [--seed N] [--calls N]");
        return ExitCode::from(2);
    };
    println!("compare: seed {seed}, {calls} calls");
    for (half, version, expected) in [
        ("board", ffi::version(), ffi::VERSION),
        ("tool", ffi::tool::version(), ffi::tool::VERSION),
    ] {
        if version != expected {
            println!(
                "DIFFERENCE: the library's edge for a {half} has version {version:08X}, expected \
                 {expected:08X}"
            );
            return ExitCode::FAILURE;
        }
    }
    let started = Instant::now();
    match ages::every(&Library) {
        Ok(calls) => println!("compare: every age, {calls} calls"),
        Err(report) => {
            print!("DIFFERENCE: every age\n{report}");
            return ExitCode::FAILURE;
        }
    }
    let mut random = Random::new(seed);
    let mut tally = Tally::default();
    let mut world = World::new(&mut random);
    let mut place = Place { seed, call: 0 };
    while place.call < calls {
        place.call += 1;
        if let Err(report) = world.call(&Library, &mut random, &mut tally) {
            print!("DIFFERENCE: seed {seed}, call {}\n{report}", place.call);
            return ExitCode::FAILURE;
        }
        if world.is_over() {
            world = World::new(&mut random);
        }
    }
    if !tally.print() {
        println!("FAILED: a case was never reached (seed {seed}, {calls} calls)");
        return ExitCode::FAILURE;
    }
    println!(
        "compare: no difference in {calls} calls, {:.1} s (seed {seed})",
        started.elapsed().as_secs_f64()
    );
    ExitCode::SUCCESS
}

/// The seed and the number of calls; `None` where the arguments are something else.
fn arguments() -> Option<(u64, u64)> {
    let (mut seed, mut calls) = (SEED, CALLS);
    let mut arguments = env::args().skip(1);
    while let Some(name) = arguments.next() {
        let value = arguments.next()?.parse().ok()?;
        match name.as_str() {
            "--seed" => seed = value,
            "--calls" => calls = value,
            _ => return None,
        }
    }
    Some((seed, calls))
}
