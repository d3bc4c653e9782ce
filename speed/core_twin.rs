//! The core in plain Rust, which runs the steps of a step file. It is what the part `core` of speed/bench is compared with;
//! see docs/SPEED.md.
//!
//! Usage: core_twin FILE, which times the steps; core_twin FILE report, which writes what `boostmap replay FILE` writes.
#![allow(dead_code)]

mod list;
mod machine;
mod split;
mod step;
mod stopwatch;
mod tally;

use machine::Core;
use std::env;
use std::error::Error;
use std::fs;
use std::time::Instant;
use step::{Answer, Limits, Step, read_file};
use stopwatch::report;

/// A number that differs if the text differs, except by chance (Fowler, Noll and Vo's hash 1a).
fn sum_of(text: &str) -> u64 {
    text.bytes().fold(0xcbf2_9ce4_8422_2325, |sum, byte| {
        (sum ^ u64::from(byte)).wrapping_mul(0x0100_0000_01b3)
    })
}

/// The lines of the answers.
fn lines_of(answers: &[Answer]) -> String {
    answers.iter().map(|answer| format!("{answer}\n")).collect()
}

fn print_report(core: &Core, lines: &str) {
    print!("{lines}");
    println!("size {} count {}", core.size(), core.count());
    core.each_pair(|key, value| println!("{key} {value}"));
}

/// Runs the steps on a new core, which is made before the clock starts, and gives it with the lines of the answers.
fn time_run(phase: &str, limits: Limits, steps: &[Step]) -> (Core, String) {
    let mut core = Core::new(limits, steps.len());
    let start = Instant::now();
    let answers = core.run(steps);
    let time = start.elapsed();
    let lines = lines_of(&answers);
    report("core", phase, time, steps.len() as u64, sum_of(&lines));
    (core, lines)
}

fn main() -> Result<(), Box<dyn Error>> {
    let mut words = env::args().skip(1);
    let file = words.next().ok_or("the step file")?;
    let (limits, steps) = read_file(&fs::read_to_string(file)?).ok_or("no step file")?;
    // The first run has to take its memory from the system, and the second one finds it there.
    drop(time_run("first", limits, &steps));
    let (core, lines) = time_run("steps", limits, &steps);
    if words.next().is_some() {
        print_report(&core, &lines);
    }
    Ok(())
}
