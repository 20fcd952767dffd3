//! Runs the Rust's driver and ours on the same devices, checks that they did the same, and compares
//! what it took.
//!
//! - `list` prints for each case its number, the function to count in, and its units;
//! - `one SIDE NUMBER` makes one run (`rust` or `ours`), for a counter of instructions;
//! - `time` prints for each case its number, the Rust's median time for a unit in nanoseconds, and
//!   ours.

mod cases;
mod devices;
mod ours;
mod seen;
mod theirs;

use cases::{Case, Side};
use std::hint::black_box;
use std::time::Instant;

const REPETITIONS: usize = 41;

/// Both sides must have moved the same bytes, made the same writes and come equally far.
fn check(case: &Case) {
    let mut buffers = (case.buffer(), case.buffer());
    let rust = case.play(Side::Rust, &mut buffers.0);
    let ours = case.play(Side::Ours, &mut buffers.1);
    let same = rust == ours && buffers.0 == buffers.1;
    assert!(same, "{} {}: the two did not do the same: {rust:?}, {ours:?}", case.name, case.device());
    assert!(rust.done > 0, "{} {}: nothing was done", case.name, case.device());
}

/// The time of one run, in nanoseconds.
fn time(case: &Case, side: Side, buffer: &mut [u8]) -> f64 {
    let start = Instant::now();
    black_box(case.play(side, buffer));
    start.elapsed().as_nanos() as f64
}

fn median(mut times: Vec<f64>) -> f64 {
    times.sort_by(f64::total_cmp);
    times[times.len() / 2]
}

/// The medians of both sides, whose runs take turns.
fn compare(case: &Case) -> (f64, f64) {
    let mut buffer = case.buffer();
    let (mut rust, mut ours) = (Vec::new(), Vec::new());
    for _ in 0..REPETITIONS {
        rust.push(time(case, Side::Rust, &mut buffer));
        ours.push(time(case, Side::Ours, &mut buffer));
    }
    (median(rust), median(ours))
}

fn main() {
    let words: Vec<String> = std::env::args().skip(1).collect();
    let words: Vec<&str> = words.iter().map(String::as_str).collect();
    let cases = cases::all();
    match words[..] {
        ["list"] => {
            for (number, case) in cases.iter().enumerate() {
                println!("{number} {}_{} {} {}, {}", case.run, case.device(), case.units(), case.device(), case.name);
            }
        }
        ["one", side, number] => {
            let case = &cases[number.parse::<usize>().expect("a case's number")];
            let side = if side == "rust" { Side::Rust } else { Side::Ours };
            black_box(case.play(side, &mut case.buffer()));
        }
        ["time"] => {
            cases.iter().for_each(check);
            for (number, case) in cases.iter().enumerate() {
                let (rust, ours) = compare(case);
                let units = case.units() as f64;
                println!("{number} {:.3} {:.3}", rust / units, ours / units);
            }
        }
        _ => panic!("usage: side_by_side list | one SIDE NUMBER | time"),
    }
}
