//! Draws a workload again and again: bench NAME N, which prints NAME N BYTES CHECKSUM NANOSECONDS as
//! `ariadne_bench` does. Status 2: there is no such workload, or the crate can't draw it.

mod subject;
mod workloads;

use std::hint::black_box;
use std::time::Instant;
use workloads::job;

fn checksum(bytes: &[u8]) -> u64 {
    bytes.iter().fold(0xcbf29ce484222325, |sum, byte| (sum ^ u64::from(*byte)).wrapping_mul(0x100000001b3))
}

/// Does `work` so often, each time into the same room, and prints the line.
fn measure(name: &str, turns: u64, mut work: impl FnMut(&mut Vec<u8>)) {
    let mut out = Vec::new();
    let start = Instant::now();
    for _ in 0..turns {
        out.clear();
        work(&mut out);
        black_box(&out);
    }
    let spent = start.elapsed().as_nanos();
    println!("{name} {turns} {} {:016x} {spent}", out.len(), checksum(&out));
}

fn main() {
    let given: Vec<String> = std::env::args().collect();
    let (Some(job), Ok(turns)) = (job(&given[1]), given[2].parse()) else {
        std::process::exit(2);
    };
    if given[1].starts_with("index") {
        measure(&given[1], turns, |_| drop(black_box(subject::index(black_box(&job.sources[0].1)))));
    } else {
        measure(&given[1], turns, subject::writer(&job));
    }
}
