//! Measures this version and, where it is linked, the engine, in one process and by turns.
//!
//! `pace [ROUNDS]`: the median and the least of so many rounds (41 where not told) for each run, in
//! microseconds a run.

use std::hint::black_box;
use std::time::Instant;

use independent::{generator, run};

/// About how long a round of one version takes, in microseconds.
const ROUND: u128 = 10_000;

fn main() {
    let rounds = std::env::args()
        .nth(1)
        .and_then(|text| text.parse().ok())
        .unwrap_or(41)
        .max(1);
    for (name, input) in generator::paces() {
        let mut buffer = vec![0; 100_000];
        let length = run(&input, &mut buffer).expect("the runs of the pace are accepted");
        println!("{name}");
        println!("  {} bytes in, {length} bytes out", input.len());
        let mut ours = || {
            black_box(run(black_box(&input), black_box(&mut buffer))).ok();
        };
        let mut engines_buffer = vec![0; 100_000];
        let mut engines = || engine(&input, &mut engines_buffer);

        let our_count = repetitions(&mut ours);
        let engine_count = repetitions(&mut engines);
        let (mut our_times, mut engine_times) = (Vec::new(), Vec::new());
        for _ in 0..rounds {
            our_times.push(time(&mut ours, our_count));
            engine_times.push(time(&mut engines, engine_count));
        }
        let (our_median, our_least) = middle_and_least(&mut our_times);
        println!("  independent {our_median:>10.2} us a run (least {our_least:.2})");
        if cfg!(engine) {
            let (engine_median, engine_least) = middle_and_least(&mut engine_times);
            println!("  engine      {engine_median:>10.2} us a run (least {engine_least:.2})");
            println!(
                "  engine / independent {:.2} (least {:.2})",
                engine_median / our_median,
                engine_least / our_least
            );
        }
    }
}

#[cfg(engine)]
fn engine(input: &[u8], buffer: &mut [u8]) {
    black_box(independent::engine::run_told(
        black_box(input),
        black_box(buffer),
    ));
}

#[cfg(not(engine))]
fn engine(_: &[u8], _: &mut [u8]) {}

/// How many runs make a round.
fn repetitions(work: &mut dyn FnMut()) -> u32 {
    let mut count = 1;
    loop {
        let start = Instant::now();
        for _ in 0..count {
            work();
        }
        if start.elapsed().as_micros() >= ROUND || count >= 1 << 20 {
            return count;
        }
        count *= 2;
    }
}

/// Microseconds a run.
fn time(work: &mut dyn FnMut(), count: u32) -> f64 {
    let start = Instant::now();
    for _ in 0..count {
        work();
    }
    start.elapsed().as_secs_f64() * 1e6 / f64::from(count)
}

fn middle_and_least(times: &mut [f64]) -> (f64, f64) {
    times.sort_by(f64::total_cmp);
    (times[times.len() / 2], times[0])
}
