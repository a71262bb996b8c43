//! Times, the best of several rounds.

use std::time::{Duration, Instant};

const ROUNDS: u32 = 15;

/// Rounds go on for so long at least: other work of the machine may slow all those of a few milliseconds.
const LEAST: Duration = Duration::from_millis(50);

/// How often what is compared is timed in turn: other work that slows one would else not slow the other.
const PASSES: u32 = 3;

/// The shortest time of a round. `prepare` is not timed.
pub fn best(prepare: impl FnMut(), round: impl FnMut()) -> Duration {
    best_of(ROUNDS, prepare, round)
}

/// The same of so many rounds.
pub fn best_of(rounds: u32, mut prepare: impl FnMut(), mut round: impl FnMut()) -> Duration {
    let mut shortest = Duration::MAX;
    let (begin, mut done) = (Instant::now(), 0);
    while done < rounds || begin.elapsed() < LEAST {
        done += 1;
        prepare();
        let start = Instant::now();
        round();
        shortest = shortest.min(start.elapsed());
    }
    shortest
}

/// The least of each time of several passes.
pub fn in_turn<T: Copy + PartialOrd, const N: usize>(mut pass: impl FnMut() -> [T; N]) -> [T; N] {
    let mut least = pass();
    for _ in 1..PASSES {
        for (least, time) in least.iter_mut().zip(pass()) {
            if time < *least {
                *least = time;
            }
        }
    }
    least
}

/// ns for each of so many.
pub fn per(time: Duration, many: usize) -> f64 {
    time.as_nanos() as f64 / many as f64
}

/// What the machine was doing when the run began.
pub fn machine() -> String {
    let read = |path| std::fs::read_to_string(path).unwrap_or_default();
    let model = read("/proc/cpuinfo")
        .lines()
        .find_map(|line| line.strip_prefix("model name\t: ").map(str::to_string))
        .unwrap_or_else(|| "unknown processor".to_string());
    let load = read("/proc/loadavg");
    let load = load.split(' ').next().unwrap_or("unknown").to_string();
    format!(
        "machine: {model}, load {load} over the last minute; the best of several rounds in {PASSES} passes"
    )
}
