//! Times the exported check beside plain Rust (plain.rs), on the same plans in one run.

mod draw;
mod plain;

use draw::Draw;
use std::hint::black_box;
use std::time::{Duration, Instant};

#[link(name = "finchbronze", kind = "static")]
#[link(name = "libc_c", kind = "static")]
unsafe extern "C" {
    fn check(text: *const u8, length: usize) -> i64;
}

fn exported(text: &[u8]) -> i64 {
    unsafe { check(text.as_ptr(), text.len()) }
}

const ROUNDS: usize = 15;

/// The least time of all rounds; the two take turns, so that what else runs meets both.
fn race(plans: &[Vec<u8>]) -> (Duration, Duration) {
    let time = |judge: fn(&[u8]) -> i64| {
        let start = Instant::now();
        for plan in plans {
            black_box(judge(black_box(plan)));
        }
        start.elapsed()
    };
    let mut best = (Duration::MAX, Duration::MAX);
    for _ in 0..ROUNDS {
        best.0 = best.0.min(time(exported));
        best.1 = best.1.min(time(plain::check));
    }
    best
}

impl Draw {
    /// From `low` to `high`, or now and then one past an end.
    fn near(&mut self, low: u64, high: u64) -> u64 {
        match self.below(64) {
            0 => low.saturating_sub(1),
            1 => high + 1,
            _ => low + self.below(high.saturating_sub(low) + 1),
        }
    }

    fn stream(&mut self, raster: bool) -> String {
        let gap = [6, 8, 9, 10, 12, 15, 20, 24, 30, 36][self.below(10) as usize];
        let deadline = self.near(gap / 2, gap);
        let budget = self.near(1, 2);
        let (class, certain, short) = match self.below(2) {
            0 => ('L', 0, deadline),
            _ => ('H', self.near(budget, budget + 1), self.near(budget, deadline)),
        };
        let kind = if raster { 'R' } else { 'S' };
        let phase = if raster { format!(" {}", self.near(0, gap - 1)) } else { String::new() };
        format!("({kind} {class} ({budget} {certain}) ({short} {deadline}) {gap}{phase})\n")
    }

    fn plan(&mut self) -> Vec<u8> {
        let sporadic = self.below(4);
        let raster = self.below(3);
        let mut text = String::new();
        for i in 0..sporadic + raster {
            text.push_str(&self.stream(i >= sporadic));
        }
        if self.below(16) == 0 {
            text.truncate(self.below(text.len() as u64 + 1) as usize);
        }
        text.into_bytes()
    }
}

fn report(name: &str, plans: &[Vec<u8>]) {
    let mut answers = [0; 12];
    for plan in plans {
        let answer = exported(plan);
        assert_eq!(answer, plain::check(plan), "{}", String::from_utf8_lossy(plan));
        answers[answer as usize] += 1;
    }
    let (ours, theirs) = race(plans);
    let told: Vec<String> = (0..12).filter(|&i| answers[i] > 0).map(|i| format!("{i}×{}", answers[i])).collect();
    println!(
        "{name:<16} {:>10.3} ms {:>10.3} ms  ratio {:.2}  answers {}",
        ours.as_secs_f64() * 1e3,
        theirs.as_secs_f64() * 1e3,
        ours.as_secs_f64() / theirs.as_secs_f64(),
        told.join(" ")
    );
}

fn main() {
    println!("{:<16} {:>13} {:>13}", "plan", "check", "plain");
    for path in std::env::args().skip(1) {
        let plan = std::fs::read(&path).expect(&path);
        let name = path.rsplit('/').next().unwrap_or(&path).trim_end_matches(".streams");
        report(name, &[plan]);
    }
    let mut draw = Draw(1);
    let drawn: Vec<Vec<u8>> = (0..1000).map(|_| draw.plan()).collect();
    report("1000 drawn", &drawn);
}
