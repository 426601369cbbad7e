//! Times the exported replay beside plain Rust (script.rs) on long scripts, and tells the calls of the engine in a second.

mod draw;
mod plain;
mod script;

use draw::Draw;
use std::hint::black_box;
use std::time::{Duration, Instant};

#[link(name = "finchbronze", kind = "static")]
#[link(name = "libc_c", kind = "static")]
unsafe extern "C" {
    fn replay(text: *const u8, length: usize, buffer: *mut u8, room: usize) -> i64;
}

const LONGEST: usize = 65536;
const ROUNDS: usize = 40;

/// How many bytes were written.
fn exported(text: &[u8], buffer: &mut [u8]) -> usize {
    let written = unsafe { replay(text.as_ptr(), text.len(), buffer.as_mut_ptr(), buffer.len()) };
    usize::try_from(written).expect("replay refused its buffer")
}

fn least(mut run: impl FnMut()) -> Duration {
    let time = |_| {
        let start = Instant::now();
        run();
        start.elapsed()
    };
    (0..ROUNDS).map(time).min().unwrap_or_default()
}

/// Streams of one gap each, so that the plan is judged at few lengths and the script is what takes the time.
fn plan(streams: usize) -> String {
    let gap = 4 * streams;
    let critical = format!("(S H (1 2) ({} {gap}) {gap})\n", gap / 2);
    let background = format!("(S L (1 0) ({gap} {gap}) {gap})\n");
    let pairs = (0..streams / 2).map(|_| critical.clone() + &background);
    pairs.collect::<String>() + "(go 0)\n"
}

/// As many calls as the longest text has room for: mostly turns, with releases of any stream and a calm now and then.
fn long_script(streams: usize, draw: &mut Draw) -> String {
    let mut text = plan(streams);
    loop {
        let line = match draw.below(16) {
            0..8 => "(turn no)\n".to_string(),
            8..12 => "(turn yes)\n".to_string(),
            12 => "(calm)\n".to_string(),
            _ => format!("(release {})\n", draw.below(streams as u64) + 1),
        };
        if text.len() + line.len() > LONGEST {
            return text;
        }
        text += &line;
    }
}

/// A turn is two calls, a pick and a settle.
fn calls(text: &str) -> usize {
    let of = |word: &str| text.matches(word).count();
    2 * of("(turn ") + of("(release ") + of("(calm)")
}

fn report(streams: usize) {
    let mut draw = Draw(streams as u64);
    let text = long_script(streams, &mut draw);
    let lines = text.matches('\n').count();
    let mut buffer = vec![0u8; 80 * (lines + 2)];
    let written = exported(text.as_bytes(), &mut buffer);
    let plainly = script::replay(text.as_bytes()).expect("a plan that may run");
    assert_eq!(std::str::from_utf8(&buffer[..written]), Ok(plainly.as_str()));
    let ours = least(|| {
        black_box(exported(black_box(text.as_bytes()), &mut buffer));
    });
    let theirs = least(|| {
        black_box(script::replay(black_box(text.as_bytes())));
    });
    println!(
        "{streams:>2} streams {:>6} calls {:>9.3} ms {:>9.3} ms  ratio {:.2}  {:>5.2} million calls a second",
        calls(&text),
        ours.as_secs_f64() * 1e3,
        theirs.as_secs_f64() * 1e3,
        ours.as_secs_f64() / theirs.as_secs_f64(),
        calls(&text) as f64 / ours.as_secs_f64() / 1e6
    );
}

fn main() {
    println!("{:>23} {:>14} {:>12}", "", "replay", "plain");
    for streams in [2, 8, 32] {
        report(streams);
    }
}
