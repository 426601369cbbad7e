//! A judge of a scheduler of job streams, written from its documentation alone.

mod answer;
mod bank;
mod container;
mod corners;
mod damages;
mod demand;
mod draw;
mod plans;
mod promise;
mod rng;
mod scripts;
mod stream;
mod tally;
mod text;
mod worker;

#[cfg(test)]
mod selftest;

use container::Case;
use std::io::{self, BufWriter, Read, Write};

const USAGE: &str = "\
judge answer < TEXT        what replay prints
judge check < TEXT         the number that check answers
judge draw SEED COUNT      so many cases, in a container
judge draw SEED COUNT MOST the same, but for texts of more than MOST bytes
judge damages              the damage block alone, in a container
judge tally < CONTAINER    how many cases by sort and by refusal
";

fn main() -> io::Result<()> {
    let arguments: Vec<String> = std::env::args().skip(1).collect();
    let arguments: Vec<&str> = arguments.iter().map(String::as_str).collect();
    match arguments[..] {
        ["answer"] => io::stdout().write_all(&answer::replay(&input()?)),
        ["check"] => writeln!(io::stdout(), "{}", answer::check(&input()?)),
        ["damages"] => write(damages::all()),
        ["tally"] => write!(io::stdout(), "{}", tally::of(&input()?)),
        ["draw", seed, count] => match (seed.parse(), count.parse()) {
            (Ok(seed), Ok(count)) => write(draw::draw(seed, count)),
            _ => usage(),
        },
        ["draw", seed, count, most] => match (seed.parse(), count.parse(), most.parse()) {
            (Ok(seed), Ok(count), Ok(most)) => write(draw::draw(seed, count).filter(|case| case.text.len() <= most)),
            _ => usage(),
        },
        _ => usage(),
    }
}

fn usage() -> ! {
    eprint!("{USAGE}");
    std::process::exit(2)
}

fn input() -> io::Result<Vec<u8>> {
    let mut bytes = Vec::new();
    io::stdin().read_to_end(&mut bytes)?;
    Ok(bytes)
}

fn write(cases: impl IntoIterator<Item = Case>) -> io::Result<()> {
    let mut out = BufWriter::new(io::stdout().lock());
    for case in cases {
        container::write(&case, &mut out)?;
    }
    out.flush()
}
