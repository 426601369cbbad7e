//! What check answers, as a careful programmer would write it in plain Rust.

use std::str::FromStr;

pub struct Stream {
    pub critical: bool,
    pub budget: u64,
    pub certain: u64,
    pub short: u64,
    pub deadline: u64,
    pub gap: u64,
}

const OUT_OF_SHAPE: i64 = 1;
const MOST_STREAMS: usize = 32;
const FARTHEST: u64 = 1_000_000;

/// The number that the text begins with, and what comes after it.
pub fn number(text: &[u8]) -> Option<(u64, &[u8])> {
    let digits = text.iter().take_while(|b| b.is_ascii_digit()).count();
    let fits = match text.first() {
        Some(b'0') => digits == 1,
        _ => (1..=13).contains(&digits),
    };
    if !fits {
        return None;
    }
    let value = u64::from_str(std::str::from_utf8(&text[..digits]).ok()?).ok()?;
    Some((value, &text[digits..]))
}

/// The row, with its phase if it is on a raster, and the text after the line.
pub fn line(text: &[u8]) -> Option<(Stream, Option<u64>, &[u8])> {
    let (raster, text) = match text.strip_prefix(b"(S ") {
        Some(text) => (false, text),
        None => (true, text.strip_prefix(b"(R ")?),
    };
    let (critical, text) = match text.strip_prefix(b"H (") {
        Some(text) => (true, text),
        None => (false, text.strip_prefix(b"L (")?),
    };
    let (budget, text) = number(text)?;
    let (certain, text) = number(text.strip_prefix(b" ")?)?;
    let (short, text) = number(text.strip_prefix(b") (")?)?;
    let (deadline, text) = number(text.strip_prefix(b" ")?)?;
    let (gap, text) = number(text.strip_prefix(b") ")?)?;
    let (phase, text) = if raster {
        let (phase, text) = number(text.strip_prefix(b" ")?)?;
        (Some(phase), text)
    } else {
        (None, text)
    };
    let stream = Stream {
        critical,
        budget,
        certain,
        short,
        deadline,
        gap,
    };
    Some((stream, phase, text.strip_prefix(b")\n")?))
}

impl Stream {
    /// The number of the first limit that the stream breaks.
    fn refusal(&self) -> Option<i64> {
        let certain_fits = if self.critical {
            (self.budget..=self.deadline).contains(&self.certain)
        } else {
            self.certain == 0
        };
        let short_fits = if self.critical {
            (self.budget..=self.deadline).contains(&self.short)
        } else {
            self.short == self.deadline
        };
        if !(1..=65535).contains(&self.gap) {
            Some(4)
        } else if !(1..=self.gap).contains(&self.deadline) {
            Some(5)
        } else if !(1..=self.deadline).contains(&self.budget) || !certain_fits {
            Some(6)
        } else if !short_fits {
            Some(7)
        } else {
            None
        }
    }

    pub fn normal_share(&self, length: u64) -> u64 {
        if length < self.short {
            return 0;
        }
        ((length - self.short) / self.gap + 1) * self.budget
    }

    pub fn overrun_share(&self, length: u64) -> u64 {
        let slack = self.deadline - self.short;
        if !self.critical || length < slack {
            return 0;
        }
        let m = length - slack;
        let left = self.budget.saturating_sub(m % self.gap);
        ((m / self.gap + 1) * self.certain).saturating_sub(left)
    }
}

pub fn gcd(a: u64, b: u64) -> u64 {
    if b == 0 { a } else { gcd(b, a % b) }
}

fn admit(streams: &[Stream]) -> i64 {
    if streams.is_empty() {
        return 9;
    }
    let mut horizon = 1;
    for stream in streams {
        horizon *= stream.gap / gcd(horizon, stream.gap);
        if horizon > FARTHEST {
            return 10;
        }
    }
    for length in 0..=horizon {
        let normal: u64 = streams.iter().map(|s| s.normal_share(length)).sum();
        if normal > length {
            return 11;
        }
        let overrun: u64 = streams.iter().map(|s| s.overrun_share(length)).sum();
        if overrun > length {
            return 11;
        }
    }
    0
}

pub fn check(mut text: &[u8]) -> i64 {
    let mut streams = Vec::with_capacity(MOST_STREAMS);
    let mut on_raster = false;
    while !text.is_empty() {
        let Some((stream, phase, rest)) = line(text) else {
            return OUT_OF_SHAPE;
        };
        if streams.len() == MOST_STREAMS {
            return 2;
        }
        if on_raster && phase.is_none() {
            return 3;
        }
        if let Some(number) = stream.refusal() {
            return number;
        }
        if phase.is_some_and(|phase| phase >= stream.gap) {
            return 8;
        }
        on_raster = phase.is_some();
        streams.push(stream);
        text = rest;
    }
    admit(&streams)
}
