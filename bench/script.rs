//! What replay answers to an accepted plan and its script, as a careful programmer would write it in plain Rust.

use crate::plain::{Stream, gcd, line, number};
use std::fmt::Write;

const LAST_MOMENT: u64 = 1_000_000_000_000;

#[derive(Clone, Copy)]
struct Job {
    since: u64,
    units: u64,
}

/// A stream, its phase if it is on a raster, its wait and its job.
struct Lane {
    stream: Stream,
    phase: Option<u64>,
    wait: u64,
    job: Option<Job>,
}

#[derive(Default)]
struct Counts {
    accepted: u64,
    finished: u64,
    cut: u64,
    dropped: u64,
}

struct Worker {
    lanes: Vec<Lane>,
    moment: u64,
    overrun: bool,
    counts: Counts,
}

impl Lane {
    fn open_first(&mut self, moment: u64) {
        self.wait = match self.phase {
            None => 0,
            Some(phase) => (phase + self.stream.gap - moment % self.stream.gap) % self.stream.gap,
        };
    }

    fn tick(&mut self) {
        self.wait = match self.phase {
            Some(_) if self.wait == 0 => self.stream.gap - 1,
            _ => self.wait.saturating_sub(1),
        };
    }

    fn deadline(&self, overrun: bool) -> Option<u64> {
        let term = if overrun { self.stream.deadline } else { self.stream.short };
        self.job.map(|job| job.since + term)
    }
}

impl Worker {
    fn release(&mut self, stream: u64) -> Result<(), u64> {
        let moment = self.moment;
        let place = usize::try_from(stream).map_err(|_| 14u64)?;
        let lane = self.lanes.get_mut(place.wrapping_sub(1)).ok_or(14u64)?;
        if self.overrun && !lane.stream.critical {
            return Err(16);
        }
        if lane.job.is_some() || lane.wait > 0 {
            return Err(17);
        }
        lane.wait = lane.stream.gap;
        lane.job = Some(Job { since: moment, units: 0 });
        self.counts.accepted += 1;
        Ok(())
    }

    fn turn(&mut self, done: bool) -> Result<(usize, &'static str), u64> {
        if self.moment >= LAST_MOMENT {
            return Err(24);
        }
        let overrun = self.overrun;
        let next = self
            .lanes
            .iter()
            .enumerate()
            .filter_map(|(i, lane)| lane.deadline(overrun).map(|deadline| (deadline, i)))
            .min();
        self.moment += 1;
        self.lanes.iter_mut().for_each(Lane::tick);
        match next {
            None => Ok((0, "idle")),
            Some((_, i)) => Ok((i + 1, self.serve(i, done))),
        }
    }

    fn serve(&mut self, i: usize, done: bool) -> &'static str {
        let lane = &mut self.lanes[i];
        let Some(job) = &mut lane.job else { return "idle" };
        job.units += 1;
        let units = job.units;
        let allowed = if self.overrun { lane.stream.certain } else { lane.stream.budget };
        if done {
            lane.job = None;
            self.counts.finished += 1;
            "finished"
        } else if units < allowed {
            "going"
        } else if !self.overrun && lane.stream.critical && lane.stream.certain > lane.stream.budget {
            self.switch();
            "switch"
        } else {
            lane.job = None;
            self.counts.cut += 1;
            "cut"
        }
    }

    fn switch(&mut self) {
        self.overrun = true;
        for lane in self.lanes.iter_mut().filter(|lane| !lane.stream.critical) {
            self.counts.dropped += lane.job.take().is_some() as u64;
        }
    }

    fn waiting(&self) -> usize {
        self.lanes.iter().filter(|lane| lane.job.is_some()).count()
    }

    fn calm(&mut self) -> Result<u64, u64> {
        if !self.overrun {
            return Err(20);
        }
        if self.waiting() > 0 {
            return Err(19);
        }
        self.overrun = false;
        Ok(self.moment)
    }
}

/// The streams of a plan, the moment of its go line, and the text after it.
fn plan(mut text: &[u8]) -> Option<(Vec<Lane>, u64, &[u8])> {
    let mut lanes = Vec::new();
    loop {
        if let Some(rest) = text.strip_prefix(b"(go ") {
            let (moment, rest) = number(rest)?;
            return Some((lanes, moment, rest.strip_prefix(b")\n")?));
        }
        let (stream, phase, rest) = line(text)?;
        lanes.push(Lane { stream, phase, wait: 0, job: None });
        text = rest;
    }
}

fn call<'a>(worker: &mut Worker, text: &'a [u8], at: usize, out: &mut String) -> Option<&'a [u8]> {
    let (told, rest) = if let Some(rest) = text.strip_prefix(b"(release ") {
        let (stream, rest) = number(rest)?;
        (worker.release(stream).map(|()| writeln!(out, "(took {stream})")), rest.strip_prefix(b")\n")?)
    } else if let Some(rest) = text.strip_prefix(b"(turn ") {
        let (done, rest) = match rest.strip_prefix(b"yes)\n") {
            Some(rest) => (true, rest),
            None => (false, rest.strip_prefix(b"no)\n")?),
        };
        (worker.turn(done).map(|(stream, how)| writeln!(out, "(ran {stream} {how})")), rest)
    } else {
        let rest = text.strip_prefix(b"(calm)\n")?;
        (worker.calm().map(|moment| writeln!(out, "(calm {moment})")), rest)
    };
    told.unwrap_or_else(|refusal| writeln!(out, "(refused {refusal} E ({at} 0))")).ok()?;
    Some(rest)
}

/// What stands in the first line of an accepted plan: the horizon, the lengths, and the nearest point.
fn verdict(lanes: &[Lane]) -> Option<String> {
    let demand = |share: fn(&Stream, u64) -> u64, t| lanes.iter().map(|lane| share(&lane.stream, t)).sum::<u64>();
    let horizon = lanes.iter().fold(1, |h, lane| h / gcd(h, lane.stream.gap) * lane.stream.gap);
    let mut nearest = None;
    for t in 0..=horizon {
        let normal = t.checked_sub(demand(Stream::normal_share, t))?;
        let overrun = t.checked_sub(demand(Stream::overrun_share, t))?;
        let here = (normal, t, "normal").min((overrun, t, "overrun"));
        if t > 0 && nearest.is_none_or(|best| here < best) {
            nearest = Some(here);
        }
    }
    let (margin, length, phase) = nearest?;
    Some(format!("{horizon} {} ({phase} {length} {margin})", horizon + 1))
}

/// None where the plan or a line of the script is not one that this program runs.
pub fn replay(text: &[u8]) -> Option<String> {
    let (mut lanes, moment, mut text) = plan(text)?;
    let mut out = format!("(accepted {})\n", verdict(&lanes)?);
    let mut at = lanes.len() + 2;
    lanes.iter_mut().for_each(|lane| lane.open_first(moment));
    let mut worker = Worker { lanes, moment, overrun: false, counts: Counts::default() };
    while !text.is_empty() {
        text = call(&mut worker, text, at, &mut out)?;
        at += 1;
    }
    let Counts { accepted, finished, cut, dropped } = worker.counts;
    writeln!(out, "(total {accepted} {finished} {cut} {dropped} {})", worker.waiting()).ok()?;
    Some(out)
}
