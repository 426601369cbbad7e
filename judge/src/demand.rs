//! Demand and admission.

use crate::stream::{Stream, LONGEST_HORIZON, MOST_STREAMS};

#[derive(Clone, Copy, Debug, PartialEq, Eq, PartialOrd, Ord)]
pub enum Phase {
    Normal,
    Overrun,
}

#[derive(Clone, Copy, Debug, PartialEq)]
pub struct Point {
    pub phase: Phase,
    pub length: i64,
    pub margin: i64,
}

impl Point {
    /// The order in which points are nearer: margin, length, normal first.
    fn rank(&self) -> (i64, i64, Phase) {
        (self.margin, self.length, self.phase)
    }

    pub fn text(&self) -> String {
        let phase = match self.phase {
            Phase::Normal => "normal",
            Phase::Overrun => "overrun",
        };
        format!("({phase} {} {})", self.length, self.margin)
    }
}

#[derive(Debug, PartialEq)]
pub struct Verdict {
    pub horizon: i64,
    pub nearest: Point,
}

/// A number of admission; 11 has its point.
#[derive(Debug, PartialEq)]
pub struct Refusal {
    pub number: u8,
    pub point: Option<Point>,
}

/// So many values of n the literal form may try in one admission.
const AFFORDABLE: i64 = 3_000_000;

pub fn admit(streams: &[Stream]) -> Result<Verdict, Refusal> {
    let refused = |number| Refusal { number, point: None };
    if streams.is_empty() {
        return Err(refused(9));
    }
    if streams.len() > MOST_STREAMS {
        return Err(refused(2));
    }
    let horizon = horizon(streams).ok_or(refused(10))?;
    let nearest = if literal_cost(streams, horizon) <= AFFORDABLE {
        scan(streams, horizon, literal_share)
    } else {
        scan(streams, horizon, jump_share)
    };
    match nearest {
        Ok(nearest) => Ok(Verdict { horizon, nearest }),
        Err(point) => Err(Refusal { number: 11, point: Some(point) }),
    }
}

/// The least common multiple of the gaps, unless it is too far. It only grows
/// from gap to gap, so the first product that is too far settles it.
pub fn horizon(streams: &[Stream]) -> Option<i64> {
    common_multiple(streams.iter().map(|stream| stream.gap))
}

pub fn common_multiple(mut gaps: impl Iterator<Item = i64>) -> Option<i64> {
    gaps.try_fold(1, |so_far, gap| {
        let multiple = so_far / common_divisor(so_far, gap) * gap;
        (multiple <= LONGEST_HORIZON).then_some(multiple)
    })
}

fn common_divisor(a: i64, b: i64) -> i64 {
    if b == 0 { a } else { common_divisor(b, a % b) }
}

pub fn literal_cost(streams: &[Stream], horizon: i64) -> i64 {
    (horizon + 1) * streams.iter().map(|stream| stream.deadline + 1).sum::<i64>()
}

/// All points of the lengths from 0 to the horizon, in the order of the scan.
/// `share` is what a critical stream asks in an overrun.
fn points<'a, S>(streams: &'a [Stream], horizon: i64, share: S) -> impl Iterator<Item = Point> + 'a
where
    S: Fn(&Stream, i64) -> i64 + 'a,
{
    (0..=horizon).flat_map(move |length| {
        let normal: i64 = streams.iter().map(|s| s.ceiling(length - s.short) * s.budget).sum();
        let critical = streams.iter().filter(|stream| stream.critical);
        let overrun: i64 = critical.map(|stream| share(stream, length)).sum();
        [
            Point { phase: Phase::Normal, length, margin: length - normal },
            Point { phase: Phase::Overrun, length, margin: length - overrun },
        ]
    })
}

/// The nearest point of the lengths from 1 on, or the first that is exceeded.
pub fn scan<S>(streams: &[Stream], horizon: i64, share: S) -> Result<Point, Point>
where
    S: Fn(&Stream, i64) -> i64,
{
    let mut nearest: Option<Point> = None;
    for point in points(streams, horizon, &share) {
        if point.margin < 0 {
            return Err(point);
        }
        if point.length > 0 && nearest.is_none_or(|best| point.rank() < best.rank()) {
            nearest = Some(point);
        }
    }
    Ok(nearest.expect("a horizon is at least 1"))
}

/// The least point, exceeded or not, for drawing near the edge. At length 0 nothing
/// is asked or too much, so its margin of 0 says nothing.
pub fn least(streams: &[Stream], horizon: i64) -> Point {
    let told = points(streams, horizon, jump_share).filter(|p| p.length > 0 || p.margin < 0);
    told.min_by_key(Point::rank).expect("a horizon is at least 1")
}

/// The definition: the greatest over every n.
pub fn literal_share(stream: &Stream, t: i64) -> i64 {
    if t < stream.slack() {
        return 0;
    }
    let all = stream.slack()..=t.min(stream.deadline);
    all.map(|n| asked(stream, t, n)).max().expect("the range is not empty")
}

/// The greatest over those n alone after which N(t − n) falls, and the last n.
///
/// Why that is enough: with n growing by 1 the deduction never grows, so what is
/// asked can only fall where N(t − n) falls, and that is from n to n + 1 exactly
/// if T divides t − n. From any other n but the last, n + 1 asks at least as much;
/// so going on from any n one arrives, without loss, at one of those tried here.
pub fn jump_share(stream: &Stream, t: i64) -> i64 {
    let first = stream.slack();
    if t < first {
        return 0;
    }
    let last = t.min(stream.deadline);
    let mut greatest = asked(stream, t, last);
    let mut n = first + (t - first) % stream.gap;
    while n < last {
        greatest = greatest.max(asked(stream, t, n));
        n += stream.gap;
    }
    greatest
}

/// N(t − n) · C − max(0, c + D − V − n).
fn asked(stream: &Stream, t: i64, n: i64) -> i64 {
    let done_by_then = (stream.budget + stream.slack() - n).max(0);
    stream.ceiling(t - n) * stream.certain - done_by_then
}
