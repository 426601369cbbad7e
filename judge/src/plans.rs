//! Drawing plans whose numbers are within their limits.

use crate::demand::{admit, common_multiple, horizon, least, Phase};
use crate::rng::Rng;
use crate::stream::{Stream, LONGEST_GAP};

#[derive(Clone, Copy, Debug)]
pub enum Tables {
    Sporadic,
    Raster,
    Both,
}

pub const TABLES: [Tables; 3] = [Tables::Sporadic, Tables::Raster, Tables::Both];

impl Tables {
    pub fn name(self) -> &'static str {
        match self {
            Tables::Sporadic => "sporadic",
            Tables::Raster => "raster",
            Tables::Both => "both",
        }
    }
}

/// Gaps that go together with a small horizon.
const SMALL_GAPS: [&[i64]; 12] = [
    &[1, 2, 3], &[2, 4, 8], &[3, 6, 12], &[4, 6, 12], &[5, 10, 20], &[6, 9, 18],
    &[7, 14, 28], &[8, 12, 24], &[10, 15, 30], &[5, 7, 35], &[4, 5, 10, 20], &[16, 24, 48],
];

const GAPS_FOR_MANY: [&[i64]; 5] =
    [&[64], &[48, 96], &[60, 120], &[40, 80, 120, 240], &[100, 150, 300]];

/// One stream of the gap; `share` divides what it may ask, so that several fit.
fn stream(rng: &mut Rng, gap: i64, share: i64) -> Stream {
    let deadline = if rng.chance(40) { gap } else { rng.range((gap + 1) / 2, gap) };
    let budget = rng.range(1, (deadline / share).max(1));
    let critical = rng.chance(60);
    let more = rng.range(0, (deadline - budget) / share);
    Stream {
        critical,
        budget,
        certain: if critical { budget + more } else { 0 },
        short: if critical { rng.range(budget, deadline) } else { deadline },
        deadline,
        gap,
        phase: None,
    }
}

/// Puts the streams into tables, the sporadic ones first.
fn put(rng: &mut Rng, streams: &mut [Stream], tables: Tables) {
    let first_on_raster = match tables {
        Tables::Sporadic => streams.len(),
        Tables::Raster => 0,
        Tables::Both => rng.range(1, streams.len() as i64 - 1) as usize,
    };
    for stream in streams.iter_mut().skip(first_on_raster) {
        stream.phase = Some(rng.range(0, stream.gap - 1));
    }
}

/// Streams of these gaps, one each.
pub fn of_gaps(rng: &mut Rng, gaps: &[i64], tables: Tables) -> Vec<Stream> {
    let count = gaps.len() as i64;
    let share = rng.range((count - 2).max(1), count + 1);
    let mut streams: Vec<Stream> = gaps.iter().map(|&gap| stream(rng, gap, share)).collect();
    put(rng, &mut streams, tables);
    streams
}

/// A plan of `count` streams with a small horizon.
pub fn small(rng: &mut Rng, count: usize, tables: Tables) -> Vec<Stream> {
    let family = if count > 8 { rng.pick(&GAPS_FOR_MANY) } else { rng.pick(&SMALL_GAPS) };
    let gaps: Vec<i64> = (0..count).map(|_| rng.pick(family)).collect();
    of_gaps(rng, &gaps, tables)
}

/// A few streams in any tables.
pub fn few(rng: &mut Rng) -> Vec<Stream> {
    let count = 1 + rng.below(5);
    let tables = rng.pick(&TABLES);
    small(rng, count, tables)
}

/// A few streams that are admitted, with a least margin of 0 or 1.
pub fn admitted(rng: &mut Rng) -> Vec<Stream> {
    loop {
        let streams = few(rng);
        let margin = i64::from(rng.chance(25));
        if let Some(streams) = with_margin(rng, streams, margin) {
            return streams;
        }
    }
}

/// Changes budgets and short deadlines by ones until the least margin is the one
/// that is wanted; above 1 there is none, since length 1 has no larger.
pub fn with_margin(rng: &mut Rng, mut streams: Vec<Stream>, wanted: i64) -> Option<Vec<Stream>> {
    let horizon = horizon(&streams)?;
    for _ in 0..300 {
        let point = least(&streams, horizon);
        // Left to itself it would mostly be length 1 or 2, so these are kept seldom.
        let kept = wanted > 0 || point.length > 2 || rng.chance(10);
        if point.margin == wanted && kept {
            return Some(streams);
        }
        let at = rng.below(streams.len());
        if point.margin > wanted {
            ask_more(rng, &mut streams[at]);
        } else {
            ask_less(rng, &mut streams[at], point.phase);
        }
    }
    None
}

fn ask_more(rng: &mut Rng, stream: &mut Stream) {
    let most = if stream.critical { stream.short.min(stream.certain) } else { stream.deadline };
    match rng.below(3) {
        0 if stream.budget < most => stream.budget += 1,
        1 if stream.critical && stream.certain < stream.deadline => stream.certain += 1,
        2 if stream.critical && stream.short > stream.budget => stream.short -= 1,
        _ => {}
    }
}

fn ask_less(rng: &mut Rng, stream: &mut Stream, phase: Phase) {
    match (rng.below(3), phase) {
        (0, _) if stream.budget > 1 => stream.budget -= 1,
        (1, _) if stream.certain > stream.budget => stream.certain -= 1,
        (2, Phase::Normal) if stream.short < stream.deadline => stream.short += 1,
        (2, Phase::Overrun) if stream.critical && stream.short > stream.budget => stream.short -= 1,
        _ => {}
    }
}

/// Gaps by where their horizon lies.
pub const FAR_GAPS: [(&str, &[i64]); 33] = [
    ("at", &[15_625, 64]),
    ("at", &[62_500, 64]),
    ("at", &[8_000, 15_625, 320]),
    ("at", &[64, 15_625, 1_000, 50_000]),
    ("below", &[999, 1_001]),
    ("below", &[32_258, 31]),
    ("below", &[11_111, 90]),
    ("below", &[15_872, 63]),
    ("below", &[999, 1_000]),
    ("below", &[65_535, 14]),
    ("below", &[720, 1_001]),
    ("below", &[16, 9, 5, 7, 11, 13]),
    ("below", &[5_040, 143]),
    ("below", &[65_535, 8]),
    ("above", &[101, 9_901]),
    ("above", &[9_091, 110]),
    ("above", &[13_889, 72]),
    ("above", &[1_000, 1_001]),
    ("above", &[65_535, 16]),
    ("above", &[999, 1_000, 1_001]),
    ("above", &[65_535, 65_534]),
    ("above", &[65_521, 65_519, 65_497, 65_479, 65_449]),
    ("above", &[32_768, 59_049, 15_625, 16_807]),
    ("gap", &[65_535]),
    ("gap", &[65_535, 65_535, 5]),
    ("gap", &[65_534, 7]),
    ("gap", &[32_768, 16]),
    ("gap", &[999, 27]),
    ("gap", &[1_000, 16]),
    ("gap", &[1_001, 13, 7]),
    ("gap", &[720, 5_040]),
    ("gap", &[65_521, 15]),
    ("gap", &[32_768, 2, 65_534]),
];

/// Many long gaps without anything in common: their multiple is out of all width.
pub fn far_and_many(rng: &mut Rng) -> Vec<Stream> {
    let gaps: Vec<i64> = (0..32).map(|_| LONGEST_GAP - rng.range(0, 500)).collect();
    of_gaps(rng, &gaps, Tables::Both)
}

/// As many streams as may be, with a horizon of 1,000,000.
pub fn wide(rng: &mut Rng) -> Vec<Stream> {
    const DIVISORS: [i64; 8] = [15_625, 1_000, 50_000, 62_500, 31_250, 20_000, 8_000, 5_000];
    let mut gaps: Vec<i64> = (2..32).map(|_| rng.pick(&DIVISORS)).collect();
    gaps.extend([64, 15_625]);
    let mut streams = of_gaps(rng, &gaps, Tables::Both);
    streams.iter_mut().for_each(|stream| stream.short = stream.short.max(stream.deadline / 2));
    streams
}

/// Moves the budget of a background stream, or the certain one of a critical stream,
/// to the most that is admitted, or to one more. More of either never asks less.
pub fn to_edge(rng: &mut Rng, mut streams: Vec<Stream>) -> Vec<Stream> {
    let at = rng.below(streams.len());
    let numbers = streams[at].budget..streams[at].deadline + 1;
    let (mut admitted, mut refused) = (numbers.start, numbers.end);
    while refused - admitted > 1 {
        let middle = (admitted + refused) / 2;
        set_greatest(&mut streams[at], middle);
        match admit(&streams) {
            Ok(_) => admitted = middle,
            Err(_) => refused = middle,
        }
    }
    let beyond = refused < numbers.end && rng.chance(40);
    set_greatest(&mut streams[at], if beyond { refused } else { admitted });
    streams
}

fn set_greatest(stream: &mut Stream, number: i64) {
    if stream.critical {
        stream.certain = number;
    } else {
        stream.budget = number;
    }
}

/// Two streams that together ask for exactly H + more within the horizon H, and
/// never for more than in proportion, or hardly so. With `more` of 0 or 1 it is
/// the horizon, or almost, where they are full or exceed: what an early end of a
/// scan would miss. In normal mode all deadlines are at the gaps, and one stream
/// alone may be critical. In an overrun little is asked before it, and early.
pub fn full(rng: &mut Rng, gaps: [i64; 2], more: i64, phase: Phase) -> Option<Vec<Stream>> {
    let horizon = common_multiple(gaps.into_iter())?;
    let [jobs, other_jobs] = gaps.map(|gap| horizon / gap);
    let rest = |other: i64| horizon + more - other * other_jobs;
    let fits = |&other: &i64| rest(other) % jobs == 0 && (jobs..=jobs * gaps[0]).contains(&rest(other));
    let start = rng.range(1, gaps[1]);
    let other = (start..=gaps[1]).chain(1..start).find(fits)?;
    let asked = [rest(other) / jobs, other];
    let first_critical = rng.chance(50);
    let stream = |at: usize| match phase {
        Phase::Normal => at_gap(gaps[at], asked[at], first_critical && at == 0),
        Phase::Overrun => Stream {
            budget: 1,
            short: (at as i64 + 1).min(gaps[at]),
            ..at_gap(gaps[at], asked[at], true)
        },
    };
    Some(vec![stream(0), stream(1)])
}

/// A stream with all deadlines at its gap.
fn at_gap(gap: i64, budget: i64, critical: bool) -> Stream {
    let certain = if critical { budget } else { 0 };
    Stream { critical, budget, certain, short: gap, deadline: gap, gap, phase: None }
}
