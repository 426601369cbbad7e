//! Which cases are drawn, and how often each sort gets a turn.

use crate::container::Case;
use crate::demand::Phase;
use crate::plans::{self, Tables, FAR_GAPS, TABLES};
use crate::rng::Rng;
use crate::scripts::{Habits, Script, HABITS};
use crate::stream::{Stream, LAST_MOMENT, LONGEST_TEXT};
use crate::{corners, damages};

/// Draws the k-th case of a sort.
type Sort = fn(&mut Rng, usize) -> Case;

/// Each sort with its turns in a round. The plans with a far horizon and the long
/// texts are dear, so they have few.
const SORTS: [(usize, Sort); 13] = [
    (9, edge),
    (6, small),
    (5, count),
    (5, horizon),
    (3, full),
    (8, moment),
    (9, run),
    (1, long),
    (2, bytes),
    (6, broken),
    (6, faulty),
    (2, garbage),
    (6, checked),
];

/// The fixed lists with their turns in a round; the refusals and the forms are
/// through in the first 400 cases.
fn lists() -> [(usize, Vec<Case>); 4] {
    [
        (22, corners::refusals()),
        (14, spread(corners::limits())),
        (11, spread(corners::digits())),
        (30, spread(corners::forms())),
    ]
}

/// From here on the whole damage block stands at the front; of fewer cases the
/// damages are a fixed list among the others.
const WITH_DAMAGE_BLOCK: usize = 5_000;
const DAMAGES_A_ROUND: usize = 24;

pub fn draw(seed: u64, count: usize) -> impl Iterator<Item = Case> {
    let mut lists = Vec::from(lists());
    let mut front = Vec::new();
    if count >= WITH_DAMAGE_BLOCK {
        front = damages::all();
    } else {
        lists.push((DAMAGES_A_ROUND, spread(damages::all())));
    }
    let after = Rounds::of(seed, lists);
    front.into_iter().chain(after).take(count)
}

/// In another order, in which every beginning has something of the whole list.
fn spread(mut cases: Vec<Case>) -> Vec<Case> {
    let mut rng = Rng::of_case(0, 0);
    for last in (1..cases.len()).rev() {
        cases.swap(last, rng.below(last + 1));
    }
    cases
}

/// Round after round, a turn for each that has turns left in the round, then the
/// next turn. A list that is through is passed over.
struct Rounds {
    seed: u64,
    drawn: u64,
    lists: Vec<(usize, std::vec::IntoIter<Case>)>,
    turns: [usize; SORTS.len()],
    pass: usize,
    at: usize,
}

impl Rounds {
    fn of(seed: u64, lists: Vec<(usize, Vec<Case>)>) -> Rounds {
        let lists = lists.into_iter().map(|(turns, cases)| (turns, cases.into_iter())).collect();
        Rounds { seed, drawn: 0, lists, turns: [0; SORTS.len()], pass: 0, at: 0 }
    }

    /// Goes on to the next place, by passes over all sorts and lists.
    fn advance(&mut self) {
        self.at += 1;
        if self.at == SORTS.len() + self.lists.len() {
            self.at = 0;
            let turns = SORTS.iter().map(|sort| sort.0).chain(self.lists.iter().map(|list| list.0));
            self.pass = (self.pass + 1) % turns.max().expect("there are sorts");
        }
    }

    fn here(&mut self) -> Option<Case> {
        if self.at >= SORTS.len() {
            let (turns, cases) = &mut self.lists[self.at - SORTS.len()];
            return if self.pass < *turns { cases.next() } else { None };
        }
        let (turns, sort) = SORTS[self.at];
        if self.pass >= turns {
            return None;
        }
        let mut rng = Rng::of_case(self.seed, self.drawn);
        self.drawn += 1;
        let k = self.turns[self.at];
        self.turns[self.at] += 1;
        Some(sort(&mut rng, k))
    }
}

impl Iterator for Rounds {
    type Item = Case;

    fn next(&mut self) -> Option<Case> {
        loop {
            let case = self.here();
            self.advance();
            if case.is_some() {
                return case;
            }
        }
    }
}

fn plan_text(streams: &[Stream]) -> String {
    streams.iter().map(Stream::line).collect()
}

/// A whole text with a script of that many calls.
fn text(rng: &mut Rng, streams: &[Stream], moment: i64, habits: Habits, calls: usize) -> String {
    let script = Script::of(streams, moment).draw(rng, habits, calls);
    format!("{}(go {moment})\n{script}", plan_text(streams))
}

fn any_habits(rng: &mut Rng) -> Habits {
    rng.pick(&HABITS).1
}

fn any_text(rng: &mut Rng, streams: &[Stream]) -> String {
    let (habits, calls, moment) = (any_habits(rng), rng.below(60), rng.range(0, 100));
    text(rng, streams, moment, habits, calls)
}

/// A plan whose least margin is 0, 1 or −1.
fn at_edge(rng: &mut Rng, margin: i64) -> Vec<Stream> {
    loop {
        let streams = plans::few(rng);
        if let Some(streams) = plans::with_margin(rng, streams, margin) {
            return streams;
        }
    }
}

fn edge(rng: &mut Rng, k: usize) -> Case {
    let margin = [0, -1, 1][k % 3];
    let streams = at_edge(rng, margin);
    Case::new(format!("edge{margin:+}"), any_text(rng, &streams))
}

fn small(rng: &mut Rng, _: usize) -> Case {
    let streams = plans::few(rng);
    Case::new("small", any_text(rng, &streams))
}

fn count(rng: &mut Rng, k: usize) -> Case {
    const COUNTS: [usize; 5] = [1, 2, 31, 32, 33];
    let (streams, tables) = match (COUNTS[k % 5], TABLES[k / 5 % 3]) {
        (1, Tables::Both) => (3, Tables::Both),
        other => other,
    };
    let mut plan = plans::small(rng, streams, tables);
    if rng.chance(70) {
        let margin = i64::from(rng.chance(25));
        plan = plans::with_margin(rng, plan.clone(), margin).unwrap_or(plan);
    }
    Case::new(format!("count-{streams}-{}", tables.name()), any_text(rng, &plan))
}

fn horizon(rng: &mut Rng, k: usize) -> Case {
    if k % 10 == 9 {
        let streams = plans::far_and_many(rng);
        return Case::new("horizon-out-of-width", any_text(rng, &streams));
    }
    if k % 10 == 4 {
        let streams = plans::wide(rng);
        return Case::new("horizon-wide", any_text(rng, &streams));
    }
    // 7 has nothing in common with the length of the list: neighbours differ.
    let (place, gaps) = FAR_GAPS[k * 7 % FAR_GAPS.len()];
    let tables = rng.pick(&TABLES);
    let mut streams = plans::of_gaps(rng, gaps, tables);
    if rng.chance(60) {
        streams = plans::to_edge(rng, streams);
    }
    Case::new(format!("horizon-{place}"), any_text(rng, &streams))
}

fn full(rng: &mut Rng, k: usize) -> Case {
    // A common divisor of the gaps, so that the horizon can be just full.
    const GAPS: [[i64; 2]; 8] = [
        [62_500, 64], [6_993, 1_001], [20, 30], [8_000, 15_625], [7_992, 1_000], [8, 12], [5_040, 1_001], [6, 9],
    ];
    let more = [1, 0, -1][k / 2 % 3];
    let (phase, name) = [(Phase::Normal, "normal"), (Phase::Overrun, "overrun")][k % 2];
    let gaps = rng.pick(&GAPS);
    let streams = plans::full(rng, gaps, more, phase).expect("such gaps can be filled");
    Case::new(format!("full-{name}{more:+}"), any_text(rng, &streams))
}

fn moment(rng: &mut Rng, k: usize) -> Case {
    const MOMENTS: [(&str, i64); 8] = [
        ("moment-wide", 1 << 32),
        ("moment-last", LAST_MOMENT),
        ("moment-wide", 1 << 31),
        ("moment-last-but-some", LAST_MOMENT - 30),
        ("moment-any", 0),
        ("moment-too-late", LAST_MOMENT + 1),
        ("moment-last-but-some", LAST_MOMENT - 3),
        ("moment-too-late", 9_999_999_999_999),
    ];
    let (name, moment) = MOMENTS[k % 8];
    let moment = match name {
        "moment-wide" => moment + rng.range(-20, 5),
        "moment-any" => rng.range(0, LAST_MOMENT),
        _ => moment,
    };
    let streams = plans::admitted(rng);
    let habits = any_habits(rng);
    Case::new(name, text(rng, &streams, moment, habits, 60))
}

fn run(rng: &mut Rng, k: usize) -> Case {
    let (name, habits) = HABITS[k % HABITS.len()];
    let streams = plans::admitted(rng);
    let (moment, calls) = (rng.range(0, 1_000), 100 + rng.below(300));
    Case::new(format!("run-{name}"), text(rng, &streams, moment, habits, calls))
}

/// Some thousand calls, near the limit of a text.
fn long(rng: &mut Rng, _: usize) -> Case {
    let streams = plans::admitted(rng);
    let (habits, calls) = (any_habits(rng), 3_000 + rng.below(2_400));
    let text = text(rng, &streams, 0, habits, calls);
    Case::new("long", text)
}

/// Texts of a length exactly at the limit, and beside it.
fn bytes(rng: &mut Rng, k: usize) -> Case {
    match k % 6 {
        0 => Case::new("bytes-at-limit", of_length(rng, LONGEST_TEXT)),
        1 => Case::new("bytes-one-more", of_length(rng, LONGEST_TEXT + 1)),
        2 => Case::new("bytes-one-less", of_length(rng, LONGEST_TEXT - 1)),
        3 => {
            let mut text = of_length(rng, LONGEST_TEXT + 1);
            text.pop();
            Case::new("bytes-at-limit-cut", text)
        }
        4 => {
            let faulty = "(S H (2 1) (2 6) 6)\n";
            let text = faulty.to_string() + &of_length(rng, LONGEST_TEXT + 1 - faulty.len());
            Case::new("bytes-one-more-faulty", text)
        }
        _ => Case::new("bytes-many-more", of_length(rng, LONGEST_TEXT + 2_000)),
    }
}

fn of_length(rng: &mut Rng, length: usize) -> String {
    let streams = plans::admitted(rng);
    let plan = format!("{}(go 0)\n", plan_text(&streams));
    let habits = any_habits(rng);
    let script = Script::of(&streams, 0).filled(rng, habits, length - plan.len());
    plan + &script
}

/// A text that may run, with one to three bytes changed anywhere.
fn broken(rng: &mut Rng, _: usize) -> Case {
    let streams = plans::admitted(rng);
    let mut text = any_text(rng, &streams).into_bytes();
    for _ in 0..1 + rng.below(3) {
        let at = rng.below(text.len());
        match rng.below(4) {
            0 => drop(text.remove(at)),
            1 => text.insert(at, text[at]),
            2 => text[at] = rng.pick(b"0123456789() \nSHLRgocalmturn"),
            _ => text[at] = rng.below(256) as u8,
        }
    }
    Case::new("broken", text)
}

/// A plan with several faults, so that their order shows.
fn faulty(rng: &mut Rng, _: usize) -> Case {
    let mut streams = plans::few(rng);
    for _ in 0..1 + rng.below(2) {
        let at = rng.below(streams.len());
        spoil(rng, &mut streams[at]);
    }
    if rng.chance(20) {
        streams.reverse();
    }
    Case::new("faulty", any_text(rng, &streams))
}

fn spoil(rng: &mut Rng, stream: &mut Stream) {
    for _ in 0..1 + rng.below(3) {
        let limits = [stream.gap, stream.deadline, stream.budget, stream.certain, stream.short, 65_535];
        let bad = match rng.below(4) {
            0 => 0,
            1 => rng.range(0, 9_999_999_999_999),
            _ => (rng.pick(&limits) + rng.range(-1, 1)).max(0),
        };
        match rng.below(7) {
            0 => stream.gap = bad,
            1 => stream.deadline = bad,
            2 => stream.budget = bad,
            3 => stream.certain = bad,
            4 => stream.short = bad,
            5 => stream.critical = !stream.critical,
            _ => stream.phase = Some(bad),
        }
    }
}

/// Any bytes, or bytes of which the lines are made.
fn garbage(rng: &mut Rng, k: usize) -> Case {
    let length = rng.below(40);
    let any = |rng: &mut Rng| rng.below(256) as u8;
    let likely = |rng: &mut Rng| rng.pick(b"(()) \n0123SRHLgo");
    let text: Vec<u8> = (0..length).map(|_| if k % 2 == 0 { any(rng) } else { likely(rng) }).collect();
    Case::new("garbage", text)
}

/// Plans alone, without a go line, as check reads them.
fn checked(rng: &mut Rng, k: usize) -> Case {
    let margin = [0, -1, 1][k / 6 % 3];
    let whole = match k % 6 {
        0 => return Case::new("checked-edge", plan_text(&at_edge(rng, margin))),
        1 => small(rng, k),
        2 => count(rng, k / 6),
        3 => horizon(rng, k / 6),
        4 => full(rng, k / 6),
        _ => faulty(rng, k),
    };
    let text = String::from_utf8(whole.text).expect("plans are plain text");
    let plan = text.split("(go ").next().expect("a part before the go line");
    Case::new(format!("checked-{}", whole.name), plan)
}
