//! `rustc --test`: the example, the fast form against the literal one, the container.

use crate::answer::{check, replay};
use crate::container::{self, Case};
use crate::demand::{horizon, jump_share, literal_cost, literal_share, scan};
use crate::draw::draw;
use crate::plans;
use crate::rng::Rng;
use crate::stream::Stream;
use crate::{corners, damages, tally};
use std::collections::BTreeSet;

fn printed(text: &str) -> String {
    String::from_utf8(replay(text.as_bytes())).unwrap()
}

#[test]
fn example() {
    let text = "(S H (2 4) (2 6) 6)\n(S L (3 0) (6 6) 6)\n(go 0)\n(release 1)\n(release 2)\n\
        (turn no)\n(turn no)\n(release 2)\n(turn no)\n(turn yes)\n(calm)\n";
    let answer = "(accepted 6 7 (normal 2 0))\n(took 1)\n(took 2)\n(ran 1 going)\n(ran 1 switch)\n\
        (refused 16 E (8 0))\n(ran 1 going)\n(ran 1 finished)\n(calm 4)\n(total 2 1 0 1 0)\n";
    assert_eq!(printed(text), answer);
    assert_eq!(check(text.as_bytes()), 1);
    assert_eq!(check(text.split("(go").next().unwrap().as_bytes()), 0);
}

/// Every critical stream with a gap of at most 7, at every length of four gaps.
#[test]
fn jumps_are_literal_for_all_short_gaps() {
    let mut tried = 0;
    for gap in 1..=7 {
        for deadline in 1..=gap {
            for budget in 1..=deadline {
                for (certain, short) in pairs(budget, deadline) {
                    let stream =
                        Stream { critical: true, budget, certain, short, deadline, gap, phase: None };
                    assert_eq!(stream.fault(), None);
                    for t in 0..=4 * gap {
                        assert_eq!(jump_share(&stream, t), literal_share(&stream, t), "{stream:?} {t}");
                        tried += 1;
                    }
                }
            }
        }
    }
    assert!(tried > 10_000);
}

fn pairs(low: i64, high: i64) -> Vec<(i64, i64)> {
    (low..=high).flat_map(|first| (low..=high).map(move |second| (first, second))).collect()
}

#[test]
fn jumps_are_literal_for_drawn_plans() {
    for case in 0..5_000 {
        let mut rng = Rng::of_case(7, case);
        let mut streams = plans::few(&mut rng);
        if case % 2 == 0 {
            let wanted = case as i64 / 2 % 3 - 1;
            streams = plans::with_margin(&mut rng, streams.clone(), wanted).unwrap_or(streams);
        }
        let horizon = horizon(&streams).unwrap();
        let literal = scan(&streams, horizon, literal_share);
        assert_eq!(scan(&streams, horizon, jump_share), literal, "{streams:?}");
    }
}

#[test]
fn jumps_are_literal_for_some_larger_plans() {
    for (case, gaps) in [[720, 1_001], [999, 27], [1_001, 13], [5_040, 143]].iter().enumerate() {
        let mut rng = Rng::of_case(8, case as u64);
        let streams = plans::of_gaps(&mut rng, gaps, plans::Tables::Both);
        let horizon = horizon(&streams).unwrap().min(20_000);
        assert!(literal_cost(&streams, horizon) > 3_000);
        assert_eq!(scan(&streams, horizon, jump_share), scan(&streams, horizon, literal_share));
    }
}

/// No length above the horizon is worse: looked at up to three horizons.
#[test]
fn nothing_is_worse_above_the_horizon() {
    for case in 0..1_000 {
        let streams = plans::few(&mut Rng::of_case(9, case));
        let horizon = horizon(&streams).unwrap();
        let far = scan(&streams, 3 * horizon, literal_share);
        assert_eq!(scan(&streams, horizon, literal_share).is_ok(), far.is_ok());
    }
}

#[test]
fn faults_stand_where_they_are() {
    let plan = "(S H (2 4) (2 6) 6)\n";
    assert_eq!(printed(""), "(refused 1 T (1 1))\n");
    assert_eq!(printed(plan), "(refused 1 T (2 1))\n");
    assert_eq!(printed("(S H (2 4) (2 6) 6)"), "(refused 1 T (1 20))\n");
    assert_eq!(printed("(S H (2 04) (2 6) 6)\n"), "(refused 1 T (1 10))\n");
    assert_eq!(printed("(R H (2 4) (2 6) 6)\n"), "(refused 1 T (1 19))\n");
    assert_eq!(printed("(S H (2 4) (2 6) 12345678901234)\n"), "(refused 1 T (1 31))\n");
    assert_eq!(printed("(go 0)\n"), "(refused 9 D (1 0))\n");
    assert_eq!(printed("(go 1000000000001)\n"), "(refused 12 E (1 0))\n");
    assert_eq!(printed("(S H (1 2) (6 6) 6)\n(go 0)\n"), "(refused 11 D (2 0) (overrun 0 -1))\n");
    let run = format!("{plan}(go 1000000000000)\n(turn no)\n(release 1)\n(calm)x\n(calm)\n");
    let answer = "(accepted 6 7 (normal 2 0))\n(refused 24 E (3 0))\n(took 1)\n(refused 1 T (5 7))\n";
    assert_eq!(printed(&run), answer);
}

#[test]
fn container_round_trip() {
    let mut cases: Vec<Case> = draw(3, 300).collect();
    cases.push(Case::new("odd", "case x 1 2 3\n\n\n"));
    let mut bytes = Vec::new();
    for case in &cases {
        container::write(case, &mut bytes).unwrap();
    }
    let back = container::read(&bytes).expect("a container");
    assert_eq!(back.len(), cases.len());
    for (case, answered) in cases.iter().zip(&back) {
        assert_eq!((case.name.as_str(), case.text.as_slice()), (answered.name, answered.text));
        assert_eq!((check(&case.text), replay(&case.text)), (answered.check, answered.printed.to_vec()));
    }
    assert!(container::read(&bytes[..bytes.len() - 1]).is_none());
}

#[test]
fn small_draws_have_every_refusal_and_every_sort() {
    let mut bytes = Vec::new();
    draw(1, 400).for_each(|case| container::write(&case, &mut bytes).unwrap());
    let tally = tally::of(&bytes);
    for number in ["1 T", "2 P", "3 P", "4 P", "5 P", "6 P", "7 P", "8 P", "9 D", "10 D", "11 D", "12 E"] {
        assert!(tally.contains(&format!("{number:>4}: ")), "{number} is missing");
    }
    for number in [14, 16, 17, 19, 20, 24] {
        assert!(tally.contains(&format!("{number} E: ")), "{number} is missing");
    }
    let drawn: Vec<Vec<u8>> = draw(1, 400).map(|case| case.text).collect();
    assert!(corners::forms().iter().all(|form| drawn.contains(&form.text)), "a form is missing");
    let sorts = |count| draw(1, count).map(|case| case.name).collect::<BTreeSet<String>>();
    let plain = |sorts: BTreeSet<String>| -> BTreeSet<String> {
        sorts.into_iter().filter(|sort| !sort.starts_with("checked")).collect()
    };
    assert_eq!(plain(sorts(400)), plain(sorts(3_000)));
}

#[test]
fn large_draws_have_the_whole_damage_block() {
    let front = draw(5, 5_000).zip(damages::all());
    assert!(front.into_iter().all(|(case, damage)| case.text == damage.text));
}

#[test]
fn same_seed_same_cases() {
    let texts = |seed| draw(seed, 200).map(|case| case.text).collect::<Vec<_>>();
    assert_eq!(texts(4), texts(4));
    assert_ne!(texts(4), texts(5));
}
