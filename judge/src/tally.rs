//! Counts the cases of a container, and answers each of them once more.

use crate::answer::{check, replay};
use crate::container::{read, Answered};
use std::collections::BTreeMap;

type Counts = BTreeMap<String, usize>;

pub fn of(container: &[u8]) -> String {
    let Some(cases) = read(container) else { return "this is no container\n".to_string() };
    let (mut sorts, mut checks, mut numbers) = (Counts::new(), Counts::new(), Counts::new());
    for case in &cases {
        assert!(answers_agree(case), "another answer to a case of sort {}", case.name);
        count(&mut sorts, case.name);
        count(&mut checks, &format!("{:2}", case.check));
        for number in refusals(case.printed) {
            count(&mut numbers, &number);
        }
    }
    format!(
        "{} cases\nby sort\n{}by what check answers\n{}by refusal that replay prints, in so many cases\n{}",
        cases.len(), table(&sorts), table(&checks), table(&numbers)
    )
}

fn answers_agree(case: &Answered) -> bool {
    check(case.text) == case.check && replay(case.text) == case.printed
}

fn count(counts: &mut Counts, name: &str) {
    *counts.entry(name.to_string()).or_default() += 1;
}

/// The number and the layer of each refusal, once.
fn refusals(printed: &[u8]) -> Vec<String> {
    let printed = String::from_utf8_lossy(printed);
    let refused = printed.lines().filter_map(|line| line.strip_prefix("(refused "));
    let number = |line: &str| {
        let mut items = line.split(' ');
        format!("{:>2} {}", items.next().unwrap_or(""), items.next().unwrap_or(""))
    };
    let mut numbers: Vec<String> = refused.map(number).collect();
    numbers.sort();
    numbers.dedup();
    numbers
}

fn table(counts: &Counts) -> String {
    counts.iter().map(|(name, count)| format!("  {name}: {count}\n")).collect()
}
