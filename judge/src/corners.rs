//! Fixed cases: limits, digits, refusals and forms of text.

use crate::container::Case;
use crate::stream::Stream;

const PLAN: &str = "(S H (2 4) (2 6) 6)\n(S L (3 0) (6 6) 6)\n";

/// c, C, V, D, T of critical streams: each number at its edges and beyond.
const CRITICAL: [[i64; 5]; 28] = [
    [1, 1, 1, 1, 0], [1, 1, 1, 1, 1], [3, 5, 6, 10, 65_535], [3, 5, 6, 10, 65_536],
    [3, 5, 6, 10, 9], [3, 5, 6, 10, 10], [3, 5, 6, 10, 11], [65_535, 65_535, 65_535, 65_535, 65_535],
    [1, 1, 1, 0, 20], [1, 1, 1, 1, 20], [3, 5, 6, 20, 20], [3, 5, 6, 21, 20],
    [0, 5, 6, 10, 20], [1, 5, 6, 10, 20], [5, 5, 6, 10, 20], [6, 6, 6, 10, 20], [7, 7, 6, 10, 20],
    [10, 10, 10, 10, 20], [11, 11, 11, 10, 20],
    [3, 2, 6, 10, 20], [3, 3, 6, 10, 20], [3, 10, 5, 10, 20], [3, 11, 6, 10, 20], [3, 0, 6, 10, 20],
    [3, 5, 2, 10, 20], [3, 5, 3, 10, 20], [3, 3, 10, 10, 20], [3, 5, 11, 10, 20],
];

const BACKGROUND: [[i64; 5]; 13] = [
    [3, 0, 10, 10, 20], [3, 1, 10, 10, 20], [3, 3, 10, 10, 20], [3, 0, 9, 10, 20], [3, 0, 11, 10, 20],
    [3, 0, 3, 10, 20], [0, 0, 10, 10, 20], [1, 0, 1, 1, 1], [10, 0, 10, 10, 20], [11, 0, 10, 10, 20],
    [3, 0, 20, 20, 20], [3, 0, 21, 21, 20], [3, 0, 10, 10, 65_536],
];

/// Each with and without a go line: check knows no go line.
pub fn limits() -> Vec<Case> {
    let kinds = CRITICAL.map(|numbers| (true, numbers)).into_iter();
    let kinds = kinds.chain(BACKGROUND.map(|numbers| (false, numbers)));
    let mut cases = Vec::new();
    for (critical, [budget, certain, short, deadline, gap]) in kinds {
        for phase in [None, Some(0), Some(gap - 1), Some(gap)] {
            if phase.is_some_and(|phase| phase < 0) {
                continue;
            }
            let line = Stream { critical, budget, certain, short, deadline, gap, phase }.line();
            cases.push(Case::new("limit", line.as_str()));
            cases.push(Case::new("limit", format!("{line}(go 7)\n(release 1)\n(turn no)\n")));
        }
    }
    cases
}

const DIGITS: [&str; 19] = [
    "", "0", "00", "01", "007", "1", "9", "-1", "+1", "65535", "65536", "4294967297", "1000000000000",
    "1000000000001", "1234567890123", "9999999999999", "12345678901234", "00000000000001",
    "18446744073709551617",
];

/// Every place of a number with every one of those digits.
pub fn digits() -> Vec<Case> {
    let texts = [
        "(S H (# #) (# #) #)\n(go 0)\n(release 1)\n",
        "(R H (# #) (# #) # #)\n(go 0)\n(release 1)\n",
        "(S L (1 0) (9 9) 9)\n(go #)\n(release #)\n(turn no)\n",
    ];
    let usual = ["2 4 3 8 8", "2 4 3 8 8 0", "0 1"];
    let mut cases = Vec::new();
    for (text, usual) in texts.iter().zip(usual) {
        let usual: Vec<&str> = usual.split(' ').collect();
        for place in 0..usual.len() {
            for digits in DIGITS {
                let mut numbers = usual.clone();
                numbers[place] = digits;
                cases.push(Case::new("digits", filled(text, &numbers)));
            }
        }
    }
    cases
}

fn filled(text: &str, numbers: &[&str]) -> String {
    numbers.iter().fold(text.to_string(), |text, number| text.replacen('#', number, 1))
}

/// Every number that a text can bring about, in its variants.
pub fn refusals() -> Vec<Case> {
    let mut cases = plan_refusals();
    cases.extend(start_refusals());
    cases.extend(call_refusals());
    cases
}

fn refusal(number: u8, text: impl Into<Vec<u8>>) -> Case {
    Case::new(format!("refusal-{number}"), text)
}

fn plan_refusals() -> Vec<Case> {
    let line = "(S H (2 4) (2 6) 6)\n";
    let small = "(S L (1 0) (99 99) 99)\n";
    let raster = "(R L (1 0) (99 99) 99 98)\n";
    let whole = |number, lines: String| refusal(number, format!("{lines}(go 0)\n(turn no)\n"));
    let after_plan = |number, line: &str| whole(number, format!("{PLAN}{line}"));
    vec![
        refusal(1, format!("{line}(stop)\n")),
        whole(2, small.repeat(33)),
        whole(2, raster.repeat(33)),
        whole(2, small.repeat(31) + &raster.repeat(2)),
        whole(2, small.repeat(12) + &raster.repeat(22)),
        whole(2, small.repeat(16) + &raster.repeat(16) + small),
        whole(3, format!("{raster}{small}")),
        whole(3, format!("{line}{raster}(S L (9 9) (9 9) 0)\n")),
        after_plan(4, "(S H (2 4) (2 6) 0)\n"),
        after_plan(5, "(S H (2 4) (2 7) 6)\n"),
        after_plan(6, "(S H (2 1) (2 6) 6)\n"),
        after_plan(6, "(S L (2 2) (6 6) 6)\n"),
        after_plan(7, "(S H (2 4) (1 6) 6)\n"),
        after_plan(7, "(S L (3 0) (5 6) 6)\n"),
        after_plan(8, "(R H (2 4) (2 6) 6 6)\n"),
    ]
}

/// Those of admission with and without a go line, for replay and for check.
fn start_refusals() -> Vec<Case> {
    let plans = [
        (9, ""),
        (10, "(S L (1 0) (1000 1000) 1000)\n(S L (1 0) (1001 1001) 1001)\n"),
        (10, "(S L (65535 0) (65535 65535) 65535)\n(S L (65534 0) (65534 65534) 65534)\n"),
        (11, "(S L (4 0) (4 4) 6)\n(S L (3 0) (6 6) 6)\n"),
        (11, "(S H (1 2) (6 6) 6)\n"),
        (11, "(S H (2 3) (2 3) 3)\n(S H (1 1) (9 9) 9)\n"),
        (11, "(S H (1 2) (1 2) 3)\n(S H (1 2) (2 3) 3)\n"),
        (11, "(S L (500 0) (999 999) 999)\n(S L (501 0) (1001 1001) 1001)\n"),
    ];
    let mut cases = Vec::new();
    for (number, plan) in plans {
        cases.push(refusal(number, plan));
        cases.push(refusal(number, format!("{plan}(go 0)\n(turn no)\n")));
    }
    for plan in [PLAN, "", plans[1].1, plans[3].1] {
        cases.push(refusal(12, format!("{plan}(go 1000000000001)\n(turn no)\n")));
    }
    cases
}

fn call_refusals() -> Vec<Case> {
    let raster = "(S L (1 0) (9 9) 9)\n(R H (2 3) (4 8) 9 5)\n";
    let run = |number, plan: &str, script: &str| {
        let calls = script.replace('|', ")\n(");
        refusal(number, format!("{plan}(go 13)\n({calls})\n(turn yes)\n"))
    };
    let last = |number, script: &str| {
        let calls = script.replace('|', ")\n(");
        refusal(number, format!("{PLAN}(go 999999999999)\n({calls})\n(turn yes)\n"))
    };
    let overrun = "release 1|release 2|turn no|turn no";
    vec![
        run(14, PLAN, "release 3|release 0|release 33|release 9999999999999|release 1"),
        run(14, PLAN, "release 1|turn no|turn no|release 3"),
        run(16, PLAN, &format!("{overrun}|release 2|release 1|turn yes|release 2|calm|release 2")),
        run(16, PLAN, "release 2|release 1|turn no|turn no|turn no|turn no|turn no|turn no|release 2"),
        run(17, PLAN, "release 1|release 1"),
        run(17, PLAN, "release 1|turn yes|release 1|turn no|turn no|turn no|turn no|release 1|turn no|release 1"),
        run(17, raster, "release 2|turn no|release 2|release 2"),
        run(17, raster, "turn no|release 2|turn yes|turn no|release 2|release 1|turn no|release 2"),
        run(19, PLAN, &format!("{overrun}|calm|turn no|calm|turn no|calm|calm")),
        run(20, PLAN, "calm|release 1|calm|turn no|calm|turn yes|calm"),
        last(24, "turn no|turn no|release 1|turn yes|calm|release 1|release 2|release 3"),
        last(24, "release 1|turn no|turn no|turn yes"),
        last(24, "release 2|turn yes|release 2|turn no|turn yes"),
    ]
}

/// Forms of text.
pub fn forms() -> Vec<Case> {
    let good = format!("{PLAN}(go 0)\n(release 1)\n(turn no)\n");
    let mut texts: Vec<Vec<u8>> = spaced(&good).into_iter().chain(misplaced(&good)).map(String::into_bytes).collect();
    texts.push(format!("\u{feff}{good}").into());
    texts.extend((128..=255).step_by(9).map(|byte| [good.as_bytes(), &[byte], b"\n"].concat()));
    texts.into_iter().map(|text| Case::new("form", text)).collect()
}

/// Blanks, newlines and letters that are not as they should be.
fn spaced(good: &str) -> Vec<String> {
    vec![
        good.trim_end().to_string(),
        good.replace('\n', "\r\n"),
        good.replace('\n', "\r"),
        good.replace(' ', "\t"),
        good.replace(' ', "  "),
        good.replace(')', " )"),
        good.replace('\n', " \n"),
        good.replace('\n', "\n\n"),
        good.replace(")\n(", ")("),
        good.to_lowercase(),
        good.to_uppercase(),
        format!("\n{good}"),
        format!("{good}\n"),
        format!("{good}\r\n"),
        format!("{good}\t(calm)\n"),
        format!("{good} "),
        format!("{good}\0"),
        format!("{good}(turn no)x\n(calm)\n"),
    ]
}

/// Lines that are missing, or in another place than theirs.
fn misplaced(good: &str) -> Vec<String> {
    let alone = ["", "\n", "(", "(go 0)", "(go 0)\n", "(go 0)\n\n", "(calm)\n", "(S H (0 4) (2 6) 6)", "(S X (2 4) (2 6) 6)\n"];
    let behind_plan = [
        "", "(go 0)\n", "(release 1)\n(go 0)\n", "; nothing\n(go 0)\n", "(go 0)\n(turn maybe)\n", "(go 0)\n(turn)\n",
        "(go 0)\n(calm 1)\n", "(go 0)\n(release 1 2)\n", "(go 0)\n(release)\n", "(go 0)\n(turn no)",
        "(S H (2 4) (2 6) 6 0)\n(go 0)\n", "(R H (2 4) (2 6) 6)\n(go 0)\n", "(R H (2 4) (2 6) 6 0 0)\n(go 0)\n",
    ];
    let mut texts: Vec<String> = alone.map(String::from).to_vec();
    texts.extend(behind_plan.map(|lines| format!("{PLAN}{lines}")));
    texts.extend(["(go 0)\n", PLAN].map(|lines| format!("{good}{lines}")));
    texts
}
