//! The damage block: every byte of every kind of line replaced, deleted, doubled,
//! and the text cut off behind it. It is the same for every seed.

use crate::container::Case;

/// Every kind of line once; with numbers of more digits, so that a lost digit
/// often leaves a plan that may run.
const WHOLE: &str = "\
(S H (2 4) (6 16) 20)
(S L (1 0) (10 10) 10)
(R H (1 2) (4 8) 40 13)
(R L (3 0) (20 20) 40 14)
(go 13)
(release 1)
(turn no)
(turn yes)
(turn no)
(calm)
";

const OTHERS: [u8; 5] = [b'0', b'7', b' ', b')', b'\n'];

pub fn all() -> Vec<Case> {
    (0..WHOLE.len()).flat_map(at).collect()
}

/// The damages of one byte.
fn at(place: usize) -> Vec<Case> {
    let byte = WHOLE.as_bytes()[place];
    let mut others = OTHERS.to_vec();
    others.extend([byte ^ 0x20, byte ^ 0x80]);
    others.retain(|&other| other != byte);
    let mut cases: Vec<Case> =
        others.iter().map(|&other| Case::new("damage-replaced", with(place, &[other]))).collect();
    cases.push(Case::new("damage-deleted", with(place, &[])));
    cases.push(Case::new("damage-doubled", with(place, &[byte, byte])));
    cases.push(Case::new("damage-cut", &WHOLE.as_bytes()[..=place]));
    cases
}

/// The text with other bytes in place of the one.
fn with(place: usize, bytes: &[u8]) -> Vec<u8> {
    let whole = WHOLE.as_bytes();
    [&whole[..place], bytes, &whole[place + 1..]].concat()
}
