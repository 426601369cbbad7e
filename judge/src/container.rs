//! The container of cases: a head line, the text, what replay prints, a newline.

use crate::answer::{check, replay};
use std::io::{self, Write};

/// A text with a word that tells its sort.
pub struct Case {
    pub name: String,
    pub text: Vec<u8>,
}

impl Case {
    pub fn new(name: impl Into<String>, text: impl Into<Vec<u8>>) -> Case {
        Case { name: name.into(), text: text.into() }
    }
}

/// A case with its answers, as it stands in a container.
#[derive(Debug, PartialEq)]
pub struct Answered<'a> {
    pub name: &'a str,
    pub text: &'a [u8],
    pub check: i64,
    pub printed: &'a [u8],
}

pub fn write(case: &Case, out: &mut impl Write) -> io::Result<()> {
    let printed = replay(&case.text);
    let (length, check) = (case.text.len(), check(&case.text));
    writeln!(out, "case {} {length} {check} {}", case.name, printed.len())?;
    out.write_all(&case.text)?;
    out.write_all(&printed)?;
    out.write_all(b"\n")
}

/// The cases of a container, or nothing if it is not one.
pub fn read(mut bytes: &[u8]) -> Option<Vec<Answered<'_>>> {
    let mut cases = Vec::new();
    while !bytes.is_empty() {
        let (case, rest) = read_case(bytes)?;
        cases.push(case);
        bytes = rest;
    }
    Some(cases)
}

fn read_case(bytes: &[u8]) -> Option<(Answered<'_>, &[u8])> {
    let end = bytes.iter().position(|&byte| byte == b'\n')?;
    let head = std::str::from_utf8(&bytes[..end]).ok()?;
    let items: Vec<&str> = head.split(' ').collect();
    let &["case", name, text_length, check, printed_length] = items.as_slice() else { return None };
    let (text, rest) = bytes[end + 1..].split_at_checked(text_length.parse().ok()?)?;
    let (printed, rest) = rest.split_at_checked(printed_length.parse().ok()?)?;
    let rest = rest.strip_prefix(b"\n")?;
    Some((Answered { name, text, check: check.parse().ok()?, printed }, rest))
}
