//! Reading a text line by line, against the shapes that a line of its place may have.

use crate::stream::Stream;

/// In a shape `#` stands for a number.
const STREAM_SHAPES: [&str; 4] = [
    "(S H (# #) (# #) #)\n",
    "(S L (# #) (# #) #)\n",
    "(R H (# #) (# #) # #)\n",
    "(R L (# #) (# #) # #)\n",
];
const GO_SHAPE: &str = "(go #)\n";
const CALL_SHAPES: [&str; 4] = ["(release #)\n", "(turn yes)\n", "(turn no)\n", "(calm)\n"];
const MOST_DIGITS: usize = 13;

pub enum PlanLine {
    Stream(Stream),
    Go(i64),
}

#[derive(Clone, Copy, Debug, PartialEq)]
pub enum Call {
    Release(i64),
    Turn(bool),
    Calm,
}

impl Call {
    /// The script line, with its newline.
    pub fn line(&self) -> String {
        match self {
            Call::Release(stream) => format!("(release {stream})\n"),
            Call::Turn(true) => "(turn yes)\n".to_string(),
            Call::Turn(false) => "(turn no)\n".to_string(),
            Call::Calm => "(calm)\n".to_string(),
        }
    }
}

/// A byte out of shape, by its place from 1 in its line.
pub struct OutOfShape {
    pub byte: usize,
}

pub struct Reader<'a> {
    rest: &'a [u8],
    /// The line that was read last, or was out of shape.
    pub line: usize,
}

impl<'a> Reader<'a> {
    pub fn new(text: &'a [u8]) -> Reader<'a> {
        Reader { rest: text, line: 0 }
    }

    pub fn at_end(&self) -> bool {
        self.rest.is_empty()
    }

    /// A line of the plan; only replay's plan has a go line.
    pub fn plan_line(&mut self, with_go: bool) -> Result<PlanLine, OutOfShape> {
        let mut shapes = STREAM_SHAPES.to_vec();
        if with_go {
            shapes.push(GO_SHAPE);
        }
        let (shape, n) = self.shaped(&shapes)?;
        if shape == STREAM_SHAPES.len() {
            return Ok(PlanLine::Go(n[0]));
        }
        Ok(PlanLine::Stream(Stream {
            critical: shape % 2 == 0,
            budget: n[0],
            certain: n[1],
            short: n[2],
            deadline: n[3],
            gap: n[4],
            phase: n.get(5).copied(),
        }))
    }

    pub fn call(&mut self) -> Result<Call, OutOfShape> {
        let (shape, numbers) = self.shaped(&CALL_SHAPES)?;
        Ok(match shape {
            0 => Call::Release(numbers[0]),
            1 => Call::Turn(true),
            2 => Call::Turn(false),
            _ => Call::Calm,
        })
    }

    /// The first byte that no line of the place has there is the furthest of the
    /// bytes at which the shapes, each for itself, fail. A text that ends fails
    /// just behind its last byte.
    fn shaped(&mut self, shapes: &[&str]) -> Result<(usize, Vec<i64>), OutOfShape> {
        self.line += 1;
        let mut furthest = 0;
        for (index, shape) in shapes.iter().enumerate() {
            match matched(self.rest, shape.as_bytes()) {
                Ok((numbers, length)) => {
                    self.rest = &self.rest[length..];
                    return Ok((index, numbers));
                }
                Err(at) => furthest = furthest.max(at),
            }
        }
        Err(OutOfShape { byte: furthest + 1 })
    }
}

/// The numbers and the length of a line of this shape, or how many bytes fit.
fn matched(text: &[u8], shape: &[u8]) -> Result<(Vec<i64>, usize), usize> {
    let mut numbers = Vec::new();
    let mut at = 0;
    for &due in shape {
        if due == b'#' {
            let digits = number_length(&text[at..]);
            if digits == 0 {
                return Err(at);
            }
            numbers.push(value(&text[at..at + digits]));
            at += digits;
        } else if text.get(at) == Some(&due) {
            at += 1;
        } else {
            return Err(at);
        }
    }
    Ok((numbers, at))
}

/// How many bytes a number takes: a 0 stands alone, no number has a 14th digit.
fn number_length(text: &[u8]) -> usize {
    if text.first() == Some(&b'0') {
        return 1;
    }
    text.iter().take(MOST_DIGITS).take_while(|byte| byte.is_ascii_digit()).count()
}

fn value(digits: &[u8]) -> i64 {
    digits.iter().fold(0, |number, digit| number * 10 + i64::from(digit - b'0'))
}
