//! What check answers and what replay prints.

use crate::demand::{admit, Point, Refusal, Verdict};
use crate::stream::{Stream, LONGEST_TEXT, MOST_STREAMS};
use crate::text::{OutOfShape, PlanLine, Reader};
use crate::worker::{Answer, End, Engine};

/// Whether the 33rd stream of the whole plan is refused at its line, or only the
/// 33rd of one table. The documentation can be read in both ways (UNCLEAR.md, 1).
const COUNT_THE_WHOLE_PLAN: bool = true;

struct Fault {
    number: u8,
    layer: char,
    line: usize,
    byte: usize,
    point: Option<Point>,
}

impl Fault {
    fn of_shape(shape: OutOfShape, line: usize) -> Fault {
        Fault { number: 1, layer: 'T', line, byte: shape.byte, point: None }
    }

    fn at(number: u8, layer: char, line: usize) -> Fault {
        Fault { number, layer, line, byte: 0, point: None }
    }

    fn of_start(refusal: Refusal, line: usize) -> Fault {
        let layer = if refusal.number == 12 { 'E' } else { 'D' };
        Fault { point: refusal.point, ..Fault::at(refusal.number, layer, line) }
    }

    fn text(&self) -> String {
        let point = self.point.map_or(String::new(), |point| format!(" {}", point.text()));
        format!("(refused {} {} ({} {}){point})\n", self.number, self.layer, self.line, self.byte)
    }
}

/// 0, or the number of the refusal.
pub fn check(text: &[u8]) -> i64 {
    let plan = check_plan(&mut Reader::new(text));
    match plan.map(|streams| admit(&streams)) {
        Ok(Ok(_)) => 0,
        Ok(Err(refusal)) => i64::from(refusal.number),
        Err(fault) => i64::from(fault.number),
    }
}

fn check_plan(reader: &mut Reader) -> Result<Vec<Stream>, Fault> {
    let mut streams = Vec::new();
    while !reader.at_end() {
        plan_line(reader, &mut streams, false)?;
    }
    Ok(streams)
}

/// The next line of a plan; the moment if it was the go line.
fn plan_line(reader: &mut Reader, streams: &mut Vec<Stream>, with_go: bool) -> Result<Option<i64>, Fault> {
    let line = reader.plan_line(with_go).map_err(|shape| Fault::of_shape(shape, reader.line))?;
    let stream = match line {
        PlanLine::Go(moment) => return Ok(Some(moment)),
        PlanLine::Stream(stream) => stream,
    };
    match refused(streams, &stream) {
        Some(number) => Err(Fault::at(number, 'P', reader.line)),
        None => {
            streams.push(stream);
            Ok(None)
        }
    }
}

/// A 33rd stream, then the order, then the numbers.
fn refused(streams: &[Stream], next: &Stream) -> Option<u8> {
    let on_raster = |stream: &Stream| stream.phase.is_some();
    let beside = |stream: &&Stream| COUNT_THE_WHOLE_PLAN || on_raster(stream) == on_raster(next);
    if streams.iter().filter(beside).count() >= MOST_STREAMS {
        Some(2)
    } else if !on_raster(next) && streams.iter().any(on_raster) {
        Some(3)
    } else {
        next.fault()
    }
}

/// The bytes that replay prints; of too long a text none.
pub fn replay(text: &[u8]) -> Vec<u8> {
    let mut printed = String::new();
    if text.len() <= LONGEST_TEXT {
        if let Err(fault) = run(text, &mut printed) {
            printed += &fault.text();
        }
    }
    printed.into_bytes()
}

/// A fault ends the run; what was printed before it stays.
fn run(text: &[u8], printed: &mut String) -> Result<(), Fault> {
    let mut reader = Reader::new(text);
    let mut streams = Vec::new();
    let moment = loop {
        if let Some(moment) = plan_line(&mut reader, &mut streams, true)? {
            break moment;
        }
    };
    let started = Engine::start(streams, moment);
    let (mut engine, verdict) = started.map_err(|refusal| Fault::of_start(refusal, reader.line))?;
    *printed += &accepted(&verdict);
    while !reader.at_end() {
        let call = reader.call().map_err(|shape| Fault::of_shape(shape, reader.line))?;
        *printed += &match engine.call(call) {
            Ok(answer) => answer_text(&answer),
            Err(number) => Fault::at(number, 'E', reader.line).text(),
        };
    }
    *printed += &total(&engine);
    Ok(())
}

/// The lengths looked at are those from 0 to the horizon.
fn accepted(verdict: &Verdict) -> String {
    let Verdict { horizon, nearest } = verdict;
    format!("(accepted {horizon} {} {})\n", horizon + 1, nearest.text())
}

fn answer_text(answer: &Answer) -> String {
    match answer {
        Answer::Took(stream) => format!("(took {stream})\n"),
        Answer::Idle => "(ran 0 idle)\n".to_string(),
        Answer::Calm(moment) => format!("(calm {moment})\n"),
        Answer::Ran(stream, end) => {
            let end = match end {
                End::Going => "going",
                End::Finished => "finished",
                End::Cut => "cut",
                End::Switch => "switch",
            };
            format!("(ran {stream} {end})\n")
        }
    }
}

fn total(engine: &Engine) -> String {
    let counts = engine.counts();
    format!(
        "(total {} {} {} {} {})\n",
        counts.accepted, counts.finished, counts.cut, counts.dropped, engine.waiting()
    )
}
