//! The judge's own check of the promise, kept beside the worker: it sees the calls
//! that were not refused and whose turn a settle names, and nothing of the worker.

use crate::stream::Stream;
use crate::worker::{Counts, End};

/// A waiting job. One that has ended is only counted: how it ended is checked at
/// its end, and can no more change.
struct Entry {
    stream: usize,
    age: i64,
    units: i64,
}

pub struct Ledger {
    streams: Vec<Stream>,
    overrun: bool,
    entries: Vec<Entry>,
    counts: Counts,
}

impl Ledger {
    pub fn of(streams: &[Stream]) -> Ledger {
        Ledger { streams: streams.to_vec(), overrun: false, entries: Vec::new(), counts: Counts::default() }
    }

    pub fn released(&mut self, stream: usize) {
        self.counts.accepted += 1;
        self.entries.push(Entry { stream, age: 0, units: 0 });
    }

    pub fn calmed(&mut self) {
        self.overrun = false;
    }

    pub fn settled(&mut self, runner: Option<usize>, done: bool) {
        for entry in &mut self.entries {
            entry.age += 1;
        }
        let Some(runner) = runner else { return };
        let at = self.entries.iter().position(|entry| entry.stream == runner);
        let at = at.expect("a turn went to a stream without a job");
        let entry = &mut self.entries[at];
        entry.units += 1;
        match End::of(&self.streams[runner], self.overrun, done, entry.units) {
            End::Going => {}
            End::Switch => self.drop_background(),
            End::Finished => {
                self.counts.finished += 1;
                self.entries.swap_remove(at);
            }
            End::Cut => {
                self.counts.cut += 1;
                self.had_all(at);
                self.entries.swap_remove(at);
            }
        }
    }

    fn drop_background(&mut self) {
        self.overrun = true;
        let before = self.entries.len();
        self.entries.retain(|entry| self.streams[entry.stream].critical);
        self.counts.dropped += (before - self.entries.len()) as i64;
    }

    /// What is cut has had its units: C of a critical job, c of a background one.
    fn had_all(&self, at: usize) {
        let entry = &self.entries[at];
        let stream = &self.streams[entry.stream];
        let due = if stream.critical { stream.certain } else { stream.budget };
        assert_eq!(entry.units, due, "a job of stream {} was cut too early", entry.stream + 1);
    }

    /// A job that waits must be before its deadline: by the law before D, and by
    /// the reason given for the law also before V in normal mode.
    pub fn check(&self, counts: &Counts, waiting: i64) {
        for entry in &self.entries {
            let stream = &self.streams[entry.stream];
            let deadline = if self.overrun { stream.deadline } else { stream.short };
            assert!(entry.age < deadline, "a job of stream {} is late", entry.stream + 1);
        }
        let Counts { accepted, finished, cut, dropped } = *counts;
        assert_eq!(*counts, self.counts, "the counts differ from the ledger's");
        assert_eq!(waiting, self.entries.len() as i64, "waiting differs from the ledger's");
        assert_eq!(accepted, finished + cut + dropped + waiting, "jobs are lost");
    }
}
