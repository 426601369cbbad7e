//! The worker: release, turn and calm.

use crate::bank::Bank;
use crate::demand::{admit, Refusal, Verdict};
use crate::promise::Ledger;
use crate::stream::{Stream, LAST_MOMENT};
use crate::text::Call;

/// How a turn ends for the job that had it.
#[derive(Clone, Copy, Debug, PartialEq)]
pub enum End {
    Going,
    Finished,
    Cut,
    Switch,
}

impl End {
    /// By the table: what was reported, and the units with this turn's.
    pub fn of(stream: &Stream, overrun: bool, done: bool, units: i64) -> End {
        let budget = if overrun { stream.certain } else { stream.budget };
        if done {
            End::Finished
        } else if units != budget {
            End::Going
        } else if !overrun && stream.critical && stream.certain > stream.budget {
            End::Switch
        } else {
            End::Cut
        }
    }
}

pub enum Answer {
    Took(i64),
    Ran(i64, End),
    Idle,
    Calm(i64),
}

#[derive(Clone, Copy, Debug, Default, PartialEq)]
pub struct Counts {
    pub accepted: i64,
    pub finished: i64,
    pub cut: i64,
    pub dropped: i64,
}

struct Job {
    release: i64,
    units: i64,
}

pub struct Engine {
    bank: Bank,
    jobs: Vec<Option<Job>>,
    moment: i64,
    overrun: bool,
    counts: Counts,
    ledger: Ledger,
}

impl Engine {
    pub fn start(streams: Vec<Stream>, moment: i64) -> Result<(Engine, Verdict), Refusal> {
        if moment > LAST_MOMENT {
            return Err(Refusal { number: 12, point: None });
        }
        let verdict = admit(&streams)?;
        let engine = Engine {
            jobs: streams.iter().map(|_| None).collect(),
            moment,
            overrun: false,
            counts: Counts::default(),
            ledger: Ledger::of(&streams),
            bank: Bank::begin(streams, moment),
        };
        Ok((engine, verdict))
    }

    /// After each call the promise is checked.
    pub fn call(&mut self, call: Call) -> Result<Answer, u8> {
        let answer = match call {
            Call::Release(number) => self.release(number),
            Call::Turn(done) => self.turn(done),
            Call::Calm => self.calm(),
        };
        self.ledger.check(&self.counts, self.waiting());
        answer
    }

    fn release(&mut self, number: i64) -> Result<Answer, u8> {
        let index = self.index(number).ok_or(14)?;
        if self.overrun && !self.bank.streams[index].critical {
            return Err(16);
        }
        if self.jobs[index].is_some() || !self.bank.open(index) {
            return Err(17);
        }
        self.bank.accept(index);
        self.jobs[index] = Some(Job { release: self.moment, units: 0 });
        self.counts.accepted += 1;
        self.ledger.released(index);
        Ok(Answer::Took(number))
    }

    fn turn(&mut self, done: bool) -> Result<Answer, u8> {
        if self.moment == LAST_MOMENT {
            return Err(24);
        }
        let runner = self.runner();
        self.ledger.settled(runner, done);
        self.bank.tick();
        self.moment += 1;
        Ok(match runner {
            None => Answer::Idle,
            Some(index) => Answer::Ran(index as i64 + 1, self.settle(index, done)),
        })
    }

    fn calm(&mut self) -> Result<Answer, u8> {
        if !self.overrun {
            return Err(20);
        }
        if self.waiting() > 0 {
            return Err(19);
        }
        self.overrun = false;
        self.ledger.calmed();
        Ok(Answer::Calm(self.moment))
    }

    /// The job with the least deadline, then the least stream number.
    fn runner(&self) -> Option<usize> {
        let deadline = |index: usize| {
            let stream = &self.bank.streams[index];
            let length = if self.overrun { stream.deadline } else { stream.short };
            self.jobs[index].as_ref().map(|job| (job.release + length, index))
        };
        (0..self.jobs.len()).filter_map(deadline).min().map(|(_, index)| index)
    }

    fn settle(&mut self, index: usize, done: bool) -> End {
        let job = self.jobs[index].as_mut().expect("the runner has a job");
        job.units += 1;
        let end = End::of(&self.bank.streams[index], self.overrun, done, job.units);
        match end {
            End::Going => {}
            End::Finished => {
                self.jobs[index] = None;
                self.counts.finished += 1;
            }
            End::Cut => {
                self.jobs[index] = None;
                self.counts.cut += 1;
            }
            End::Switch => self.switch(),
        }
        end
    }

    fn switch(&mut self) {
        self.overrun = true;
        for (stream, job) in self.bank.streams.iter().zip(&mut self.jobs) {
            if !stream.critical && job.take().is_some() {
                self.counts.dropped += 1;
            }
        }
    }

    fn index(&self, number: i64) -> Option<usize> {
        (1..=self.jobs.len() as i64).contains(&number).then(|| number as usize - 1)
    }

    pub fn counts(&self) -> Counts {
        self.counts
    }

    pub fn waiting(&self) -> i64 {
        self.jobs.iter().flatten().count() as i64
    }

    pub fn in_overrun(&self) -> bool {
        self.overrun
    }

    /// The numbers of the streams whose release would be taken now.
    pub fn takes(&self) -> Vec<i64> {
        let takes = |index: &usize| {
            let shed = self.overrun && !self.bank.streams[*index].critical;
            !shed && self.jobs[*index].is_none() && self.bank.open(*index)
        };
        (0..self.jobs.len()).filter(takes).map(|index| index as i64 + 1).collect()
    }
}
