//! Drawing scripts along a run of the worker, so that most calls come to something.

use crate::rng::Rng;
use crate::stream::Stream;
use crate::text::Call;
use crate::worker::Engine;

/// Chances in percent.
#[derive(Clone, Copy)]
pub struct Habits {
    /// a turn ends its job
    pub yes: i64,
    /// a stream that can be released is, before the next turn
    pub release: i64,
    /// calm is called where it is possible
    pub calm: i64,
    /// any call, mostly one that is refused
    pub odd: i64,
}

pub const HABITS: [(&str, Habits); 8] = [
    ("no", Habits { yes: 0, release: 90, calm: 90, odd: 2 }),
    ("few", Habits { yes: 10, release: 95, calm: 60, odd: 5 }),
    ("third", Habits { yes: 33, release: 80, calm: 50, odd: 5 }),
    ("half", Habits { yes: 50, release: 60, calm: 90, odd: 10 }),
    ("most", Habits { yes: 80, release: 90, calm: 30, odd: 5 }),
    ("yes", Habits { yes: 100, release: 70, calm: 50, odd: 5 }),
    ("lazy", Habits { yes: 5, release: 20, calm: 95, odd: 2 }),
    ("odd", Habits { yes: 25, release: 70, calm: 70, odd: 50 }),
];

/// The longest line that is drawn before the end is filled.
const LONGEST_LINE: usize = "(release 9999999999999)\n".len();

pub struct Script {
    engine: Option<Engine>,
    streams: i64,
    pub lines: String,
}

impl Script {
    /// Of a plan that is refused there is no worker to go by; a stream beyond its
    /// limits must not even come to admission.
    pub fn of(streams: &[Stream], moment: i64) -> Script {
        let sound = streams.iter().all(|stream| stream.fault().is_none());
        let started = sound.then(|| Engine::start(streams.to_vec(), moment).ok()).flatten();
        let engine = started.map(|(engine, _)| engine);
        Script { engine, streams: streams.len() as i64, lines: String::new() }
    }

    pub fn draw(mut self, rng: &mut Rng, habits: Habits, calls: usize) -> String {
        for _ in 0..calls {
            self.add(rng, habits);
        }
        self.lines
    }

    /// As many calls as fit, filled up to exactly so many bytes by two releases of
    /// which the second has as many digits as are left for it.
    pub fn filled(mut self, rng: &mut Rng, habits: Habits, bytes: usize) -> String {
        let filler = |digits: usize| format!("(release {})\n", "4".repeat(digits));
        let least = filler(1).len();
        while bytes - self.lines.len() >= 2 * least + LONGEST_LINE {
            self.add(rng, habits);
        }
        while bytes - self.lines.len() >= 3 * least {
            self.lines += &filler(1);
        }
        self.lines += &filler(1);
        let left = bytes - self.lines.len();
        self.lines += &filler(1 + left - least);
        self.lines
    }

    fn add(&mut self, rng: &mut Rng, habits: Habits) {
        let call = self.next(rng, habits);
        self.lines += &call.line();
        if let Some(engine) = &mut self.engine {
            let _ = engine.call(call);
        }
    }

    fn next(&self, rng: &mut Rng, habits: Habits) -> Call {
        let Some(engine) = &self.engine else { return self.odd(rng) };
        if rng.chance(habits.odd) {
            return self.odd(rng);
        }
        if engine.in_overrun() && engine.waiting() == 0 && rng.chance(habits.calm) {
            return Call::Calm;
        }
        let takes = engine.takes();
        if !takes.is_empty() && rng.chance(habits.release) {
            return Call::Release(rng.pick(&takes));
        }
        Call::Turn(rng.chance(habits.yes))
    }

    fn odd(&self, rng: &mut Rng) -> Call {
        match rng.below(10) {
            0 => Call::Calm,
            1 => Call::Turn(rng.chance(50)),
            2 => Call::Release(self.streams + 1),
            3 => Call::Release(rng.pick(&[0, 31, 32, 33, 34, 256, 65_537, 4_294_967_297, 9_999_999_999_999])),
            _ => Call::Release(rng.range(1, self.streams)),
        }
    }
}
