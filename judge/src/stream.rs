//! A stream as a plan line gives it, the limits of its numbers, and its ceiling.

pub const MOST_STREAMS: usize = 32;
pub const LONGEST_GAP: i64 = 65_535;
pub const LONGEST_HORIZON: i64 = 1_000_000;
pub const LAST_MOMENT: i64 = 1_000_000_000_000;
pub const LONGEST_TEXT: usize = 65_536;

/// One plan line. A stream is on a raster exactly if it has a phase.
#[derive(Clone, Copy, Debug, PartialEq)]
pub struct Stream {
    pub critical: bool,
    pub budget: i64,
    pub certain: i64,
    pub short: i64,
    pub deadline: i64,
    pub gap: i64,
    pub phase: Option<i64>,
}

fn within(low: i64, number: i64, high: i64) -> bool {
    low <= number && number <= high
}

impl Stream {
    /// The first limit that the numbers break, in the order 4, 5, 6, 7, 8.
    pub fn fault(&self) -> Option<u8> {
        let numbers = [
            (4, within(1, self.gap, LONGEST_GAP)),
            (5, within(1, self.deadline, self.gap)),
            (6, within(1, self.budget, self.deadline) && self.certain_fits()),
            (7, self.short_fits()),
            (8, self.phase.is_none_or(|phase| within(0, phase, self.gap - 1))),
        ];
        numbers.iter().find(|(_, kept)| !kept).map(|(number, _)| *number)
    }

    fn certain_fits(&self) -> bool {
        if self.critical {
            within(self.budget, self.certain, self.deadline)
        } else {
            self.certain == 0
        }
    }

    fn short_fits(&self) -> bool {
        if self.critical {
            within(self.budget, self.short, self.deadline)
        } else {
            self.short == self.deadline
        }
    }

    /// N(m): 0 below 0, else floor(m / T) + 1.
    pub fn ceiling(&self, m: i64) -> i64 {
        if m < 0 { 0 } else { m / self.gap + 1 }
    }

    /// D − V.
    pub fn slack(&self) -> i64 {
        self.deadline - self.short
    }

    /// The plan line, with its newline.
    pub fn line(&self) -> String {
        let letter = if self.phase.is_some() { 'R' } else { 'S' };
        let kind = if self.critical { 'H' } else { 'L' };
        let phase = self.phase.map_or(String::new(), |phase| format!(" {phase}"));
        format!(
            "({letter} {kind} ({} {}) ({} {}) {}{phase})\n",
            self.budget, self.certain, self.short, self.deadline, self.gap
        )
    }
}
