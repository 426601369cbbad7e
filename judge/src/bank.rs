//! The join of the two tables: the streams, and how long each still waits.

use crate::stream::Stream;

pub struct Bank {
    pub streams: Vec<Stream>,
    waits: Vec<i64>,
}

impl Bank {
    /// A raster stream waits for its phase, a sporadic one not at all.
    pub fn begin(streams: Vec<Stream>, moment: i64) -> Bank {
        let wait = |stream: &Stream| match stream.phase {
            Some(phase) => (phase - moment).rem_euclid(stream.gap),
            None => 0,
        };
        let waits = streams.iter().map(wait).collect();
        Bank { streams, waits }
    }

    pub fn tick(&mut self) {
        for (stream, wait) in self.streams.iter().zip(&mut self.waits) {
            *wait = match (*wait, stream.phase) {
                (0, None) => 0,
                (0, Some(_)) => stream.gap - 1,
                (wait, _) => wait - 1,
            };
        }
    }

    /// O(0) of the stream is 1.
    pub fn open(&self, index: usize) -> bool {
        self.waits[index] == 0
    }

    pub fn accept(&mut self, index: usize) {
        self.waits[index] = self.streams[index].gap;
    }
}
