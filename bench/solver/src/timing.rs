//! Times of short pieces of work: the best of many samples, and how far the middle one is from it.

use std::hint::black_box;
use std::time::{Duration, Instant};

/// A sample lasts at least this long, so that the clock's own time does not count.
const SAMPLE: Duration = Duration::from_micros(50);
const FEWEST: usize = 7;
const MOST: usize = 2000;

/// Something that is timed: each call does one piece of work, given what `prepare` made outside the clock.
pub struct Piece<'a> {
    run: Box<dyn FnMut(usize) -> Duration + 'a>,
    repeats: usize,
    samples: Vec<f64>,
}

impl<'a> Piece<'a> {
    pub fn new<P, R>(mut prepare: impl FnMut() -> P + 'a, mut work: impl FnMut(P) -> R + 'a) -> Self {
        let run = move |repeats: usize| {
            let prepared: Vec<P> = (0..repeats).map(|_| prepare()).collect();
            let mut results = Vec::with_capacity(repeats);
            let start = Instant::now();
            for given in prepared {
                results.push(black_box(work(black_box(given))));
            }
            // Results are dropped after the clock is read.
            start.elapsed()
        };
        let mut piece = Piece { run: Box::new(run), repeats: 1, samples: Vec::new() };
        let once = (piece.run)(1).max(Duration::from_nanos(20));
        piece.repeats = (SAMPLE.as_nanos() / once.as_nanos() + 1) as usize;
        piece
    }

    fn sample(&mut self) {
        let seconds = (self.run)(self.repeats).as_secs_f64() / self.repeats as f64;
        self.samples.push(seconds);
    }

    pub fn time(mut self) -> Time {
        self.samples.sort_by(f64::total_cmp);
        Time { best: self.samples[0], middle: self.samples[self.samples.len() / 2] }
    }
}

/// Seconds.
#[derive(Clone, Copy)]
pub struct Time {
    pub best: f64,
    pub middle: f64,
}

impl Time {
    /// How much slower the middle sample is than the best, in percent.
    pub fn spread(&self) -> f64 {
        100.0 * (self.middle / self.best - 1.0)
    }
}

/// Samples of all pieces in turn, so that what disturbs the machine disturbs them alike.
pub fn sample_in_turn(pieces: &mut [Piece<'_>], budget: Duration) {
    let start = Instant::now();
    let mut rounds = 0;
    while rounds < FEWEST || (rounds < MOST && start.elapsed() < budget) {
        pieces.iter_mut().for_each(Piece::sample);
        rounds += 1;
    }
}
