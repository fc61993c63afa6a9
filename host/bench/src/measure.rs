//! Times of calls, taken in turns, so that other work on the machine slows all of them.

use std::hint::black_box;
use std::time::{Duration, Instant};

use crate::problems::Size;

/// How long to measure, and how large the tables are.
#[derive(Debug, Clone, Copy)]
pub struct Effort {
    /// A turn of one call takes at least so long.
    pub turn: Duration,
    /// At most so many turns, at least the second number of them, and no more than fit into the time.
    pub turns: (usize, usize),
    pub all_turns: Duration,
    /// Numbers of names.
    pub sizes: [usize; 3],
    /// Problems to solve.
    pub problems: [Size; 3],
    /// Hostile problems go to the limits divided by this.
    pub hostile_part: u64,
}

impl Effort {
    pub const FULL: Self = Self {
        turn: Duration::from_micros(500),
        turns: (150, 5),
        all_turns: Duration::from_millis(600),
        sizes: [50, 200, 1000],
        problems: [
            Size::new(50, 30, 90, 60),
            Size::new(300, 200, 600, 400),
            Size::new(1024, 512, 2000, 2048),
        ],
        hostile_part: 1,
    };

    /// Next to nothing: to see that all of it runs.
    #[cfg(test)]
    pub const LEAST: Self = Self {
        turn: Duration::from_nanos(1),
        turns: (1, 1),
        all_turns: Duration::ZERO,
        sizes: [12, 18, 24],
        problems: [
            Size::new(12, 4, 8, 6),
            Size::new(18, 8, 20, 10),
            Size::new(24, 20, 60, 50),
        ],
        hostile_part: 32,
    };
}

/// Nanoseconds a call: the best turn, the middle one, and the one that nine in ten were below.
#[derive(Debug, Clone, Copy, PartialEq)]
pub struct Times {
    pub best: f64,
    pub middle: f64,
    pub most: f64,
}

impl Times {
    fn of(mut turns: Vec<f64>) -> Self {
        turns.sort_by(f64::total_cmp);
        let at = |part: usize| turns[(turns.len() - 1) * part / 10];
        Self {
            best: at(0),
            middle: at(5),
            most: at(9),
        }
    }

    /// Of one turn.
    pub fn once(took: f64) -> Self {
        Self::of(vec![took])
    }

    /// The same, each so many times as long.
    pub fn scaled(self, factor: f64) -> Self {
        Self {
            best: self.best * factor,
            middle: self.middle * factor,
            most: self.most * factor,
        }
    }
}

/// A call as the clock takes it: that many times.
pub fn repeated<T>(mut call: impl FnMut() -> T) -> impl FnMut(u64) {
    move |times| {
        for _ in 0..times {
            black_box(&call());
        }
    }
}

/// The times of these calls, which take turns.
pub fn in_turns<const N: usize>(effort: Effort, calls: [&mut dyn FnMut(u64); N]) -> [Times; N] {
    let mut timed = calls.map(|call| {
        let (times, took) = enough(effort.turn, call);
        (call, times, took, Vec::new())
    });
    let round: Duration = timed.iter().map(|(_, _, took, _)| *took).sum();
    let fit = effort.all_turns.as_nanos() / round.as_nanos().max(1);
    let (most, least) = effort.turns;
    for _ in 0..(fit as usize).clamp(least, most) {
        for (call, times, _, turns) in &mut timed {
            let took = time(*times, call);
            turns.push(took.as_nanos() as f64 / *times as f64);
        }
    }
    timed.map(|(_, _, _, turns)| Times::of(turns))
}

/// How many calls take at least that long, and what they took.
fn enough(length: Duration, call: &mut dyn FnMut(u64)) -> (u64, Duration) {
    let mut times = 1;
    let mut took = time(times, call);
    while took < length {
        times *= 2;
        took = time(times, call);
    }
    (times, took)
}

fn time(times: u64, call: &mut dyn FnMut(u64)) -> Duration {
    let start = Instant::now();
    call(times);
    start.elapsed()
}

/// A row of a table: the Rust of docs/src, the boundary over slices, and the wrapper.
#[derive(Debug, Clone)]
pub struct Row {
    pub what: String,
    pub rust: Times,
    pub boundary: Times,
    pub wrapper: Times,
}

impl Row {
    pub fn of<R, B, W>(
        effort: Effort,
        what: impl Into<String>,
        rust: impl FnMut() -> R,
        boundary: impl FnMut() -> B,
        wrapper: impl FnMut() -> W,
    ) -> Self {
        let calls: [&mut dyn FnMut(u64); 3] = [
            &mut repeated(rust),
            &mut repeated(boundary),
            &mut repeated(wrapper),
        ];
        let [rust, boundary, wrapper] = in_turns(effort, calls);
        Self {
            what: what.into(),
            rust,
            boundary,
            wrapper,
        }
    }

    /// The Rust's time divided by the boundary's, and by the wrapper's: above 1 is faster than the Rust.
    pub fn ratios(&self) -> [f64; 2] {
        [self.boundary, self.wrapper].map(|ours| self.rust.best / ours.best)
    }
}
