//! Rounds in which the sides take turns on the same work.

use std::{
    array,
    hint::black_box,
    time::{Duration, Instant},
};

/// The most rounds of a measurement. It ends earlier when its time is over, but
/// not before the fewest rounds.
#[derive(Clone, Copy)]
pub struct Rounds(pub usize);

const FEWEST: usize = 5;

const TIME: Duration = Duration::from_secs(1);

/// Nanoseconds of the same work on both sides.
#[derive(Clone, Copy)]
pub struct Times {
    pub original: f64,
    pub port: f64,
}

impl Times {
    /// Port / original.
    pub fn ratio(self) -> f64 {
        self.port / self.original
    }

    /// The time of one of so many calls.
    pub fn per(self, calls: usize) -> Self {
        Times {
            original: self.original / calls as f64,
            port: self.port / calls as f64,
        }
    }
}

/// Nanoseconds of some work. What it gives is dropped when the clock has stopped.
pub fn timed<R>(work: impl FnOnce() -> R) -> f64 {
    let start = Instant::now();
    let result = black_box(work());
    let time = start.elapsed();
    drop(result);
    time.as_secs_f64() * 1e9
}

/// The medians of both sides, which take turns.
pub fn by_turns(
    rounds: Rounds,
    mut original: impl FnMut() -> f64,
    mut port: impl FnMut() -> f64,
) -> Times {
    let [original, port] = medians(rounds, |_| [original(), port()]);
    Times { original, port }
}

/// The median of each time that a round gives. A round is told its number.
pub fn medians<const N: usize>(rounds: Rounds, round: impl FnMut(usize) -> [f64; N]) -> [f64; N] {
    let start = Instant::now();
    let is_over = |at| at >= FEWEST && start.elapsed() > TIME;
    let numbers = (0..rounds.0).take_while(|at| !is_over(*at));
    let times: Vec<_> = numbers.map(round).collect();
    array::from_fn(|work| median(times.iter().map(|times| times[work]).collect()))
}

fn median(mut times: Vec<f64>) -> f64 {
    times.sort_by(f64::total_cmp);
    times[times.len() / 2]
}

#[cfg(test)]
mod tests {
    use super::{medians, Rounds};

    /// The median and not the mean, of each work by itself.
    #[test]
    fn each_work_has_its_median() {
        let times = [[1., 5.], [100., 4.], [3., 6.]];
        assert_eq!(medians(Rounds(3), |round| times[round]), [3., 5.]);
    }
}
