//! Times of two implementations on the same input, and how far their ratio spreads.

use std::time::{Duration, Instant};

/// A round lasts at least so long on each side, so that the clock's steps do not count.
const ROUND: Duration = Duration::from_millis(2);
/// A block has at least so many rounds and lasts at least so long. Its times are the shortest of
/// its rounds.
const ROUNDS: usize = 3;
const BLOCK: Duration = Duration::from_millis(40);
/// The blocks, the last ones, whose ratios are looked at.
const BLOCKS: usize = 5;
/// The spread at which a measurement is good enough.
const SPREAD: f64 = 0.05;

/// How long one measurement may be repeated.
#[derive(Clone, Copy)]
pub enum Budget {
    UpTo(Duration),
    /// Two rounds, to see that all runs.
    Short,
}

/// Two sides measured in turn.
#[derive(Clone, Copy, Debug)]
pub struct Times {
    /// The shortest time of one run of each, in seconds.
    pub first: f64,
    pub second: f64,
    /// The median of the last blocks' ratios, first to second.
    pub ratio: f64,
    /// The range of these ratios, as a part of their median.
    pub spread: f64,
}

impl Budget {
    /// Runs both in turn, block by block, until the ratio's spread is small or the budget is used.
    pub fn measure(self, mut first: impl FnMut(), mut second: impl FnMut()) -> Times {
        let repeats = [repeats(&mut first), repeats(&mut second)];
        let mut round = || [timed(&mut first, repeats[0]), timed(&mut second, repeats[1])];
        let begin = Instant::now();
        let mut blocks = Vec::new();
        let mut best = [f64::INFINITY; 2];
        loop {
            let times = match self {
                Budget::Short => round(),
                Budget::UpTo(_) => block(&mut round),
            };
            best = shorter(best, times);
            blocks.push(times[0] / times[1]);
            let last = &blocks[blocks.len().saturating_sub(BLOCKS)..];
            let done = match self {
                Budget::Short => blocks.len() >= 2,
                Budget::UpTo(time) => {
                    blocks.len() >= BLOCKS && (spread(last) <= SPREAD || begin.elapsed() > time)
                }
            };
            if done {
                return Times {
                    first: best[0],
                    second: best[1],
                    ratio: median(last),
                    spread: spread(last),
                };
            }
        }
    }
}

/// The shortest times of some rounds.
fn block(round: &mut impl FnMut() -> [f64; 2]) -> [f64; 2] {
    let begin = Instant::now();
    let mut best = [f64::INFINITY; 2];
    let mut rounds = 0;
    while rounds < ROUNDS || begin.elapsed() < BLOCK {
        best = shorter(best, round());
        rounds += 1;
    }
    best
}

fn shorter(one: [f64; 2], other: [f64; 2]) -> [f64; 2] {
    [one[0].min(other[0]), one[1].min(other[1])]
}

/// How often a round repeats a run.
fn repeats(run: &mut impl FnMut()) -> u32 {
    let once = timed(run, 1).max(1e-9);
    (ROUND.as_secs_f64() / once).ceil().clamp(1.0, 1e6) as u32
}

/// The seconds of one run, as the mean of some.
fn timed(run: &mut impl FnMut(), repeats: u32) -> f64 {
    let start = Instant::now();
    for _ in 0..repeats {
        run();
    }
    start.elapsed().as_secs_f64() / f64::from(repeats)
}

fn median(all: &[f64]) -> f64 {
    let mut sorted = all.to_vec();
    sorted.sort_by(f64::total_cmp);
    sorted[sorted.len() / 2]
}

fn spread(ratios: &[f64]) -> f64 {
    let most = ratios.iter().copied().fold(f64::NEG_INFINITY, f64::max);
    let least = ratios.iter().copied().fold(f64::INFINITY, f64::min);
    (most - least) / median(ratios)
}

/// A figure with two digits, which is what a spread of some percent leaves.
pub fn figure(number: f64) -> String {
    let places = |number: f64| 1 - number.max(1e-9).log10().floor() as i32;
    let step = 10f64.powi(-places(number));
    let rounded = (number / step).round() * step;
    format!("{rounded:.*}", places(rounded).max(0) as usize)
}

#[cfg(test)]
mod tests {
    use super::*;

    #[test]
    fn figures_have_two_digits() {
        let figures = [0.0123, 0.657, 0.998, 1.0, 4.83, 9.97, 48.3, 125.58, 44005.2].map(figure);
        assert_eq!(figures, ["0.012", "0.66", "1.0", "1.0", "4.8", "10", "48", "130", "44000"]);
    }

    #[test]
    fn the_spread_is_the_range_beside_the_median() {
        assert_eq!(spread(&[2.0, 2.0, 2.0]), 0.0);
        assert_eq!(spread(&[3.0, 2.0, 1.0, 2.0, 2.0]), 1.0);
    }

    #[test]
    fn a_slower_side_is_seen() {
        let wait = |micros: u64| move || std::thread::sleep(Duration::from_micros(micros));
        let times = Budget::UpTo(Duration::from_millis(1)).measure(wait(4000), wait(1000));
        assert!(times.ratio > 1.5 && times.first > times.second, "{times:?}");
    }
}
