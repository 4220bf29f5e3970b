//! Timing in rounds.

use std::time::{Duration, Instant};

/// How long and how often is measured.
#[derive(Clone, Copy)]
pub struct Effort {
    pub rounds: usize,
    pub sample: Duration,
    pub script_rounds: usize,
}

impl Effort {
    // A sample is short, so that on a busy machine some still run from end to end.
    pub const FULL: Effort = Effort {
        rounds: 301,
        sample: Duration::from_millis(1),
        script_rounds: 15,
    };
    pub const QUICK: Effort = Effort {
        rounds: 61,
        sample: Duration::from_millis(1),
        script_rounds: 3,
    };
}

/// Does something so many times and gives the nanoseconds that took.
pub type Timed<'a> = Box<dyn FnMut(u32) -> f64 + 'a>;

/// Times an action of this process.
pub fn here<'a>(mut action: impl FnMut(u32) + 'a) -> Timed<'a> {
    Box::new(move |runs| {
        let start = Instant::now();
        action(runs);
        start.elapsed().as_secs_f64() * 1e9
    })
}

/// Nanoseconds that one run took in each round.
pub type Times = Vec<f64>;

/// Lets all take turns, round by round, so that what else the machine does falls on each alike.
pub fn race(effort: Effort, all: &mut [Timed]) -> Vec<Times> {
    let mut times = vec![Times::new(); all.len()];
    let mut runs: Vec<u32> = all
        .iter_mut()
        .map(|timed| enough(effort.sample, timed))
        .collect();
    for _ in 0..effort.rounds {
        for ((timed, times), runs) in all.iter_mut().zip(&mut times).zip(&mut runs) {
            times.push(timed(*runs) / f64::from(*runs));
        }
    }
    times
}

/// How many runs fill a sample, found by running, which also warms up.
fn enough(sample: Duration, timed: &mut Timed) -> u32 {
    let least = sample.as_secs_f64() * 1e9;
    let mut runs = 1;
    loop {
        let taken = timed(runs);
        if taken >= least {
            return runs;
        }
        // Grows toward the sample without overshooting it by much.
        let wanted = (least / taken.max(100.0) * 1.1).clamp(1.1, 100.0);
        runs = (f64::from(runs) * wanted).ceil() as u32;
    }
}

/// The least of some times: what is left where nothing else ran.
pub fn best(times: &[f64]) -> f64 {
    times.iter().copied().fold(f64::INFINITY, f64::min)
}

/// The quartiles of the quotients of two, round by round: how quiet the machine was.
pub fn quartiles(over: &[f64], under: &[f64]) -> [f64; 2] {
    let mut ratios: Vec<f64> = over.iter().zip(under).map(|(o, u)| o / u).collect();
    ratios.sort_by(f64::total_cmp);
    [1, 3].map(|quarter| ratios[ratios.len() * quarter / 4])
}
