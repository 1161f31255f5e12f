//! Times of several programs that do the same work in turn.

use std::time::Instant;

/// The times of one program, in milliseconds for a verdict: of each recording the median and the least
/// time, and of these the mean over the recordings.
#[derive(Clone, Copy)]
pub struct Times {
    pub median: f64,
    pub least: f64,
}

/// One program: from the text of a recording to the text of its verdict.
pub type Program<'a> = &'a mut dyn FnMut(&str);

/// Lets the programs judge a row of recordings in turn, this many times. Each call is timed by itself, so
/// that one that is interrupted spoils no other.
pub fn in_turn(rounds: usize, row: &[String], programs: &mut [Program]) -> Vec<Times> {
    let mut times = vec![vec![Vec::with_capacity(rounds); row.len()]; programs.len()];
    for _ in 0..rounds {
        for (program, times) in programs.iter_mut().zip(&mut times) {
            for (text, times) in row.iter().zip(times) {
                let start = Instant::now();
                program(text);
                times.push(start.elapsed().as_secs_f64() * 1e3);
            }
        }
    }
    times.into_iter().map(of).collect()
}

/// The times of a program whose calls took so long, for each recording.
fn of(mut calls: Vec<Vec<f64>>) -> Times {
    for times in &mut calls {
        times.sort_by(f64::total_cmp);
    }
    let mean = |at: usize| calls.iter().map(|times| times[at]).sum::<f64>() / calls.len() as f64;
    Times {
        median: mean(calls[0].len() / 2),
        least: mean(0),
    }
}
