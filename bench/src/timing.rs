//! Medians of many rounds, the two sides by turns.

use std::hint::black_box;
use std::time::Instant;

pub(crate) struct Race {
    original: Vec<f64>,
    port: Vec<f64>,
}

pub(crate) fn micros(run: impl FnOnce()) -> f64 {
    let start = Instant::now();
    run();
    start.elapsed().as_secs_f64() * 1e6
}

pub(crate) fn median(times: &[f64]) -> f64 {
    let mut times = times.to_vec();
    times.sort_by(f64::total_cmp);
    times[times.len() / 2]
}

impl Race {
    pub(crate) fn new() -> Self {
        Self {
            original: Vec::new(),
            port: Vec::new(),
        }
    }

    pub(crate) fn original(&mut self, run: impl FnOnce()) {
        self.original.push(micros(run));
    }

    pub(crate) fn port(&mut self, run: impl FnOnce()) {
        self.port.push(micros(run));
    }

    /// The same beside the original's times in another race.
    pub(crate) fn against(self, other: &Self) -> Self {
        Self {
            original: other.original.clone(),
            ..self
        }
    }

    pub(crate) fn line(&self, scene: &str, what: &str) {
        let (original, port) = (median(&self.original), median(&self.port));
        println!(
            "{scene:<14} {what:<10} {original:>12.1} {port:>12.1} {:>7.2}",
            port / original
        );
    }

    /// How many words the port wrote in its time, and a plain copy of as many.
    pub(crate) fn words(&self, scene: &str, what: &str, words: usize, rounds: usize) {
        let rate = |time: f64| words as f64 / time;
        let (port, copy) = (rate(median(&self.port)), rate(copying(words, rounds)));
        println!("{scene:<14} {what:<10} {words:>8} words, {port:>7.0} million a second; a plain copy {copy:>7.0}");
    }
}

/// A plain copy of so many words, in microseconds.
fn copying(words: usize, rounds: usize) -> f64 {
    let from = vec![7_u32; words];
    let mut to = vec![0_u32; words];
    let times: Vec<f64> = (0..rounds)
        .map(|_| micros(|| black_box(&mut to[..]).copy_from_slice(black_box(&from))))
        .collect();
    median(&times)
}
