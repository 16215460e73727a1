//! How long something took, again and again: the last times, with the frame loop's percentiles and histogram.

#[allow(dead_code)] // The frame loop writes them as text too.
#[path = "../../frame/stats.rs"]
mod stats;

use stats::{Histogram, Summary};
use std::collections::VecDeque;
use std::time::Duration;

/// How many times are kept: the last ones.
const KEPT: usize = 1024;

#[derive(Default)]
pub struct Times {
    micros: VecDeque<f64>,
}

impl Times {
    pub fn keep(&mut self, time: Duration) {
        if self.micros.len() == KEPT {
            self.micros.pop_front();
        }
        self.micros.push_back(time.as_nanos() as f64 / 1000.0);
    }

    /// `{"count":2,"p50":1.5,"max":2.0,"histogram":[..]}`: in µs, and how many times each bucket has.
    pub fn to_json(&self) -> String {
        let micros: Vec<f64> = self.micros.iter().copied().collect();
        let (summary, histogram) = (Summary::of(&micros), Histogram::of(&micros));
        let last = Histogram::bucket(f64::INFINITY);
        let counts: Vec<usize> = (0..=last).map(|bucket| histogram.count(bucket)).collect();
        let Summary {
            count, p50, max, ..
        } = summary;
        format!("{{\"count\":{count},\"p50\":{p50:.1},\"max\":{max:.1},\"histogram\":{counts:?}}}")
    }
}
