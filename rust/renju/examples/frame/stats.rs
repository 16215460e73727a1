//! Percentiles, and a histogram of times on a logarithmic scale.

/// The smallest of `values` that at least `percent` of a hundred of them do not exceed (the nearest
/// rank, so that what is said was measured and not computed between two measurements). Nothing has
/// no percentile.
pub fn percentile(values: &[f64], percent: f64) -> Option<f64> {
    let mut sorted = values.to_vec();
    sorted.sort_by(f64::total_cmp);
    let rank = (percent / 100.0 * sorted.len() as f64).ceil() as usize;
    sorted.get(rank.max(1) - 1).copied()
}

/// What is said of one referee's times: two percentiles, the largest and the sum.
#[derive(Debug, Clone, Copy, PartialEq, Default)]
pub struct Summary {
    pub count: usize,
    pub p50: f64,
    pub p99: f64,
    pub max: f64,
    pub sum: f64,
}

impl Summary {
    /// All zero for no values at all.
    pub fn of(values: &[f64]) -> Self {
        let at = |percent| percentile(values, percent).unwrap_or(0.0);
        Self {
            count: values.len(),
            p50: at(50.0),
            p99: at(99.0),
            max: at(100.0),
            sum: values.iter().sum(),
        }
    }
}

/// The lower edges of the buckets in one decade: about even on a logarithmic scale.
const STEPS: [f64; 5] = [1.0, 1.6, 2.5, 4.0, 6.3];

/// The decades that are told apart: 0.01 µs up to 100 ms.
const DECADES: usize = 7;

/// The smallest edge, in µs.
const LEAST: f64 = 0.01;

/// One bucket for what is below the first edge, one for what is not below the last.
const BUCKETS: usize = STEPS.len() * DECADES + 2;

/// How many times fell into each bucket.
#[derive(Debug, Clone, PartialEq, Eq)]
pub struct Histogram {
    counts: [usize; BUCKETS],
}

impl Histogram {
    /// The times, in µs, by how long they are.
    pub fn of(micros: &[f64]) -> Self {
        let mut counts = [0; BUCKETS];
        for &time in micros {
            counts[Self::bucket(time)] += 1;
        }
        Self { counts }
    }

    /// The times of a bucket in µs: from the first on, and below the second. The buckets touch, the
    /// first begins at 0 and the last has no end, so that each time has a bucket that says it.
    pub fn edges(bucket: usize) -> (f64, f64) {
        let edge = |n: usize| {
            let edge = LEAST * STEPS[n % STEPS.len()] * 10f64.powi((n / STEPS.len()) as i32);
            // Three decimals are all there are; what the product leaves behind is no part of it.
            (edge * 1000.0).round() / 1000.0
        };
        let from = if bucket == 0 { 0.0 } else { edge(bucket - 1) };
        let end = bucket + 1 >= BUCKETS;
        (from, if end { f64::INFINITY } else { edge(bucket) })
    }

    /// The bucket that a time falls into.
    pub fn bucket(micros: f64) -> usize {
        let holds = |&bucket: &usize| micros < Self::edges(bucket).1;
        (0..BUCKETS).find(holds).unwrap_or(BUCKETS - 1)
    }

    /// How many of the times are in a bucket.
    pub fn count(&self, bucket: usize) -> usize {
        self.counts[bucket]
    }

    /// The buckets from the first that is not empty to the last.
    fn span(&self) -> Option<(usize, usize)> {
        let first = self.counts.iter().position(|&n| n > 0)?;
        let last = self.counts.iter().rposition(|&n| n > 0)?;
        Some((first, last))
    }
}

/// How long the longest bars of all columns together are.
const BARS: usize = 72;

/// Histograms beside one another, one line for each bucket that one fills and for those between.
/// One scale for all bars, so that they can be compared with the eye.
pub fn side_by_side(names: &[&str], histograms: &[Histogram]) -> String {
    let spans: Vec<_> = histograms.iter().filter_map(Histogram::span).collect();
    let first = spans.iter().map(|s| s.0).min().unwrap_or(0);
    let last = spans.iter().map(|s| s.1).max().unwrap_or(0);
    let counts = |bucket: usize| histograms.iter().map(move |h| h.count(bucket));
    let longest = (first..=last).flat_map(counts).max().unwrap_or(0).max(1);
    let width = BARS / histograms.len().max(1);
    let mut text = line(
        "from µs",
        "below µs",
        names.iter().map(|name| format!("{name:<0$}", width + 5)),
    );
    for bucket in first..=last {
        let (from, to) = Histogram::edges(bucket);
        let to = if to.is_finite() {
            to.to_string()
        } else {
            "any".to_string()
        };
        let column = |n: usize| format!("{n:>4} {:<width$}", bar(n, longest, width));
        text += &line(&from.to_string(), &to, counts(bucket).map(column));
    }
    text
}

fn line(from: &str, to: &str, columns: impl Iterator<Item = String>) -> String {
    let columns: Vec<String> = columns.collect();
    let line = format!("{from:>8} {to:>8}  {}", columns.join("  "));
    line.trim_end().to_string() + "\n"
}

/// A bar for `n`. Whatever is not nothing is seen.
fn bar(n: usize, longest: usize, width: usize) -> String {
    "#".repeat((n * width).div_ceil(longest))
}
