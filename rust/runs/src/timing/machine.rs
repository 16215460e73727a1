//! What kind of machine the times were taken on.

use std::time::Instant;
use std::{env, fs, thread};

use super::stats::percentile;

/// The architecture, the number of cores and, where the system tells it, the model of the
/// processor.
pub fn kind() -> String {
    let cores = thread::available_parallelism().map_or(1, |n| n.get());
    let word = if cores == 1 { "core" } else { "cores" };
    let told = fs::read_to_string("/proc/cpuinfo").unwrap_or_default();
    let model = model_name(&told).map_or(String::new(), |name| format!(", {name}"));
    format!("{}, {cores} {word}{model}", env::consts::ARCH)
}

/// The model of the first processor in the text of `/proc/cpuinfo`.
pub fn model_name(cpuinfo: &str) -> Option<&str> {
    let line = cpuinfo.lines().find(|l| l.starts_with("model name"))?;
    let (_, name) = line.split_once(':')?;
    Some(name.trim())
}

/// What an empty sample costs in ns: the time between two looks at the clock. Each sample holds
/// this much that is nobody's, so samples are made long beside it.
pub fn clock() -> f64 {
    let look = |_| {
        let start = Instant::now();
        start.elapsed().as_nanos() as f64
    };
    let looks: Vec<f64> = (0..1001).map(look).collect();
    percentile(&looks, 50.0).unwrap_or(0.0)
}
