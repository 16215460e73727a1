//! How far the work is: a bar on standard error, where that is a terminal.

use std::io::{self, IsTerminal, Write};
use std::time::{Duration, Instant};

/// How long it waits between two pictures of the bar.
const PAUSE: Duration = Duration::from_millis(100);

/// Short inputs need no bar.
const SHORT: Duration = Duration::from_millis(500);

/// How many places the bar has.
const WIDTH: u64 = 30;

pub struct Progress {
    /// All bytes that there are, if that is known.
    total: Option<u64>,
    read: u64,
    began: Instant,
    shown: Option<Instant>,
    /// Whether there is a terminal to draw on, and nobody asked for silence.
    drawn: bool,
    quiet: bool,
}

impl Progress {
    pub fn new(total: Option<u64>, quiet: bool) -> Self {
        Self {
            total,
            read: 0,
            began: Instant::now(),
            shown: None,
            drawn: io::stderr().is_terminal() && !quiet,
            quiet,
        }
    }

    /// So many bytes more are done, and that many texts are by now.
    pub fn more(&mut self, bytes: u64, count: u64, unit: &str) {
        self.read += bytes;
        let last = self.shown.unwrap_or(self.began + SHORT - PAUSE);
        if !self.drawn || last.elapsed() < PAUSE || self.began.elapsed() < SHORT {
            return;
        }
        self.shown = Some(Instant::now());
        eprint!("\r\x1b[K{}{count} {unit}", bar(self.read, self.total));
        io::stderr().flush().unwrap_or_default();
    }

    /// Wipes the bar, and says how fast it went.
    pub fn end(&self, count: u64, unit: &str) {
        if self.shown.is_some() {
            eprint!("\r\x1b[K");
        }
        if self.quiet {
            return;
        }
        let seconds = self.began.elapsed().as_secs_f64();
        let speed = count as f64 / seconds.max(1e-9);
        eprintln!("renju: {count} {unit} in {seconds:.2} s, {speed:.0} a second");
    }
}

/// `[#####.....] 50%  `, or nothing where the whole is not known.
fn bar(read: u64, total: Option<u64>) -> String {
    let Some(total) = total.filter(|&total| total > 0) else {
        return String::new();
    };
    let read = read.min(total);
    let full = (WIDTH * read / total) as usize;
    let (done, left) = ("#".repeat(full), ".".repeat(WIDTH as usize - full));
    format!("[{done}{left}] {}%  ", 100 * read / total)
}

#[cfg(test)]
mod tests {
    use super::*;

    #[test]
    fn the_bar_fills() {
        assert_eq!(bar(5, None), "");
        assert_eq!(bar(0, Some(0)), "");
        assert!(bar(0, Some(10)).starts_with("[...") && bar(0, Some(10)).contains(" 0%"));
        let half = format!("[{}{}] 50%  ", "#".repeat(15), ".".repeat(15));
        assert_eq!(bar(5, Some(10)), half);
        assert!(bar(11, Some(10)).contains("100%"));
    }
}
