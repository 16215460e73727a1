//! What `game` and `check` share: files of texts on all cores, the counts, the bar and the speed.

use crate::args::Call;
use crate::batches::{self, Batch, Files};
use crate::failure::{Failure, Status};
use crate::output::Output;
use crate::progress::Progress;
use std::fs;
use std::ops::AddAssign;
use std::path::PathBuf;

/// How many texts there were, those with a fault, and those that were refused.
#[derive(Clone, Copy, Default)]
pub struct Tally {
    pub texts: u64,
    pub faulty: u64,
    pub refused: u64,
}

impl Tally {
    pub const FINE: Self = Self::one(0, 0);
    pub const FAULTY: Self = Self::one(1, 0);
    pub const REFUSED: Self = Self::one(0, 1);

    const fn one(faulty: u64, refused: u64) -> Self {
        Self {
            texts: 1,
            faulty,
            refused,
        }
    }

    pub fn status(self) -> Status {
        Status::found(self.faulty + self.refused > 0)
    }
}

impl AddAssign for Tally {
    fn add_assign(&mut self, more: Self) {
        self.texts += more.texts;
        self.faulty += more.faulty;
        self.refused += more.refused;
    }
}

/// What is written of a text, and how it counts.
pub type Said = (Vec<u8>, Tally);

/// What is asked of each text, and how its answers are written.
pub struct Job<'a, W> {
    pub files: &'a Files,
    /// What the texts are called: games, boards.
    pub unit: &'static str,
    /// Only what is faulty or refused.
    pub only_faults: bool,
    /// What is written of a text; where nothing is, nothing is.
    pub work: W,
}

impl<W: Fn(&[u8], &str) -> Said + Sync> Job<'_, W> {
    /// All texts; the answers are written in input order.
    pub fn run(&self, call: &Call, output: &mut Output) -> Result<Tally, Failure> {
        let quiet = call.has("--quiet") || call.has("--stream");
        let mut progress = Progress::new(size(self.files), quiet);
        let mut tally = Tally::default();
        let done = batches::each(
            self.files,
            |batch| self.batch(&batch),
            |(bytes, counts, read)| {
                output.write(&bytes)?;
                output.flush()?;
                tally += counts;
                progress.more(read, tally.texts, self.unit);
                Ok(())
            },
        );
        progress.end(tally.texts, self.unit);
        done.map(|()| tally)
    }

    /// What is written of a batch, its counts, and how much of the input it was.
    fn batch(&self, batch: &Batch) -> (Vec<u8>, Tally, u64) {
        let (mut bytes, mut tally) = (Vec::new(), Tally::default());
        let named = self.files.names.len() > 1;
        let name = self.files.shown(batch.file);
        for (number, text) in batch.texts() {
            let front = match (named, self.only_faults) {
                (true, _) => format!("{name}:{number}: "),
                (false, true) => format!("{number}: "),
                (false, false) => String::new(),
            };
            let (said, counts) = (self.work)(text, &front);
            if !self.only_faults || counts.faulty + counts.refused > 0 {
                bytes.extend(said);
            }
            tally += counts;
        }
        (bytes, tally, batch.read)
    }
}

/// The files that the words name.
pub fn named(call: &Call, end: u8) -> Files {
    let names = call.words.iter().map(PathBuf::from).collect();
    Files { names, end }
}

/// How many bytes the files have; unknown where one is no plain file.
fn size(files: &Files) -> Option<u64> {
    let size = |name: &PathBuf| {
        let data = fs::metadata(name).ok()?;
        data.is_file().then_some(data.len())
    };
    let sizes: Option<Vec<u64>> = files.names.iter().map(size).collect();
    sizes
        .filter(|sizes| !sizes.is_empty())
        .map(|sizes| sizes.iter().sum())
}
