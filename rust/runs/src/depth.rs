//! How deep questions go: the host's `renju_depth` against the naive reading of document 02, No. 14,
//! and a search for the deepest question there is.
//!
//! One comparison is one call, at one of all 256 codes of a board, whose cells may be spoilt. The
//! search is a climb: a board of any sort is changed a little, again and again, and the change is
//! kept unless the question at its deepest point gets shallower.

use oracle::boards::{self, Dice, SORTS};
use oracle::naive::{self, Cells, POINTS};
use renju::raw;

/// A function that answers as `renju_depth` does.
pub type Host = dyn Fn(&[u8], u8) -> u32;

/// The host's own.
pub fn ask(cells: &[u8], code: u8) -> u32 {
    raw::renju_depth(cells, code)
}

/// What has been compared.
#[derive(Debug, Clone, Default)]
pub struct Tally {
    pub boards: u64,
    pub comparisons: u64,
    pub differences: u64,
    /// How many answers had each depth.
    pub depths: Vec<u64>,
    /// The first difference, in words.
    pub first: Option<String>,
}

impl Tally {
    fn count(&mut self, bytes: &[u8], code: u8, must: u32, got: u32) {
        self.comparisons += 1;
        if must < 1 << 16 {
            let depth = (must >> 8) as usize;
            self.depths.resize(self.depths.len().max(depth + 1), 0);
            self.depths[depth] += 1;
        }
        if must != got {
            self.differences += 1;
            self.first.get_or_insert_with(|| {
                format!("difference at code {code} of {bytes:?}: expected {must}, got {got}\n")
            });
        }
    }

    /// The counts in words, and the first difference.
    pub fn report(&self) -> String {
        let depths: Vec<String> = self.depths.iter().map(u64::to_string).collect();
        format!(
            "{}boards {}; answers by depth, from 0: {}\n{} comparisons, {} differences\n",
            self.first.as_deref().unwrap_or_default(),
            self.boards,
            depths.join(" "),
            self.comparisons,
            self.differences
        )
    }

    /// The exit status of a run: 1 on any difference.
    pub fn status(&self) -> u8 {
        u8::from(self.differences > 0)
    }
}

/// What the naive reading says: "256 times the depth plus the strict verdict", 9, or 8.
pub fn expected(bytes: &[u8], code: u8) -> u32 {
    match <&Cells>::try_from(bytes) {
        Ok(cells) if cells.iter().all(|&value| value <= 2) => {
            let p = usize::from(code);
            if p >= POINTS {
                return 8 << 16;
            }
            let depth = naive::question_depth(cells, p) as u32;
            256 * depth + u32::from(naive::strict(cells, p).verdict)
        }
        _ => 9 << 16,
    }
}

/// Compares at every code of so many boards, the five sorts in turn; of some the cells are spoilt.
pub fn compare(host: &Host, boards: u64, seed: u64) -> Tally {
    let mut dice = Dice::new(seed);
    let mut tally = Tally::default();
    for number in 0..boards {
        let sort = SORTS[number as usize % SORTS.len()];
        let mut bytes = boards::of_sort(sort, &mut dice).to_vec();
        if dice.chance(1) {
            spoil(&mut dice, &mut bytes);
        }
        tally.boards += 1;
        for code in 0..=u8::MAX {
            let must = expected(&bytes, code);
            tally.count(&bytes, code, must, host(&bytes, code));
        }
    }
    tally
}

/// One byte too many, one too few, or one that is no cell's.
fn spoil(dice: &mut Dice, bytes: &mut Vec<u8>) {
    match dice.below(3) {
        0 => bytes.push(0),
        1 => _ = bytes.pop(),
        _ => bytes[dice.below(POINTS)] = 3 + dice.below(253) as u8,
    }
}

/// A board with a question on it: at which code, and how deep it is.
#[derive(Debug, Clone, Copy, PartialEq, Eq)]
pub struct Deep {
    pub cells: Cells,
    pub code: u8,
    pub depth: u32,
}

impl Deep {
    /// The question at a code of a board.
    fn at(cells: &Cells, code: u8) -> Self {
        Self {
            cells: *cells,
            code,
            depth: raw::renju_depth(cells, code) >> 8,
        }
    }

    /// The deepest question of a board.
    pub fn of(cells: &Cells) -> Self {
        let every = (0..POINTS as u8).map(|code| Self::at(cells, code));
        every
            .max_by_key(|deep| deep.depth)
            .expect("a board has points")
    }
}

/// How many changes a climb makes that lead no deeper before it is given up.
const PATIENCE: u64 = 50_000;

/// The deepest question that a search meets with so many changed boards. Each climb begins at the
/// deepest question of a board of any sort, and stays at its point.
pub fn search(boards: u64, seed: u64) -> Deep {
    let mut dice = Dice::new(seed);
    let mut deepest = Deep::of(&[naive::EMPTY; POINTS]);
    let mut looked = 0;
    while looked < boards {
        let sort = dice.pick(&SORTS);
        let mut here = Deep::of(&boards::of_sort(sort, &mut dice));
        let mut still = 0;
        while looked < boards && still < PATIENCE {
            let next = Deep::at(&boards::changed(&mut dice, &here.cells), here.code);
            looked += 1;
            still += 1;
            if next.depth > here.depth {
                (here, still) = (next, 0);
            } else if next.depth == here.depth && is_kept(&mut dice, &here.cells, &next.cells) {
                here = next;
            }
        }
        if here.depth > deepest.depth {
            deepest = here;
        }
    }
    deepest
}

/// Whether a board takes the place of one as deep: with no more stones, or now and then. Many stones
/// make many questions.
fn is_kept(dice: &mut Dice, here: &Cells, next: &Cells) -> bool {
    boards::stone_count(next) <= boards::stone_count(here) || dice.chance(20)
}
