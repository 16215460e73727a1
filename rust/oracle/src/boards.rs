//! Boards to ask about, made from a seed: five sorts of them.

use crate::naive::{self, BLACK, Cells, EMPTY, POINTS, SIDE, WHITE};
use crate::original;

/// Splitmix64: small, and the same numbers for the same seed everywhere.
pub struct Dice(u64);

impl Dice {
    /// Rolls that follow from the seed.
    pub fn new(seed: u64) -> Self {
        Self(seed)
    }

    /// The next number, of all 64 bits.
    pub fn roll(&mut self) -> u64 {
        self.0 = self.0.wrapping_add(0x9e37_79b9_7f4a_7c15);
        let mut z = self.0;
        z = (z ^ (z >> 30)).wrapping_mul(0xbf58_476d_1ce4_e5b9);
        z = (z ^ (z >> 27)).wrapping_mul(0x94d0_49bb_1331_11eb);
        z ^ (z >> 31)
    }

    /// A number below `end`.
    pub fn below(&mut self, end: usize) -> usize {
        (self.roll() % end as u64) as usize
    }

    /// True in `percent` of a hundred rolls.
    pub fn chance(&mut self, percent: usize) -> bool {
        self.below(100) < percent
    }

    /// One of a list that is not empty.
    pub fn pick<T: Copy>(&mut self, from: &[T]) -> T {
        from[self.below(from.len())]
    }
}

/// The sorts of boards, in the order [`of_sort`] makes them.
#[derive(Debug, Clone, Copy, PartialEq, Eq)]
pub enum Sort {
    Random,
    Clustered,
    DenseBlack,
    Nested,
    Game,
}

/// All sorts.
pub const SORTS: [Sort; 5] = [
    Sort::Random,
    Sort::Clustered,
    Sort::DenseBlack,
    Sort::Nested,
    Sort::Game,
];

/// How deep the verdicts of a nested board go at least.
pub const NESTED_DEPTH: usize = 4;

/// A board of a sort.
pub fn of_sort(sort: Sort, dice: &mut Dice) -> Cells {
    match sort {
        Sort::Random => random(dice),
        Sort::Clustered => clustered(dice),
        Sort::DenseBlack => dense_black(dice),
        Sort::Nested => nested(dice),
        Sort::Game => {
            let moves = 4 + dice.below(77);
            game(dice, moves)
        }
    }
}

/// How many stones a board has.
pub fn stone_count(cells: &Cells) -> usize {
    cells.iter().filter(|&&v| v != EMPTY).count()
}

/// Every cell by itself, with one density for the whole board.
pub fn random(dice: &mut Dice) -> Cells {
    let density = 2 + dice.below(90);
    let black = 20 + dice.below(70);
    let mut cells = [EMPTY; POINTS];
    for cell in cells.iter_mut() {
        if dice.chance(density) {
            *cell = if dice.chance(black) { BLACK } else { WHITE };
        }
    }
    cells
}

/// A point at most `reach` away from `p` in each coordinate, kept on the board.
fn near(dice: &mut Dice, p: usize, reach: usize) -> usize {
    let (x, y) = naive::place(p);
    let mut shifted =
        |v: usize| (v + dice.below(2 * reach + 1)).clamp(reach, reach + SIDE - 1) - reach;
    let (a, b) = (shifted(x), shifted(y));
    naive::code(a, b)
}

/// Stones near one another, around a first one near the centre.
pub fn clustered(dice: &mut Dice) -> Cells {
    let stones = 6 + dice.below(60);
    let black = 35 + dice.below(50);
    let reach = 1 + dice.below(3);
    let mut cells = [EMPTY; POINTS];
    let mut placed = vec![near(dice, 112, 4)];
    for _ in 0..stones {
        let beside = dice.pick(&placed);
        let p = near(dice, beside, reach);
        cells[p] = if dice.chance(black) { BLACK } else { WHITE };
        placed.push(p);
    }
    cells
}

/// Mostly black stones with few white ones, from half to nearly full.
pub fn dense_black(dice: &mut Dice) -> Cells {
    let density = 45 + dice.below(52);
    let white = dice.below(22);
    let mut cells = [EMPTY; POINTS];
    for cell in cells.iter_mut() {
        if dice.chance(density) {
            *cell = if dice.chance(white) { WHITE } else { BLACK };
        }
    }
    cells
}

/// Black stones on every third line with some left out, some black noise
/// and few whites: twos lie side by side and cross one another, so the eye of
/// one three is often a cross of two others.
fn lattice(dice: &mut Dice) -> Cells {
    let (slant, shift) = (dice.below(3), dice.below(3));
    let (keep, noise, white) = (45 + dice.below(55), dice.below(4), dice.below(6));
    let mut cells = [EMPTY; POINTS];
    for (p, cell) in cells.iter_mut().enumerate() {
        let (x, y) = naive::place(p);
        let on_lattice = (x * slant + y + shift) % 3 == 0;
        if dice.chance(if on_lattice { keep } else { noise }) {
            *cell = BLACK;
        } else if dice.chance(white) {
            *cell = WHITE;
        }
    }
    naive::turned_board(dice.below(8), &cells)
}

/// One to three points set to something else, mostly to black or empty.
pub fn changed(dice: &mut Dice, cells: &Cells) -> Cells {
    let mut next = *cells;
    for _ in 0..1 + dice.below(3) {
        let value = dice.pick(&[EMPTY, EMPTY, BLACK, BLACK, BLACK, WHITE]);
        next[dice.below(POINTS)] = value;
    }
    next
}

/// A board whose verdicts nest [`NESTED_DEPTH`] deep or more: a lattice, on
/// which some changes are kept that do not make it shallower, until it is
/// deep enough; a lattice that stays shallow is left for another.
pub fn nested(dice: &mut Dice) -> Cells {
    loop {
        let mut cells = lattice(dice);
        let mut depth = naive::depth(&cells);
        for _ in 0..6 {
            if depth >= NESTED_DEPTH {
                return cells;
            }
            let next = changed(dice, &cells);
            let reached = naive::depth(&next);
            if reached >= depth {
                (cells, depth) = (next, reached);
            }
        }
    }
}

/// How good a move looks: the windows through the point that are still free,
/// by how many stones they hold, for the mover and against the other.
fn worth(cells: &Cells, p: usize, mover: u8) -> usize {
    let mut sum = 0;
    for (dx, dy) in [(0, 1), (1, 0), (1, 1), (1, -1)] {
        for back in 0..5 {
            let five = (0..5).map(|k| step(p, dx * (k - back), dy * (k - back)));
            let Some(five) = five.collect::<Option<Vec<usize>>>() else {
                continue;
            };
            let held = |colour: u8| five.iter().filter(|&&q| cells[q] == colour).count();
            let (own, others) = (held(mover), held(BLACK + WHITE - mover));
            if own == 0 || others == 0 {
                sum += 9usize.pow(own as u32) + 8usize.pow(others as u32);
            }
        }
    }
    sum
}

/// The point some cells further, if it is on the board.
fn step(p: usize, dx: isize, dy: isize) -> Option<usize> {
    let (x, y) = naive::place(p);
    let (a, b) = (x as isize + dx, y as isize + dy);
    ((0..15).contains(&a) && (0..15).contains(&b)).then(|| naive::code(a as usize, b as usize))
}

fn has_five(cells: &Cells, p: usize, mover: u8) -> bool {
    let long = |kind| !naive::rows_on(cells, p, mover, kind).is_empty();
    long(naive::Five) || long(naive::Overlined)
}

/// A move as a player might choose it: the best of some empty points near
/// the stones, for Black none that the original forbids.
fn choose(dice: &mut Dice, cells: &Cells, placed: &[usize], mover: u8) -> Option<usize> {
    let board = original::to_board(cells);
    let tries = 2 + dice.below(9);
    (0..tries)
        .map(|_| {
            let beside = dice.pick(placed);
            near(dice, beside, 2)
        })
        .filter(|&p| cells[p] == EMPTY)
        .filter(|&p| mover == WHITE || original::strict(&board, p as u8) == 0)
        .max_by_key(|&p| (worth(cells, p, mover), p))
}

/// A game from the centre on, of at most `moves` moves, over after a five.
pub fn game(dice: &mut Dice, moves: usize) -> Cells {
    let mut cells = [EMPTY; POINTS];
    for (number, p) in game_moves(dice, moves).into_iter().enumerate() {
        cells[p] = if number % 2 == 0 { BLACK } else { WHITE };
    }
    cells
}

/// .. its moves in turn.
pub fn game_moves(dice: &mut Dice, moves: usize) -> Vec<usize> {
    let mut cells = [EMPTY; POINTS];
    cells[112] = BLACK;
    let mut placed = vec![112];
    let mut mover = WHITE;
    let mut passes = 0;
    while placed.len() < moves && passes < 50 {
        let Some(p) = choose(dice, &cells, &placed, mover) else {
            passes += 1;
            continue;
        };
        cells[p] = mover;
        placed.push(p);
        if has_five(&cells, p, mover) {
            break;
        }
        mover = BLACK + WHITE - mover;
    }
    placed
}

/// A game that has reached `moves` stones: the first one that gets so far.
pub fn game_of(dice: &mut Dice, moves: usize) -> Cells {
    loop {
        let cells = game(dice, moves);
        if stone_count(&cells) == moves {
            return cells;
        }
    }
}
