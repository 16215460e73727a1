//! A win by fours as document 02, No. 11 says it, cell by cell.

use oracle::naive;

/// A board, as the naive reading has it.
pub type Cells = naive::Cells;

const STEPS: [(i32, i32); 4] = [(0, 1), (1, 0), (1, 1), (1, -1)];

/// The other side.
pub fn other(side: u8) -> u8 {
    3 - side
}

fn at(cells: &Cells, x: i32, y: i32) -> Option<u8> {
    let on = (0..15).contains(&x) && (0..15).contains(&y);
    on.then(|| cells[(15 * x + y) as usize])
}

/// The windows of five cells through a point that hold `count` stones of the side's and else empty
/// cells; for Black none with a black stone beside it. Each as its last empty cell.
pub fn windows(cells: &Cells, p: u8, side: u8, count: usize) -> Vec<u8> {
    let (x, y) = (i32::from(p) / 15, i32::from(p) % 15);
    let mut found = Vec::new();
    for (dx, dy) in STEPS {
        for back in 0..5 {
            let (x, y) = (x - back * dx, y - back * dy);
            let (mut gap, mut own) = (p, 0);
            for k in 0..5 {
                match at(cells, x + k * dx, y + k * dy) {
                    Some(0) => gap = (15 * (x + k * dx) + y + k * dy) as u8,
                    Some(stone) if stone == side => own += 1,
                    _ => {
                        own = 9;
                        break;
                    }
                }
            }
            let beside = |x, y| side == 1 && at(cells, x, y) == Some(1);
            if own == count && !beside(x - dx, y - dy) && !beside(x + 5 * dx, y + 5 * dy) {
                found.push(gap);
            }
        }
    }
    found
}

/// "completes a five": at an empty point, with four stones of the side's in a window.
pub fn completes(cells: &Cells, p: u8, side: u8) -> bool {
    cells[usize::from(p)] == 0 && !windows(cells, p, side, 4).is_empty()
}

/// Whether the side has a five.
pub fn has_five(cells: &Cells, side: u8) -> bool {
    (0..225).any(|p| cells[usize::from(p)] == side && !windows(cells, p, side, 5).is_empty())
}

/// The board with one more stone.
pub fn with(cells: &Cells, p: u8, side: u8) -> Cells {
    let mut next = *cells;
    next[usize::from(p)] = side;
    next
}

/// Whether the side may play at a point.
pub fn legal(cells: &Cells, p: u8, side: u8) -> bool {
    cells[usize::from(p)] == 0 && (side == 2 || naive::strict(cells, usize::from(p)).verdict == 0)
}

/// "distinct eyes" of the side's Fours through a point that has its stone.
fn eyes(cells: &Cells, p: u8, side: u8) -> Vec<u8> {
    let mut eyes = windows(cells, p, side, 4);
    eyes.sort_unstable();
    eyes.dedup();
    eyes
}

/// What an attack does.
enum Attack {
    No,
    Ends,
    Forces(u8),
}

/// "Before each attack the defender may have no point that completes a five."
fn quiet(cells: &Cells, side: u8) -> bool {
    !(0..225).any(|q| completes(cells, q, other(side)))
}

/// What a search asks of a board. Tests put wrong ones in their places.
#[derive(Clone, Copy)]
pub struct Reading {
    /// Whether a side may play at a point.
    pub legal: fn(&Cells, u8, u8) -> bool,
    /// The eyes of a side's Fours through a point that has its stone.
    pub eyes: fn(&Cells, u8, u8) -> Vec<u8>,
    /// Whether the other side can complete nothing.
    pub quiet: fn(&Cells, u8) -> bool,
}

/// Document 02's own.
pub const DOCUMENT: Reading = Reading { legal, eyes, quiet };

impl Reading {
    /// The attack at a point, where the defender can complete nothing.
    fn attack(&self, cells: &Cells, p: u8, side: u8) -> Attack {
        if cells[usize::from(p)] != 0 {
            return Attack::No;
        }
        let five = completes(cells, p, side);
        // A window with four stones after this one has three before it.
        if !five && windows(cells, p, side, 3).is_empty() {
            return Attack::No;
        }
        let next = with(cells, p, side);
        let eyes = (self.eyes)(&next, p, side);
        if (!five && eyes.is_empty()) || !(self.legal)(cells, p, side) {
            return Attack::No;
        }
        match eyes[..] {
            _ if five => Attack::Ends,
            [eye] if (self.legal)(&next, eye, other(side)) => Attack::Forces(eye),
            _ => Attack::Ends,
        }
    }

    /// The first acceptable list of at most `limit` attacks by comparing codes from the front.
    pub fn plan(&self, cells: &Cells, side: u8, limit: u8) -> Option<Vec<u8>> {
        if stands(cells) {
            return None;
        }
        self.search(cells, side, limit)
    }

    fn search(&self, cells: &Cells, side: u8, left: u8) -> Option<Vec<u8>> {
        if left == 0 || !(self.quiet)(cells, side) {
            return None;
        }
        (0..225).find_map(|p| match self.attack(cells, p, side) {
            Attack::No => None,
            Attack::Ends => Some(vec![p]),
            Attack::Forces(eye) => {
                let next = with(&with(cells, p, side), eye, other(side));
                let rest = self.search(&next, side, left - 1)?;
                Some([&[p, eye], &rest[..]].concat())
            }
        })
    }

    /// Whether a list is acceptable.
    pub fn accepts(&self, cells: &Cells, side: u8, list: &[u8]) -> bool {
        !stands(cells) && self.reaches_end(cells, side, list)
    }

    fn reaches_end(&self, cells: &Cells, side: u8, list: &[u8]) -> bool {
        let Some((&p, rest)) = list.split_first() else {
            return false;
        };
        if !(self.quiet)(cells, side) {
            return false;
        }
        match self.attack(cells, p, side) {
            Attack::No => false,
            Attack::Ends => rest.is_empty(),
            Attack::Forces(eye) => {
                let next = with(&with(cells, p, side), eye, other(side));
                rest.first() == Some(&eye) && self.reaches_end(&next, side, &rest[1..])
            }
        }
    }
}

fn stands(cells: &Cells) -> bool {
    has_five(cells, 1) || has_five(cells, 2)
}

/// A board for the benchmark: no five stands, no point completes one, and the side has attacks at ten
/// points or more.
pub fn is_hard(cells: &Cells, side: u8) -> bool {
    let attacks = |p: &u8| cells[usize::from(*p)] == 0 && !windows(cells, *p, side, 3).is_empty();
    !stands(cells)
        && quiet(cells, side)
        && quiet(cells, other(side))
        && (0..225).filter(attacks).count() >= 10
}

/// The side, to move, makes a five within `k` of its moves against every legal reply, if it follows
/// the line and else completes a five where it can.
pub fn wins(cells: &Cells, side: u8, k: usize, line: &[u8]) -> bool {
    if k == 0 || stands(cells) {
        return false;
    }
    let five = (0..225).find(|&p| completes(cells, p, side));
    if let Some(p) = five {
        return legal(cells, p, side);
    }
    let Some((&p, rest)) = line.split_first() else {
        return false;
    };
    let next = with(cells, p, side);
    let replies: Vec<u8> = (0..225).filter(|&q| legal(&next, q, other(side))).collect();
    let after = |q: u8| {
        let rest = if rest.first() == Some(&q) {
            &rest[1..]
        } else {
            &[]
        };
        wins(&with(&next, q, other(side)), side, k - 1, rest)
    };
    legal(cells, p, side)
        && replies.iter().all(|&q| after(q))
        && (!replies.is_empty() || wins(&next, side, k - 1, &[]))
}
