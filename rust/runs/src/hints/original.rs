//! The same search on the original's board, as a plain program makes it there: stones are put and
//! removed, rows are read through a point, and the strict verdict is the original's own. Which points
//! are tried is said by [`Tried`].
//!
//! Request 6 (an eye that completes a five) has changed that verdict, so a line can differ where a
//! search meets such an eye.

use oracle::board::board::Board;
use oracle::board::player::Player;
use oracle::board::point::Point;
use oracle::board::row::RowKind;
use oracle::original;

/// The points that a search tries on each board.
#[derive(Debug, Clone, Copy, PartialEq, Eq)]
pub enum Tried {
    /// Every empty point: whether a Sword or a Four goes through it is asked point by point.
    Every,
    /// The eyes of the side's Swords and Fours, which are listed for the whole board.
    Listed,
}

/// A search, and on how many boards it has looked for an attack.
struct Search {
    board: Board,
    side: Player,
    tried: Tried,
    nodes: u64,
}

/// The first acceptable list of at most `limit` attacks, no points where there is none, and how many
/// boards were searched.
pub fn plan(board: &Board, side: u8, limit: u8, tried: Tried) -> (Vec<u8>, u64) {
    let mut search = Search {
        board: board.clone(),
        side: original::player(side),
        tried,
        nodes: 0,
    };
    let line = search.open().then(|| search.line(limit)).flatten();
    let points = line.unwrap_or_default().into_iter().map(u8::from);
    (points.collect(), search.nodes)
}

impl Search {
    /// No five stands, and the defender can complete none.
    fn open(&self) -> bool {
        let has = |player, kind| self.board.rows(player, kind).next().is_some();
        let five = has(Player::Black, RowKind::Five) || has(Player::White, RowKind::Five);
        !five && !has(self.side.opponent(), RowKind::Four)
    }

    /// The first line from here, of at most `left` attacks, where the defender can complete nothing.
    fn line(&mut self, left: u8) -> Option<Vec<Point>> {
        self.nodes += 1;
        let tried = self.attacks();
        tried.into_iter().find_map(|p| self.begun(p, left))
    }

    /// The points to try, by code.
    fn attacks(&self) -> Vec<Point> {
        let mut points: Vec<Point> = match self.tried {
            Tried::Every => {
                let has = |p, kind| self.has_row(p, self.side, kind);
                let attack = |p: &Point| has(*p, RowKind::Four) || has(*p, RowKind::Sword);
                self.board.empty_points().filter(attack).collect()
            }
            Tried::Listed => {
                let rows = |kind| self.board.rows(self.side, kind);
                let rows = rows(RowKind::Sword).chain(rows(RowKind::Four));
                rows.flat_map(|row| row.eyes()).collect()
            }
        };
        points.sort_unstable_by_key(|&p| u8::from(p));
        points.dedup();
        points
    }

    /// The first line that begins with an attack at a point.
    fn begun(&mut self, p: Point, left: u8) -> Option<Vec<Point>> {
        if self.has_row(p, self.side, RowKind::Four) {
            return Some(vec![p]);
        }
        if self.forbidden(p, self.side) {
            return None;
        }
        self.board.put(self.side, p);
        let line = self.answered(p, left);
        self.board.remove(p);
        line
    }

    /// .. after its stone is put.
    fn answered(&mut self, p: Point, left: u8) -> Option<Vec<Point>> {
        let mut eyes: Vec<Point> = self.board.four_eyes_on(p, self.side).collect();
        eyes.sort_unstable_by_key(|&eye| u8::from(eye));
        eyes.dedup();
        let defender = self.side.opponent();
        match eyes[..] {
            [eye] if !self.forbidden(eye, defender) => {
                if left == 1 {
                    return None;
                }
                self.board.put(defender, eye);
                let quiet = !self.has_row(eye, defender, RowKind::Four);
                let rest = quiet.then(|| self.line(left - 1)).flatten();
                self.board.remove(eye);
                rest.map(|rest| [&[p, eye], &rest[..]].concat())
            }
            _ => Some(vec![p]),
        }
    }

    /// Whether a row of the player's goes through a point.
    fn has_row(&self, p: Point, player: Player, kind: RowKind) -> bool {
        self.board.rows_on(p, player, kind).next().is_some()
    }

    fn forbidden(&self, p: Point, player: Player) -> bool {
        player == Player::Black && self.board.forbidden_strict(p).is_some()
    }
}
