//! The line to a page: a good one hands everything over in order, a poor one loses, repeats and reorders, by a seed.

use super::dice::Dice;

/// How much may be on its way; what is put on a full line is lost.
pub const ROOM: usize = 64;

/// What a line did to what was put on it.
#[derive(Clone, Copy, Debug, Default, PartialEq, Eq)]
pub struct Tally {
    pub lost: u32,
    pub repeated: u32,
    pub reordered: u32,
}

impl Tally {
    fn count(number: &mut u32) {
        *number = number.saturating_add(1);
    }
}

/// One way of a line.
pub struct Line<T> {
    pub poor: bool,
    pub tally: Tally,
    dice: Dice,
    on_the_way: Vec<T>,
}

impl<T: Clone> Line<T> {
    pub const fn new(seed: u64) -> Self {
        Self {
            poor: false,
            tally: Tally {
                lost: 0,
                repeated: 0,
                reordered: 0,
            },
            dice: Dice::new(seed),
            on_the_way: Vec::new(),
        }
    }

    pub fn put(&mut self, parcel: T) {
        if self.on_the_way.len() < ROOM {
            self.on_the_way.push(parcel);
        } else {
            Tally::count(&mut self.tally.lost);
        }
    }

    pub const fn is_empty(&self) -> bool {
        self.on_the_way.is_empty()
    }

    /// What comes off the line now: of a good one all, of a poor one two parcels, or fewer.
    pub fn arrive(&mut self) -> Vec<T> {
        if !self.poor {
            return std::mem::take(&mut self.on_the_way);
        }
        (0..2).filter_map(|_| self.next()).collect()
    }

    /// What comes off a poor line next, if anything does: any parcel on it; three of ten are lost, two of ten will come again.
    fn next(&mut self) -> Option<T> {
        let place = self.dice.below(self.on_the_way.len());
        let parcel = self.on_the_way.get(place)?.clone();
        let fate = self.dice.below(10);
        if fate < 3 {
            Tally::count(&mut self.tally.lost);
        } else if place > 0 {
            Tally::count(&mut self.tally.reordered);
        }
        if (3..5).contains(&fate) {
            Tally::count(&mut self.tally.repeated);
        } else {
            self.on_the_way.remove(place);
        }
        (fate >= 3).then_some(parcel)
    }

    /// Whether something that comes the other way, and waits for nothing, arrives.
    pub fn passes(&mut self) -> bool {
        let lost = self.poor && self.dice.below(10) < 3;
        if lost {
            Tally::count(&mut self.tally.lost);
        }
        !lost
    }
}
