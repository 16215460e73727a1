//! The timed loop: two referees are asked the same questions, in turn. One is ours, the fast one of
//! the host interface; the other is the original, or ours that is slow.

use std::time::Instant;

/// Questions that both can be asked, told by number.
pub trait Race {
    /// How many questions there are.
    fn count(&self) -> usize;
    /// Asks both, outside any timed part, and says whether they answer the same.
    fn agrees(&mut self, question: usize) -> bool;
    /// Asks the other one so many times. This and [`Race::ours`] are what is timed.
    fn other(&mut self, question: usize, calls: usize);
    /// Asks ours so many times.
    fn ours(&mut self, question: usize, calls: usize);
}

/// How long and how often is measured.
#[derive(Debug, Clone, Copy)]
pub struct Pace {
    /// Rounds that are run and not counted.
    pub warm_up: usize,
    /// Rounds of which the fastest is taken, question by question.
    pub rounds: usize,
    /// How long the samples of the faster side are at least, in ns, as far as can be told before
    /// the rounds: calls that take less go several to a sample, so that looking at the clock
    /// weighs little.
    pub sample: f64,
}

/// The time of one call for each question in ns, in the fastest of the rounds: what differs from
/// question to question is then the question, and not what else the machine did.
#[derive(Debug, Clone)]
pub struct Times {
    /// Calls in one sample, the same for both sides: neither is helped more by being asked again.
    pub calls: usize,
    pub other: Vec<f64>,
    pub ours: Vec<f64>,
}

/// Times both sides. The answers are compared before the rounds and again after them; the number of
/// the first question that is answered in two ways is an error.
pub fn run(race: &mut impl Race, pace: &Pace) -> Result<Times, usize> {
    compare(race)?;
    let calls = calls_per_sample(race, pace.sample);
    let mut fastest = vec![[f64::INFINITY; 2]; race.count()];
    // Round by round over all questions: a slow moment of the machine then falls on one round of
    // many questions, not on all rounds of one, and a question finds no cache that is still warm
    // from itself.
    for round in 0..pace.warm_up + pace.rounds {
        for (question, kept) in fastest.iter_mut().enumerate() {
            let sample = pair(race, question, calls, (round + question) % 2 == 0);
            if round >= pace.warm_up {
                *kept = [kept[0].min(sample[0]), kept[1].min(sample[1])];
            }
        }
    }
    compare(race)?;
    let side = |n: usize| fastest.iter().map(|kept| kept[n] / calls as f64).collect();
    Ok(Times {
        calls,
        other: side(0),
        ours: side(1),
    })
}

fn compare(race: &mut impl Race) -> Result<(), usize> {
    match (0..race.count()).find(|&question| !race.agrees(question)) {
        Some(question) => Err(question),
        None => Ok(()),
    }
}

/// One sample of each side in ns, ours last in the answer, whichever was asked first.
fn pair(race: &mut impl Race, question: usize, calls: usize, other_first: bool) -> [f64; 2] {
    if other_first {
        let other = timed(|| race.other(question, calls));
        let ours = timed(|| race.ours(question, calls));
        [other, ours]
    } else {
        let ours = timed(|| race.ours(question, calls));
        let other = timed(|| race.other(question, calls));
        [other, ours]
    }
}

fn timed(ask: impl FnOnce()) -> f64 {
    let start = Instant::now();
    ask();
    start.elapsed().as_nanos() as f64
}

/// How many questions are tried to find out how long a call takes, at most.
const TRIED: usize = 100;

/// How often each of them is.
const TRIES: usize = 3;

/// The first power of two with which the shortest sample of the faster side is as long as it
/// should be.
fn calls_per_sample(race: &mut impl Race, sample: f64) -> usize {
    let every = race.count().div_ceil(TRIED).max(1);
    let mut calls = 1;
    loop {
        let tried = (0..race.count()).step_by(every);
        let times = tried.map(|question| shortest(race, question, calls));
        // Nothing to ask takes as long as one likes.
        if times.fold(f64::INFINITY, f64::min) >= sample {
            return calls;
        }
        calls *= 2;
    }
}

/// The shortest of some samples of a question, in ns, whichever side it is of. What is asked for
/// the first time takes longer than it will in the rounds, so that is not counted.
fn shortest(race: &mut impl Race, question: usize, calls: usize) -> f64 {
    pair(race, question, 1, true);
    let tries = (0..TRIES).flat_map(|n| pair(race, question, calls, n % 2 == 0));
    tries.fold(f64::INFINITY, f64::min)
}
