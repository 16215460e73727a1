//! A run in words: its plan, its counts, and differences so that they can be made again.

use super::Plan;
use super::call::{Call, GUARD, Given, Lends, NAMES};
use super::judge::{Difference, Outcome};
use super::lines;
use super::tally::{Count, Tally};
use oracle::naive_text::write_diagram;
use std::fmt::Write;

/// What the run is going to do.
pub fn opening(plan: &Plan) -> String {
    let Plan {
        comparisons,
        seed,
        threads,
    } = plan;
    let whole = lines::whole_sizes(*comparisons);
    let random = plan.random_lines() * threads;
    format!(
        "at least {comparisons} comparisons, seed {seed}, {threads} threads\n\
         one comparison: one host call, its word and all its lent and handed bytes\n\
         lines: every one of sizes {} to {}, {random} random ones of each size from {} to 15\n",
        whole.start(),
        whole.end(),
        whole.end() + 1
    )
}

/// A line for each function: its counts.
pub fn counts(tally: &Tally) -> String {
    let mut out = format!(
        "{:<32}{:>12}{:>13}  refusals\n",
        "function", "comparisons", "differences"
    );
    for (name, count) in NAMES.iter().zip(&tally.counts) {
        let (comparisons, differences) = (count.comparisons, count.differences);
        let refusals = refusals(count);
        writeln!(
            out,
            "{name:<32}{comparisons:>12}{differences:>13}  {refusals}"
        )
        .expect("a string takes all");
    }
    out
}

/// How often each refusal was expected: `8: 31, 12: 5`.
fn refusals(count: &Count) -> String {
    let given = count
        .refusals
        .iter()
        .enumerate()
        .filter(|(_, times)| **times > 0);
    let parts: Vec<String> = given
        .map(|(number, times)| format!("{number}: {times}"))
        .collect();
    parts.join(", ")
}

/// What the games came to: how many moves were read, and how often each fault and winner.
pub fn games(tally: &Tally) -> String {
    let games = &tally.games;
    let [none, occupied, forbidden, after_five] = games.reasons;
    let [nobody, black, white] = games.winners;
    format!(
        "games: {} moves read; {none} without a fault, {occupied} occupied, {forbidden} forbidden, \
         {after_five} after a five; of those without {nobody} won by nobody, {black} by Black, \
         {white} by White\n",
        games.moves
    )
}

/// What was not held to the original.
pub fn left_out(tally: &Tally) -> String {
    let [texts, verdicts, lists, games, lone, diagrams] = tally.left_out;
    format!(
        "left out of the comparison with the original and held to the naive reading: {texts} texts, \
         by request 5; {verdicts} verdicts, {lists} lists and {games} games, by request 6; by request 13 \
         {lone} texts with no slash and no comma at the live entry, {diagrams} with one as diagrams\n"
    )
}

/// The last line: how many comparisons and differences.
pub fn total(tally: &Tally) -> String {
    format!(
        "{} comparisons, {} differences\n",
        tally.comparisons(),
        tally.differences()
    )
}

/// A difference with all that is needed to make it again.
pub fn difference(difference: &Difference) -> String {
    let Difference {
        case,
        expected,
        got,
    } = difference;
    let mut out = format!("difference in {}: {:?}\n", case.call.name(), case.call);
    out += &handed(&case.call, &case.given);
    if case.call.lends() != Lends::Nothing {
        let lent = expected.lent.len() - 2 * GUARD;
        let filled = case.filled;
        out += &format!("{lent} bytes lent, {GUARD} of guard on both sides, filled by {filled}\n");
    }
    out += &format!(
        "expected {}\ngot      {}\n",
        outcome(expected),
        outcome(got)
    );
    let mut pairs = expected.lent.iter().zip(&got.lent).enumerate();
    if let Some((place, (one, other))) = pairs.find(|(_, (one, other))| one != other) {
        let place = place as i64 - GUARD as i64;
        out += &format!("lent byte {place}: expected {one}, got {other}\n");
    }
    if expected.given != got.given {
        out += &format!("the handed bytes were changed to {:?}\n", got.given);
    }
    out
}

/// The bytes handed to a call: a text, the diagram of sound cells, or the bytes as they are.
fn handed(call: &Call, given: &Given) -> String {
    let (bytes, length) = (&given.bytes, given.bytes.len());
    match (call, &given.sound) {
        (Call::Game, _) => format!("{length} moves: {bytes:?}\n"),
        _ if call.takes_a_text() => {
            format!("text of {length} bytes: \"{}\"\n", bytes.escape_ascii())
        }
        (Call::TurnPoint { .. }, _) => String::new(),
        _ if call.line().is_some() => String::new(),
        (_, Some((cells, _))) => format!("cells:\n{}\n", write_diagram(cells)),
        (_, None) => format!("cells, {length} bytes: {bytes:?}\n"),
    }
}

/// The word and what it means, and the lent bytes between their guards.
fn outcome(outcome: &Outcome) -> String {
    let meaning = match outcome.word >> 16 {
        0 => format!("answer {}", outcome.word),
        refusal => format!("refusal {refusal}"),
    };
    let lent = match outcome.lent.len() {
        0 => String::new(),
        length => format!(", lent bytes {:?}", &outcome.lent[GUARD..length - GUARD]),
    };
    format!("word {:#x}, {meaning}{lent}", outcome.word)
}
