//! How deep questions go: `depth [BOARDS [SEARCHED [SEED]]]`. First so many boards, each at all 256
//! codes, against the naive reading of document 02; then the deepest question of so many that a
//! search looks at. Exit 1 on any difference.

use oracle::naive;
use renju::{Cells, Point};
use runs::depth::{ask, compare, search};
use std::process::ExitCode;
use std::time::Instant;

fn main() -> ExitCode {
    let Some([boards, searched, seed]) = numbers() else {
        eprintln!("usage: depth [BOARDS [SEARCHED [SEED]]]");
        return ExitCode::from(2);
    };
    println!("{boards} boards compared, {searched} searched; seed {seed}");
    let start = Instant::now();
    let tally = compare(&ask, boards, seed);
    print!("{}", tally.report());
    println!("{:.1} s", start.elapsed().as_secs_f64());
    if searched > 0 {
        let start = Instant::now();
        let deepest = search(searched, seed);
        let (cells, p) = (deepest.cells, deepest.code);
        let seen = naive::question_depth(&cells, usize::from(p)) as u32;
        assert_eq!(seen, deepest.depth, "the naive reading says otherwise");
        let point = Point::from_code(p).expect("a code");
        let cells = Cells::from_bytes(&cells).expect("cells");
        println!("deepest {} at {point} of\n{cells}", deepest.depth);
        println!("{:.1} s", start.elapsed().as_secs_f64());
    }
    ExitCode::from(tally.status())
}

/// What the arguments say; nothing if they are wrong.
fn numbers() -> Option<[u64; 3]> {
    let given: Result<Vec<u64>, _> = std::env::args().skip(1).map(|arg| arg.parse()).collect();
    let given = given.ok().filter(|given| given.len() <= 3)?;
    let number = |place: usize, other: u64| given.get(place).copied().unwrap_or(other);
    Some([number(0, 2000), number(1, 0), number(2, 1)])
}
