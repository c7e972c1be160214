//! Runs of an answering side over stored or random cases. The side is the source itself or, over a linked library, ours.

use crate::cases::{parse, text, Answer, Item, Operation};
use crate::inputs::Random;

/// A side of the comparison: what it answers to a case.
pub type Side<'a> = &'a dyn Fn(&[Item]) -> Answer;

/// Works the cases of a stored file: how many there are, and the lines whose answer is another, with that answer behind them.
pub fn stored(operation: &Operation, file: &str, side: Side) -> (usize, Vec<String>) {
    let like = operation.cases().swap_remove(0);
    let lines: Vec<&str> = file.lines().filter(|line| !line.starts_with('#')).collect();
    let differs = |line: &&str| {
        let Some((given, answer)) = line.split_once(" = ") else { return Some(format!("{line}: not a case")) };
        let mut words = given.split(' ');
        let Some(items) = parse(&like, &mut words).filter(|_| words.next().is_none()) else { return Some(format!("{line}: not a case")) };
        let found = side(&items).text();
        (found != answer).then(|| format!("{line}\nfound {found}"))
    };
    (lines.len(), lines.iter().filter_map(differs).collect())
}

/// What a run over given cases found.
#[derive(Default)]
pub struct Found {
    pub cases: usize,
    /// how many of them the source answers
    pub answered: usize,
    /// the cases in which the two differ, with both answers
    pub wrong: Vec<String>,
}

/// Works cases by the source and by `side`.
pub fn both(operation: &Operation, cases: impl Iterator<Item = Vec<Item>>, side: Side) -> Found {
    let mut found = Found::default();
    for case in cases {
        let (rust, other) = ((operation.rust)(&case), side(&case));
        found.cases += 1;
        found.answered += (rust.refusal == 0) as usize;
        if !rust.same(&other) {
            found.wrong.push(format!("{} = {}\nfound {}", text(&case), rust.text(), other.text()));
        }
    }
    found
}

/// The same over `count` random cases.
pub fn random(operation: &Operation, mut random: Random, count: usize, side: Side) -> Found {
    both(operation, (0..count).map(|_| (operation.random)(&mut random)), side)
}
