//! Cases of part lists and multiplicities (source file 003), and of the square root.

use super::*;
use crate::inputs::Flavour;

// Lists of parts.

pub(super) fn part_lists() -> Operation {
    let mut fixed = Vec::new();
    for order in 0..=21 {
        for len in 0..=order + 1 {
            fixed.push(vec![Whole(order), Whole(len)]);
        }
    }
    for pair in [[3, 4096], [u64::MAX, 1], [1, u64::MAX], [u64::MAX, u64::MAX]] {
        fixed.push(pair.map(Whole).to_vec());
    }
    Operation {
        name: "part_lists".to_string(),
        given: "order, len",
        answer: "how many lists, then of each list its multiplicity and its parts, as one counted list",
        stored: 0,
        fixed,
        random: Box::new(|random| vec![Whole(random.below(24) as u64), Whole(random.below(24) as u64)]),
        rust: Box::new(|items| {
            let mut reader = Reader::new(items);
            let (order, len) = (reader.whole(), reader.whole());
            let refusal = first(&[(1, order > 20), (3, len == 0 || len > order)]);
            if refusal != 0 {
                return Answer::refused(refusal);
            }
            let lists = oracle::part_lists(order, len).expect("the source walks");
            let of_list = |list: &Vec<usize>| {
                let multiplicity = oracle::multiplicity(list).expect("the source counts") as u64;
                Wholes([vec![multiplicity], list.iter().map(|p| *p as u64).collect()].concat())
            };
            Answer { refusal: 0, items: [vec![Whole(lists.len() as u64)], lists.iter().map(of_list).collect()].concat() }
        }),
    }
}

pub(super) fn multiplicity() -> Operation {
    let fixed: [&[u64]; 13] = [
        &[],
        &[0],
        &[1],
        &[1, 2],
        &[1, 0],
        &[2, 1, 1],
        &[20],
        &[21],
        &[10, 10],
        &[10, 10, 1],
        &[0; 25],
        &[1; 21],
        &[u64::MAX, 1],
    ];
    Operation {
        name: "multiplicity".to_string(),
        given: "the parts, as one counted list",
        answer: "the multiplicity",
        stored: 300,
        fixed: fixed.iter().map(|list| vec![Wholes(list.to_vec())]).collect(),
        random: Box::new(|random| {
            let mut list: Vec<u64> = Vec::new();
            let mut left = 1 + random.below(20);
            while left > 0 {
                let most = left.min(1 + random.below(8));
                let part = 1 + random.below(most);
                list.push(part as u64);
                left -= part;
            }
            if random.below(8) != 0 {
                list.sort_by(|a, b| b.cmp(a));
            }
            if random.below(16) == 0 {
                list.push(random.below(3) as u64);
            }
            vec![Wholes(list)]
        }),
        rust: Box::new(|items| {
            let list = Reader::new(items).wholes();
            let order = list.iter().fold(0usize, |sum, part| sum.saturating_add(*part));
            let refusal = first(&[(1, order > 20), (3, list.is_empty() || list.contains(&0) || list.windows(2).any(|w| w[0] < w[1]))]);
            if refusal != 0 {
                return Answer::refused(refusal);
            }
            Answer { refusal: 0, items: vec![Whole(oracle::multiplicity(&list).expect("the source counts") as u64)] }
        }),
    }
}

/// The processor's square root, which IEEE 754 fixes to the last bit. The source takes it in `magnitude`.
pub(super) fn square_root() -> Operation {
    let mut fixed: Vec<f64> = vec![0.0, 1.0, 2.0, 4.0, f64::MAX, f64::MIN_POSITIVE, f64::from_bits(1), f64::from_bits(0xF_FFFF_FFFF_FFFF)];
    let mut random = Random::new(11);
    for _ in 0..60 {
        // Squares and their neighbours, squares of odd 27-bit numbers halved: exact roots, and roots close to a tie.
        let root = ((1u64 << 26) + (random.bits() >> 38)) as f64;
        let square = root * root;
        fixed.extend([square, f64::from_bits(square.to_bits() + 1), f64::from_bits(square.to_bits() - 1), square * 0.5, square * 2f64.powi(-1070)]);
    }
    Operation {
        name: "square_root".to_string(),
        given: "a float of sign +",
        answer: "its square root",
        stored: 200,
        fixed: fixed.into_iter().map(|x| vec![Floats(vec![x])]).collect(),
        random: Box::new(|random| {
            let flavour = random.pick(&[Flavour::Unit, Flavour::Wide, Flavour::Wide, Flavour::Subnormal, Flavour::Tiny, Flavour::Huge, Flavour::Everyday]);
            vec![Floats(vec![random.of(flavour).abs()])]
        }),
        rust: Box::new(|items| {
            let x = Reader::new(items).floats();
            Answer { refusal: 0, items: vec![Floats(vec![x[0].sqrt()])] }
        }),
    }
}

// What the source has not: the numbers by themselves, and a walk record that holds anything.

fn number(name: &str, pair: bool, fixed: Vec<Vec<Item>>, work: fn(usize, usize) -> Result<u64, u8>) -> Operation {
    Operation {
        name: name.to_string(),
        given: if pair { "order, len" } else { "n" },
        answer: "number",
        stored: 0,
        fixed,
        random: Box::new(move |random| (0..if pair { 2 } else { 1 }).map(|_| Whole(random.below(24) as u64)).collect()),
        rust: Box::new(move |items| {
            let mut reader = Reader::new(items);
            let n = reader.whole();
            match work(n, if pair { reader.whole() } else { 0 }) {
                Ok(number) => Answer { refusal: 0, items: vec![Whole(number)] },
                Err(refusal) => Answer::refused(refusal),
            }
        }),
    }
}

/// Order, len, whether it has ended, then 20 parts.
fn random_walk(random: &mut Random) -> Vec<u64> {
    let most = random.pick(&[9, 9, 9, 9, 20]);
    let order = 1 + random.below(most);
    let len = 1 + random.below(order);
    let lists = super::exact::part_lists(order, len, order);
    let list = match random.below(4) {
        0 => &lists[lists.len() - 1],
        _ => &lists[random.below(lists.len())],
    };
    let mut walk: Vec<u64> = [order, len, (random.below(10) == 0) as usize].iter().chain(list).map(|n| *n as u64).collect();
    // What is stored past the list is not read.
    let junk = random.below(3) == 0;
    walk.resize_with(23, || if junk { random.bits() } else { 0 });
    match random.below(24) {
        0 => walk[0] = random.pick(&[0, 21, order as u64 + 1, u64::MAX]),
        1 => walk[1] = random.pick(&[0, 21, order as u64 + 1, len as u64 - 1, u64::MAX]),
        2 => walk[2] = random.pick(&[2, 3, u64::MAX]),
        3 | 4 => {
            let at = 3 + random.below(len);
            walk[at] = random.pick(&[0, 1, walk[at] + 1, u64::MAX, walk[at] - 1]);
        }
        5 => {
            walk.pop();
        }
        6 => walk.push(0),
        7 => walk[3..3 + len].reverse(),
        _ => {}
    }
    walk
}

fn walk_next() -> Operation {
    Operation {
        name: "walk_next".to_string(),
        given: "the walk: order, len, whether it has ended, 20 parts",
        answer: "the parts handed out, the walk then",
        stored: 0,
        fixed: vec![vec![Wholes(vec![0; 23])]],
        random: Box::new(|random| vec![Wholes(random_walk(random))]),
        rust: Box::new(|items| {
            let walk = Reader::new(items).wholes();
            if walk.len() != 23 {
                return Answer::refused(2);
            }
            let (order, len) = (walk[0], walk[1]);
            let refusal = first(&[(1, order > 20), (3, walk[2] > 1 || len == 0 || len > order)]);
            if refusal != 0 {
                return Answer::refused(refusal);
            }
            let wholes = |list: &[usize]| Wholes(list.iter().map(|n| *n as u64).collect());
            let answered = |parts: &[usize], walk: &[usize]| Answer { refusal: 0, items: vec![wholes(parts), wholes(walk)] };
            if walk[2] == 1 {
                return answered(&[0; 20], &walk);
            }
            let lists = super::exact::part_lists(order, len, order);
            let Some(at) = lists.iter().position(|list| list[..] == walk[3..3 + len]) else { return Answer::refused(3) };
            let mut parts = [0; 20];
            parts[..len].copy_from_slice(&lists[at]);
            let mut after = walk.clone();
            match lists.get(at + 1) {
                Some(next) => after[3..3 + len].copy_from_slice(next),
                None => after[2] = 1,
            }
            answered(&parts, &after)
        }),
    }
}

/// S(order, len), by its recurrence.
fn stirling_number(order: usize, len: usize) -> u64 {
    match (order, len) {
        (0, 0) => 1,
        (0, _) | (_, 0) => 0,
        _ => len as u64 * stirling_number(order - 1, len) + stirling_number(order - 1, len - 1),
    }
}

/// The Rust's own walk, each list's multiplicity added.
fn walked_total(order: usize, len: usize) -> u64 {
    let lists = oracle::part_lists(order, len).expect("the Rust walks these lists");
    lists.iter().map(|list| oracle::multiplicity(list).expect("the Rust counts a list that it hands out") as u64).sum()
}

pub(super) fn added() -> Vec<Operation> {
    let totals = (0..=22).flat_map(|order| (0..=22).map(move |len| vec![Whole(order), Whole(len)])).collect();
    let pairs = (0..=21).flat_map(|order| (0..=order + 1).map(move |len| vec![Whole(order), Whole(len)])).collect();
    vec![
        number("factorial", false, (0..=22).map(|n| vec![Whole(n)]).collect(), |n, _| if n > 20 { Err(1) } else { Ok((1..=n as u64).product()) }),
        number("stirling_number", true, pairs, |order, len| {
            if order > 20 {
                Err(1)
            } else if len > order {
                Err(3)
            } else {
                Ok(stirling_number(order, len))
            }
        }),
        number("total_multiplicity", true, totals, |order, len| match first(&[(1, order > 20), (3, len == 0 || len > order)]) {
            0 => Ok(walked_total(order, len)),
            refusal => Err(refusal),
        }),
        walk_next(),
    ]
}
