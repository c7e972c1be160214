//! Cases of exact jets, recipes and the two roads, which the source has not. The answers are worked out here from document 01, over 128-bit integers, in
//! its order of work, so that the first refusal is known too.

use super::*;

// Numbers. The error is a refusal.

type Formed = Result<i64, u8>;

fn formed(z: i128) -> Formed { i64::try_from(z).map_err(|_| 9) }
fn plus(a: i64, b: i64) -> Formed { formed(a as i128 + b as i128) }
fn minus(a: i64, b: i64) -> Formed { formed(a as i128 - b as i128) }
fn times(a: i64, b: i64) -> Formed { formed(a as i128 * b as i128) }
fn over(a: i64, b: i64) -> Formed {
    match b {
        0 => Err(7),
        _ if a as i128 % b as i128 != 0 => Err(8),
        _ => formed(a as i128 / b as i128),
    }
}

fn factorial(n: usize) -> u64 { (1..=n as u64).product() }
fn binomial(n: usize, k: usize) -> i64 { (factorial(n) / factorial(k) / factorial(n - k)) as i64 }

// Jets. A curve has the entries (i, 0).

#[derive(Clone, Debug, PartialEq)]
struct Exact {
    surface: bool,
    order: usize,
    list: Vec<i64>,
}

impl Exact {
    fn form(surface: bool) -> Form { if surface { super::surface(1) } else { curve(1) } }
    fn new(surface: bool, order: usize, list: Vec<i64>) -> Self { Exact { surface, order, list } }
    fn too_high(&self) -> bool { self.order > 20 }
    fn miscounted(&self) -> bool { self.list.len() != Exact::form(self.surface).length(self.order) }
    fn at(&self, (i, j): (usize, usize)) -> i64 { self.list[if self.surface { i * (2 * self.order + 3 - i) / 2 + j } else { i }] }
    fn items(&self) -> [Item; 2] { [Whole(self.order as u64), Signed(self.list.clone())] }
}

/// The entries of an order, in the order of work.
fn places(surface: bool, order: usize) -> Vec<(usize, usize)> {
    (0..=order).flat_map(|i| (0..=if surface { order - i } else { 0 }).map(move |j| (i, j))).collect()
}

/// A jet whose entries are formed one after the other from the list of those before.
fn entries(surface: bool, order: usize, entry: impl Fn(&Exact, (usize, usize)) -> Formed) -> Result<Exact, u8> {
    let length = Exact::form(surface).length(order);
    let mut jet = Exact::new(surface, order, vec![0; length]);
    for (k, place) in places(surface, order).into_iter().enumerate() {
        jet.list[k] = entry(&jet, place)?;
    }
    Ok(jet)
}

/// (a[i][j] b[m - i][n - j]) times both binomials.
fn term(a: &Exact, b: &Exact, (m, n): (usize, usize), (i, j): (usize, usize)) -> Formed {
    times(times(a.at((i, j)), b.at((m - i, n - j)))?, binomial(m, i) * binomial(n, j))
}

fn below((m, n): (usize, usize)) -> impl Iterator<Item = (usize, usize)> { (0..=m).flat_map(move |i| (0..=n).map(move |j| (i, j))) }

fn product_at(a: &Exact, b: &Exact, place: (usize, usize)) -> Formed {
    below(place).try_fold(0, |sum, at| plus(sum, term(a, b, place, at)?))
}

/// 0 sum, 1 difference, 2 product, 3 quotient.
fn worked(operation: usize, a: &Exact, b: &Exact) -> Result<Exact, u8> {
    entries(a.surface, a.order.min(b.order), |before, place| match operation {
        0 => plus(a.at(place), b.at(place)),
        1 => minus(a.at(place), b.at(place)),
        2 => product_at(a, b, place),
        _ => over(below(place).skip(1).try_fold(a.at(place), |rest, at| minus(rest, term(b, before, place, at)?))?, b.at((0, 0))),
    })
}

// The carry.

/// Nonincreasing lists of positive parts, the greatest first.
pub(super) fn part_lists(total: usize, len: usize, most: usize) -> Vec<Vec<usize>> {
    if len == 0 {
        return if total == 0 { vec![Vec::new()] } else { Vec::new() };
    }
    let with = |part: usize| part_lists(total - part, len - 1, part).into_iter().map(move |rest| [vec![part], rest].concat());
    (1..=total.min(most)).rev().flat_map(with).collect()
}

fn multiplicity(parts: &[usize]) -> i64 {
    let over_parts = parts.iter().fold(factorial(parts.iter().sum()), |n, part| n / factorial(*part));
    (1..=20).fold(over_parts, |n, part| n / factorial(parts.iter().filter(|p| **p == part).count())) as i64
}

fn carried_at(a: &Exact, c: &[i64], order: usize) -> Formed {
    let mut total = 0;
    for parts in (1..=order).flat_map(|len| part_lists(order, len, order)) {
        let mut tensor = 0;
        for mask in 0..1usize << parts.len() {
            let factor = parts.iter().enumerate().try_fold(1, |x, (p, part)| times(x, c[2 * part + (mask >> p & 1)]))?;
            let ones = mask.count_ones() as usize;
            tensor = plus(tensor, times(a.at((parts.len() - ones, ones)), factor)?)?;
        }
        total = plus(total, times(tensor, multiplicity(&parts))?)?;
    }
    Ok(total)
}

fn carried(a: &Exact, c: &[i64], order: usize) -> Result<Exact, u8> {
    entries(false, order, |_, (m, _)| if m == 0 { Ok(a.at((0, 0))) } else { carried_at(a, c, m) })
}

// Random jets.

fn numbers(random: &mut Random, count: usize) -> Vec<i64> {
    let bits = random.pick(&[1, 1, 1, 2, 2, 3, 3, 5, 8, 12, 20, 31, 40, 55, 62]);
    let sparse = random.below(3) == 0;
    let edges = [i64::MIN, i64::MAX, i64::MIN + 1, 1 << 62, -(1 << 62), 1 << 32, 3037000499, 3037000500, 0, 1, -1];
    match random.below(12) {
        0 => (0..count).map(|_| random.pick(&edges)).collect(),
        _ => (0..count).map(|_| if sparse && random.below(2) == 0 { 0 } else { (random.bits() >> (63 - bits)) as i64 - (1 << bits) }).collect(),
    }
}

fn random_exact(random: &mut Random, surface: bool, order: usize) -> Exact {
    let list = numbers(random, Exact::form(surface).length(order));
    Exact::new(surface, order, list)
}

/// Now and then an order above 20 or a list of the wrong length.
fn damaged(random: &mut Random, jets: &mut [Exact]) {
    let k = random.below(jets.len());
    let jet = &mut jets[k];
    match random.below(30) {
        0 => *jet = Exact::new(jet.surface, 21, vec![1; Exact::form(jet.surface).length(21)]),
        1 => {
            jet.list.pop();
        }
        2 => jet.list.push(0),
        _ => {}
    }
}

fn two_orders(random: &mut Random) -> (usize, usize) {
    let a = random.order();
    (a, if random.below(4) == 0 { random.order() } else { a })
}

/// Two jets; `quotient` mostly gives a product and one of its factors.
fn two_jets(random: &mut Random, surface: bool, quotient: bool) -> [Exact; 2] {
    let (m, n) = two_orders(random);
    let (mut a, mut b) = (random_exact(random, surface, m), random_exact(random, surface, n));
    if quotient && random.below(4) != 0 {
        if random.below(2) == 0 {
            b.list[0] = random.pick(&[1, -1, 1, -1, 2, 0]);
        }
        a = worked(2, &a, &b).unwrap_or(a);
    }
    let mut jets = [a, b];
    damaged(random, &mut jets);
    jets
}

// Operations.

fn operation(name: &str, given: &'static str, answer: &'static str, fixed: Vec<Vec<Item>>, random: Make, rust: Work) -> Operation {
    Operation { name: name.to_string(), given, answer, stored: 0, fixed, random, rust }
}

fn answer(outcome: Result<Vec<i64>, u8>) -> Answer {
    match outcome {
        Ok(list) => Answer { refusal: 0, items: vec![Signed(list)] },
        Err(refusal) => Answer::refused(refusal),
    }
}

fn checked(checks: &[(u8, bool)]) -> Result<(), u8> {
    match first(checks) {
        0 => Ok(()),
        refusal => Err(refusal),
    }
}

impl Reader<'_> {
    fn exact(&mut self, surface: bool) -> Exact { Exact::new(surface, self.whole(), self.signed()) }
}

fn whole(name: &str, work: fn(i64, i64) -> Formed) -> Operation {
    let case = |a: i64, b: i64| vec![Signed(vec![a]), Signed(vec![b])];
    operation(
        name,
        "a, b",
        "number",
        vec![case(1 << 62, 2), case(1 << 62, 1), case(i64::MIN, -1), case(5, 2), case(4, 0), case(i64::MIN, 0), case(-7, 7)],
        Box::new(move |random| {
            let (a, b) = (numbers(random, 1)[0], numbers(random, 1)[0]);
            case(if random.below(3) == 0 { a.wrapping_mul(b) } else { a }, b)
        }),
        Box::new(move |items| {
            let mut reader = Reader::new(items);
            let (a, b) = (reader.signed(), reader.signed());
            answer(work(a[0], b[0]).map(|z| vec![z]))
        }),
    )
}

fn of_two(name: &str, surface: bool, work: usize) -> Operation {
    let figures = if surface { vec![] } else { vec![(vec![1, 2, 3], vec![4, 5, 6]), (vec![4, 13, 38], vec![1, 2, 3]), (vec![5], vec![2]), (vec![1 << 62], vec![2])] };
    let case = move |(a, b): (Vec<i64>, Vec<i64>)| [Exact::new(surface, a.len() - 1, a).items(), Exact::new(surface, b.len() - 1, b).items()].concat();
    operation(
        name,
        "jet a, jet b",
        "list",
        figures.into_iter().map(case).collect(),
        Box::new(move |random| two_jets(random, surface, work == 3).iter().flat_map(Exact::items).collect()),
        Box::new(move |items| {
            let mut reader = Reader::new(items);
            let (a, b) = (reader.exact(surface), reader.exact(surface));
            let checks = checked(&[(1, a.too_high() || b.too_high()), (2, a.miscounted() || b.miscounted())]);
            answer(checks.and_then(|()| worked(work, &a, &b)).map(|jet| jet.list))
        }),
    )
}

/// The derivative by u (1, 0) or by v (0, 1); curves have the first.
fn derivative(name: &str, surface: bool, (p, q): (usize, usize)) -> Operation {
    operation(
        name,
        "jet",
        "list",
        Vec::new(),
        Box::new(move |random| {
            let order = random.order();
            let mut jets = [random_exact(random, surface, order)];
            damaged(random, &mut jets);
            jets[0].items().to_vec()
        }),
        Box::new(move |items| {
            let a = Reader::new(items).exact(surface);
            let checks = checked(&[(1, a.too_high()), (2, a.miscounted() || a.order == 0)]);
            answer(checks.and_then(|()| entries(surface, a.order - 1, |_, (i, j)| Ok(a.at((i + p, j + q))))).map(|jet| jet.list))
        }),
    )
}

/// One entry of a product: curves by an order, surfaces by two.
fn entry_of_two(name: &str, surface: bool) -> Operation {
    operation(
        name,
        if surface { "jet a, jet b, order by u, order by v" } else { "jet a, jet b, order" },
        "number",
        Vec::new(),
        Box::new(move |random| {
            let jets = two_jets(random, surface, false);
            let order = match random.below(16) {
                0 => random.pick(&[20, 21, 22]),
                1 => random.below(9),
                _ => random.below(jets[0].order.min(jets[1].order) + 1),
            };
            let m = random.below(order + 1);
            let huge = random.below(32) == 0;
            let asked = if surface { vec![if huge { usize::MAX } else { m }, order - m] } else { vec![if huge { usize::MAX } else { order }] };
            jets.iter().flat_map(Exact::items).chain(asked.into_iter().map(|n| Whole(n as u64))).collect()
        }),
        Box::new(move |items| {
            let mut reader = Reader::new(items);
            let (a, b) = (reader.exact(surface), reader.exact(surface));
            let place = (reader.whole(), if surface { reader.whole() } else { 0 });
            let order = place.0.saturating_add(place.1);
            let checks = checked(&[
                (1, a.too_high() || b.too_high() || order > 20),
                (2, a.miscounted() || b.miscounted() || a.order < order || b.order < order),
            ]);
            answer(checks.and_then(|()| product_at(&a, &b, place)).map(|z| vec![z]))
        }),
    )
}

/// A parameter curve goes by pairs.
fn random_parameters(random: &mut Random, order: usize) -> Vec<i64> { numbers(random, 2 * order + 2) }

const SURFACE: [i64; 6] = [5, 3, 6, 2, 4, 1];
const PARAMETERS: [i64; 6] = [0, 0, 1, 2, 2, 1];

fn carry(name: &str, whole: bool) -> Operation {
    operation(
        name,
        "jet of the surface, jet of the parameter curve, order",
        if whole { "list" } else { "number" },
        vec![[Exact::new(true, 2, SURFACE.to_vec()).items().to_vec(), vec![Whole(2), Signed(PARAMETERS.to_vec()), Whole(2)]].concat()],
        Box::new(|random| {
            let (m, n) = two_orders(random);
            let mut surfaces = [random_exact(random, true, m)];
            damaged(random, &mut surfaces);
            let mut c = random_parameters(random, n);
            if random.below(30) == 0 {
                c.pop();
            }
            let order = match random.below(16) {
                0 => random.pick(&[20, 21, 22, 9, usize::MAX]),
                1 => m.min(n) + 1,
                2 => 0,
                3..=9 => m.min(n),
                _ => random.below(m.min(n) + 1),
            };
            [surfaces[0].items().to_vec(), vec![Whole(n as u64), Signed(c), Whole(order as u64)]].concat()
        }),
        Box::new(move |items| {
            let mut reader = Reader::new(items);
            let (a, c_order, c, order) = (reader.exact(true), reader.whole(), reader.signed(), reader.whole());
            let checks = checked(&[
                (1, a.too_high() || c_order > 20 || order > 20),
                (2, a.miscounted() || c.len() != 2 * c_order + 2 || a.order < order || c_order < order),
            ]);
            answer(checks.and_then(|()| if whole { carried(&a, &c, order).map(|jet| jet.list) } else { carried_at(&a, &c, order).map(|z| vec![z]) }))
        }),
    )
}

// Recipes.

struct Recipe {
    jets: Vec<Exact>,
    steps: Vec<usize>,
}

impl Recipe {
    fn random(random: &mut Random, surface: bool) -> Recipe {
        let count = match random.below(24) {
            0 => random.pick(&[0, 5]),
            _ => 1 + random.below(4),
        };
        let order = random.order().min(6);
        let alike = random.below(2) == 0;
        let bits = random.pick(&[1, 1, 1, 2, 2, 5, 20, 55]);
        let mut jets: Vec<Exact> = (0..count)
            .map(|_| {
                let order = if alike { order } else { random.order().min(6) };
                let mut jet = random_exact(random, surface, order);
                if random.below(4) != 0 {
                    jet.list = (0..jet.list.len()).map(|_| (random.bits() >> (63 - bits)) as i64 - (1 << bits)).collect();
                }
                if random.below(3) != 0 {
                    jet.list[0] = random.pick(&[1, -1, 1, 2]);
                }
                jet
            })
            .collect();
        if count > 0 {
            damaged(random, &mut jets);
        }
        // Quotients mostly divide a product by one of its factors.
        let mut steps = Vec::new();
        let mut products = Vec::new();
        let length = match random.below(24) {
            0 => random.pick(&[0, 13]),
            1 => 12,
            _ => 1 + random.below(5),
        };
        for here in count..count + length {
            let name = |random: &mut Random| if random.below(64) == 0 { random.pick(&[here, here + 1, usize::MAX]) } else { random.below(here.max(1)) };
            let (left, right) = (name(random), name(random));
            if !products.is_empty() && random.below(5) < 2 {
                let (product, factor) = random.pick(&products[..]);
                steps.extend([3, product, factor]);
                continue;
            }
            let operation = random.pick(&[0, 1, 2, 2, 2, 2, 3]);
            if operation == 2 {
                products.extend([(here, left), (here, right)]);
            }
            steps.extend([operation, left, right]);
        }
        match random.below(48) {
            0 => steps.push(0),
            1 if !steps.is_empty() => steps[0] = random.pick(&[4, usize::MAX]),
            _ => {}
        }
        Recipe { jets, steps }
    }

    fn items(&self) -> Vec<Item> {
        let orders = self.jets.iter().map(|jet| jet.order as u64).collect();
        let entries = self.jets.iter().flat_map(|jet| jet.list.clone()).collect();
        vec![Wholes(orders), Signed(entries), Wholes(self.steps.iter().map(|n| *n as u64).collect())]
    }

    /// The refusals 1 and 2, then the recipe.
    fn read(reader: &mut Reader, surface: bool) -> (u8, Recipe) {
        let (orders, entries, steps) = (reader.wholes(), reader.signed(), reader.wholes());
        let lengths: Vec<usize> = orders.iter().map(|order| Exact::form(surface).length((*order).min(100))).collect();
        let refusal = first(&[(1, orders.iter().any(|order| *order > 20)), (2, lengths.iter().sum::<usize>() != entries.len() || steps.len() % 3 != 0)]);
        let mut rest = &entries[..];
        let mut jets = Vec::new();
        if refusal == 0 {
            for (order, length) in orders.iter().zip(&lengths) {
                let (list, after) = rest.split_at(*length);
                jets.push(Exact::new(surface, *order, list.to_vec()));
                rest = after;
            }
        }
        (refusal, Recipe { jets, steps })
    }

    fn counted(&self) -> bool {
        let (inputs, steps) = (self.jets.len(), self.steps.len() / 3);
        let names = |(k, step): (usize, &[usize])| step[0] < 4 && step[1] < inputs + k && step[2] < inputs + k;
        (1..=4).contains(&inputs) && (1..=12).contains(&steps) && self.steps.chunks(3).enumerate().all(names)
    }

    /// The smallest order of the inputs.
    fn order(&self) -> usize { self.jets.iter().map(|jet| jet.order).min().unwrap_or(0) }

    fn build(&self) -> Result<Exact, u8> {
        if !self.counted() {
            return Err(4);
        }
        let order = self.order();
        // Cut to the smallest order.
        let mut jets: Vec<Exact> = self.jets.iter().map(|jet| entries(jet.surface, order, |_, place| Ok(jet.at(place))).unwrap()).collect();
        for step in self.steps.chunks(3) {
            let next = worked(step[0], &jets[step[1]], &jets[step[2]])?;
            jets.push(next);
        }
        Ok(jets.pop().unwrap())
    }
}

fn recipe(name: &str, surface: bool) -> Operation {
    operation(
        name,
        "the jets' orders, their lists one after the other, the steps",
        "list",
        Vec::new(),
        Box::new(move |random| Recipe::random(random, surface).items()),
        Box::new(move |items| {
            let (refusal, recipe) = Recipe::read(&mut Reader::new(items), surface);
            if refusal != 0 {
                return Answer::refused(refusal);
            }
            answer(recipe.build().map(|jet| jet.list))
        }),
    )
}

/// Both roads: their refusals and lists.
fn roads() -> Operation {
    let outcome = |road: Result<Exact, u8>| match road {
        Ok(jet) => [Whole(0), Signed(jet.list)],
        Err(refusal) => [Whole(refusal as u64), Signed(Vec::new())],
    };
    operation(
        "roads",
        "a recipe of surfaces, jet of the parameter curve, order",
        "refusal and list of the first road, of the second",
        vec![
            [vec![Wholes(vec![2]), Signed(SURFACE.to_vec()), Wholes(vec![2, 0, 0])], vec![Whole(2), Signed(PARAMETERS.to_vec()), Whole(2)]].concat(),
            // Only the second road forms a number outside the range: in the terms of a difference.
            vec![
                Wholes(vec![2, 2]),
                Signed(vec![1, 0, 1 << 61, 0, 0, 1 << 61, 1, 0, (1 << 61) - 1, 0, 0, (1 << 61) - 3]),
                Wholes(vec![1, 0, 1]),
                Whole(2),
                Signed(vec![0, 0, 3, 2, 1, 0]),
                Whole(2),
            ],
        ],
        Box::new(|random| {
            let recipe = Recipe::random(random, true);
            let least = recipe.order().min(20);
            let c_order = if random.below(8) == 0 { random.below(6) } else { least + random.below(2) };
            let mut c = random_parameters(random, c_order);
            if random.below(3) != 0 {
                c = (0..c.len()).map(|_| random.below(7) as i64 - 3).collect();
            }
            if random.below(40) == 0 {
                c.pop();
            }
            let order = if random.below(10) == 0 { random.pick(&[0, 1, 3, 7, 21]) } else { least.min(c_order) };
            [recipe.items(), vec![Whole(c_order as u64), Signed(c), Whole(order as u64)]].concat()
        }),
        Box::new(move |items| {
            let mut reader = Reader::new(items);
            let (refusal, recipe) = Recipe::read(&mut reader, true);
            let (c_order, c, order) = (reader.whole(), reader.signed(), reader.whole());
            // The lists are tested first; an order asked is met by the carry, and 4 by the recipe.
            let refusal = match refusal {
                1 => 1,
                _ if c_order > 20 => 1,
                2 => 2,
                _ if c.len() != 2 * c_order + 2 => 2,
                _ => 0,
            };
            let along = |a: &Exact| match order {
                21.. => Err(1),
                _ if a.order.min(c_order) < order => Err(2),
                _ => carried(a, &c, order),
            };
            let run = |road: &dyn Fn() -> Result<Exact, u8>| outcome(if refusal == 0 { road() } else { Err(refusal) });
            let first = run(&|| along(&recipe.build()?));
            let second = run(&|| {
                // A fifth jet has no place in a recipe, and is not carried.
                let jets = recipe.jets.iter().take(4).map(along).collect::<Result<_, u8>>()?;
                if recipe.counted() { Recipe { jets, steps: recipe.steps.clone() }.build() } else { Err(4) }
            });
            Answer { refusal: 0, items: [first, second].concat() }
        }),
    )
}

pub(super) fn exact() -> Vec<Operation> {
    let mut all = vec![whole("whole_sum", plus), whole("whole_difference", minus), whole("whole_product", times), whole("whole_quotient", over)];
    for (surface, kind) in [(false, "curve"), (true, "surface")] {
        for (work, end) in ["sum", "difference", "combinatorial_derivatives", "quotient"].into_iter().enumerate() {
            all.push(of_two(&format!("exact_{kind}_{end}"), surface, work));
        }
        all.push(entry_of_two(&format!("exact_{kind}_combinatorial_derivative"), surface));
    }
    all.push(derivative("exact_curve_derivative", false, (1, 0)));
    all.push(derivative("exact_surface_derivative_u", true, (1, 0)));
    all.push(derivative("exact_surface_derivative_v", true, (0, 1)));
    all.extend([carry("exact_composite_derivative", false), carry("exact_composite_derivatives", true)]);
    all.extend([recipe("recipe_curves", false), recipe("recipe_surfaces", true), roads()]);
    all
}
