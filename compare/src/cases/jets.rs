//! Cases of the operations on jets of floats and of vectors (source file 003).

use super::*;
use crate::inputs::Flavour;
use crate::oracle::{Kind, Product};

// Random jets.

fn random_jet(random: &mut Random, form: Form, order: usize, flavour: Flavour) -> Jet {
    let list = random.list(flavour, form.length(order));
    Jet { form, order, list }
}

/// Now and then a fault: an order above 20, a list of the wrong length, a float that is not finite (which may be one that is cut off).
fn damaged(random: &mut Random, mut jets: Vec<Jet>) -> Vec<Jet> {
    let k = random.below(jets.len());
    let jet = &mut jets[k];
    match random.below(24) {
        0 => {
            jet.order = if jet.form.surface { 21 } else { 21 + random.below(4) };
            jet.list = vec![1.0; jet.form.length(jet.order)];
        }
        1 => {
            jet.list.pop();
        }
        2 => jet.list.push(0.0),
        3 | 4 => {
            let at = random.below(jet.list.len());
            jet.list[at] = random.not_finite();
        }
        _ => {}
    }
    jets
}

/// Two orders: mostly equal.
fn two_orders(random: &mut Random) -> (usize, usize) {
    let a = random.order();
    (a, if random.below(4) == 0 { random.order() } else { a })
}

fn two_jets(random: &mut Random, forms: (Form, Form)) -> Vec<Jet> {
    let (m, n) = two_orders(random);
    let flavour = random.flavour();
    let other = if random.below(3) == 0 { random.flavour() } else { flavour };
    let jets = vec![random_jet(random, forms.0, m, flavour), random_jet(random, forms.1, n, other)];
    damaged(random, jets)
}

// Operations on jets.

/// A case at each of these orders.
pub(super) fn at_orders(seed: u64, orders: &[usize], make: impl Fn(&mut Random, usize) -> Vec<Item>) -> Vec<Vec<Item>> {
    let mut random = Random::new(seed);
    orders.iter().map(|order| make(&mut random, *order)).collect()
}

/// An operation on two jets at the smaller order.
fn of_two(name: &str, stored: usize, forms: (Form, Form, Form), rust: impl Fn(&[f64], &[f64]) -> Option<Vec<f64>> + 'static) -> Operation {
    let (f, g, out) = forms;
    Operation {
        name: name.to_string(),
        given: "jet a, jet b",
        answer: "jet",
        stored,
        fixed: at_orders(7, &[0, 1, 12, 20], |random, order| {
            items_of(&[random_jet(random, f, order, Flavour::Unit), random_jet(random, g, order, Flavour::Unit)])
        }),
        random: Box::new(move |random| items_of(&two_jets(random, (f, g)))),
        rust: Box::new(move |items| {
            let mut reader = Reader::new(items);
            let (a, b) = (reader.jet(f), reader.jet(g));
            let refusal = first(&[(1, a.too_high() || b.too_high()), (2, a.miscounted() || b.miscounted())]);
            if refusal != 0 {
                return Answer::refused(refusal);
            }
            let k = a.order.min(b.order);
            if !(a.finite_to(k) && b.finite_to(k)) {
                return Answer::refused(5);
            }
            settled_list(rust(&a.list, &b.list), whole_jet(out))
        }),
    }
}

/// An operation on one jet. `least` is the order that it needs; `divided` sees a float divided by zero in the answer.
fn of_one(
    name: &str,
    stored: usize,
    forms: (Form, Form),
    least: usize,
    divided: fn(&[f64]) -> bool,
    rust: impl Fn(&[f64]) -> Option<Vec<f64>> + 'static,
) -> Operation {
    let (f, out) = forms;
    Operation {
        name: name.to_string(),
        given: "jet",
        answer: "jet",
        stored,
        fixed: at_orders(8, &[0, 1, 12, 20], |random, order| items_of(&[random_jet(random, f, order, Flavour::Unit)])),
        random: Box::new(move |random| {
            let (order, flavour) = (random.order(), random.flavour());
            let jets = vec![random_jet(random, f, order, flavour)];
            items_of(&damaged(random, jets))
        }),
        rust: Box::new(move |items| {
            let a = Reader::new(items).jet(f);
            let refusal = first(&[(1, a.too_high()), (2, a.miscounted() || a.shorter(least)), (5, !finite(&a.list))]);
            if refusal != 0 {
                return Answer::refused(refusal);
            }
            settled(rust(&a.list), |list| divided(list), whole_jet(out))
        }),
    }
}

/// One entry of a product: curves by an order, surfaces by two.
fn entry_of_two(name: &str, stored: usize, forms: (Form, Form), rust: impl Fn(&[f64], &[f64], &[usize]) -> Option<Vec<f64>> + 'static) -> Operation {
    let (f, g) = forms;
    let asked = if f.surface { 2 } else { 1 };
    let orders = move |random: &mut Random, order: usize| -> Vec<Item> {
        let m = random.below(order + 1);
        let all = if f.surface { vec![m, order - m] } else { vec![order] };
        all.into_iter().map(|n| Whole(n as u64)).collect()
    };
    Operation {
        name: name.to_string(),
        given: if f.surface { "jet a, jet b, order by u, order by v" } else { "jet a, jet b, order" },
        answer: "entry",
        stored,
        fixed: at_orders(9, &[0, 1, 12, 20], |random, order| {
            let jets = [random_jet(random, f, order, Flavour::Unit), random_jet(random, g, order, Flavour::Unit)];
            [items_of(&jets), orders(random, order)].concat()
        }),
        random: Box::new(move |random| {
            let jets = two_jets(random, (f, g));
            let order = match random.below(16) {
                0 => random.pick(&[20, 21, 22]),
                1 => random.below(9),
                _ => {
                    let k = jets[0].order.min(jets[1].order);
                    random.below(k + 1)
                }
            };
            [items_of(&jets), orders(random, order)].concat()
        }),
        rust: Box::new(move |items| {
            let mut reader = Reader::new(items);
            let (a, b) = (reader.jet(f), reader.jet(g));
            let asked: Vec<usize> = (0..asked).map(|_| reader.whole()).collect();
            let order = asked.iter().sum();
            let refusal = first(&[
                (1, a.too_high() || b.too_high() || order > 20),
                (2, a.miscounted() || b.miscounted() || a.shorter(order) || b.shorter(order)),
            ]);
            if refusal != 0 {
                return Answer::refused(refusal);
            }
            if !(a.finite_to(order) && b.finite_to(order)) {
                return Answer::refused(5);
            }
            settled_list(rust(&a.list, &b.list, &asked), single)
        }),
    }
}

/// The carry, one entry or whole.
fn carry(name: &str, stored: usize, kind: Kind, whole: bool) -> Operation {
    let f = surface(kind.width());
    Operation {
        name: name.to_string(),
        given: "jet of the surface, jet of the parameter curve, order",
        answer: if whole { "jet" } else { "entry" },
        stored,
        fixed: [
            // Document 01's figure, in each component.
            vec![{
                let entry = |x: &f64| vec![*x; kind.width()];
                let list: Vec<f64> = [5.0, 3.0, 6.0, 2.0, 4.0, 1.0].iter().flat_map(entry).collect();
                [items_of(&[jet(f, &list), jet(curve(2), &[0.0, 0.0, 1.0, 2.0, 2.0, 1.0])]), vec![Whole(2)]].concat()
            }],
            at_orders(10, &[0, 1, 12, 20], |random, order| {
                let jets = [random_jet(random, f, order, Flavour::Unit), random_jet(random, curve(2), order, Flavour::Unit)];
                [items_of(&jets), vec![Whole(order as u64)]].concat()
            }),
        ]
        .concat(),
        random: Box::new(move |random| {
            let jets = two_jets(random, (f, curve(2)));
            let k = jets[0].order.min(jets[1].order);
            let order = match random.below(16) {
                0 => random.pick(&[20, 21, 22, 9]),
                1 => k + 1,
                2 => 0,
                3..=9 => k,
                _ => random.below(k + 1),
            };
            [items_of(&jets), vec![Whole(order as u64)]].concat()
        }),
        rust: Box::new(move |items| {
            let mut reader = Reader::new(items);
            let (a, uv, order) = (reader.jet(f), reader.jet(curve(2)), reader.whole());
            let refusal = first(&[
                (1, a.too_high() || uv.too_high() || order > 20),
                (2, a.miscounted() || uv.miscounted() || a.shorter(order) || uv.shorter(order)),
            ]);
            if refusal != 0 {
                return Answer::refused(refusal);
            }
            if !(a.finite_to(order) && uv.finite_to(order)) {
                return Answer::refused(5);
            }
            if whole {
                settled_list(oracle::composite_derivatives(kind, &a.cut(order), &uv.cut(order)), whole_jet(curve(kind.width())))
            } else {
                settled_list(oracle::composite_derivative(kind, &a.list, &uv.list, order), single)
            }
        }),
    }
}

fn never(_: &[f64]) -> bool { false }

/// A norm of order 1 or more divides by its entry 0.
fn norm_divided(norm: &[f64]) -> bool { norm.len() > 1 && norm[0] == 0.0 }

pub(super) fn jets() -> Vec<Operation> {
    let mut all = Vec::new();
    for (prefix, kind) in [("", Kind::Floats), ("vector_", Kind::Vectors)] {
        let (c, s) = (curve(kind.width()), surface(kind.width()));
        all.push(of_two(&format!("{prefix}curve_sum"), 60, (c, c, c), move |a, b| oracle::curve_sum(kind, a, b)));
        all.push(of_two(&format!("{prefix}curve_difference"), 60, (c, c, c), move |a, b| oracle::curve_difference(kind, a, b)));
        all.push(of_two(&format!("{prefix}surface_sum"), 60, (s, s, s), move |a, b| oracle::surface_sum(kind, a, b)));
        all.push(of_two(&format!("{prefix}surface_difference"), 60, (s, s, s), move |a, b| oracle::surface_difference(kind, a, b)));
        all.push(of_one(&format!("{prefix}curve_derivative"), 50, (c, c), 1, never, move |a| oracle::curve_derivative(kind, a)));
        all.push(of_one(&format!("{prefix}surface_derivative_u"), 50, (s, s), 1, never, move |a| oracle::surface_derivative_u(kind, a)));
        all.push(of_one(&format!("{prefix}surface_derivative_v"), 50, (s, s), 1, never, move |a| oracle::surface_derivative_v(kind, a)));
        all.push(of_two(&format!("{prefix}curve_rational_derivatives"), 300, (c, curve(1), c), move |a, w| {
            oracle::curve_rational_derivatives(kind, a, w)
        }));
        all.push(of_two(&format!("{prefix}surface_rational_derivatives"), 240, (s, surface(1), s), move |a, w| {
            oracle::surface_rational_derivatives(kind, a, w)
        }));
        all.push(carry(&format!("{prefix}composite_derivative"), 120, kind, false));
        all.push(carry(&format!("{prefix}composite_derivatives"), 300, kind, true));
    }
    for (suffix, product) in [("", Product::Floats), ("_scaled", Product::Scaled), ("_dot", Product::Dot), ("_cross", Product::Cross)] {
        let (v, w, u) = product.widths();
        let stored = if product == Product::Floats { 240 } else { 120 };
        all.push(of_two(&format!("curve_combinatorial_derivatives{suffix}"), stored, (curve(v), curve(w), curve(u)), move |a, b| {
            oracle::curve_combinatorial_derivatives(product, a, b)
        }));
        all.push(of_two(&format!("surface_combinatorial_derivatives{suffix}"), stored, (surface(v), surface(w), surface(u)), move |a, b| {
            oracle::surface_combinatorial_derivatives(product, a, b)
        }));
        all.push(entry_of_two(&format!("curve_combinatorial_derivative{suffix}"), 80, (curve(v), curve(w)), move |a, b, n| {
            oracle::curve_combinatorial_derivative(product, a, b, n[0])
        }));
        all.push(entry_of_two(&format!("surface_combinatorial_derivative{suffix}"), 80, (surface(v), surface(w)), move |a, b, n| {
            oracle::surface_combinatorial_derivative(product, a, b, n[0], n[1])
        }));
    }
    all.push(of_one("curve_absolute_derivatives", 300, (curve(3), curve(1)), 0, norm_divided, oracle::curve_absolute_derivatives));
    all.push(of_one("surface_absolute_derivatives", 240, (surface(3), surface(1)), 0, norm_divided, oracle::surface_absolute_derivatives));
    all
}
