//! Cases of rotations, centre and contacts, axis and angle, and partials (source files 000 to 002).

use super::jets::at_orders;
use super::*;
use crate::inputs::*;
use crate::oracle::{AxisAngle, Contacts, Given};

// Rotations.

/// Three floats for an axis, two for a pair; now and then not of length one, now and then one is not finite.
fn turn(random: &mut Random) -> (Vec<f64>, Vec<f64>) {
    let (s, c) = random.pair();
    let (mut axis, mut pair) = (random.axis(), vec![s, c]);
    if random.below(3) == 0 {
        let flavour = random.flavour();
        axis = random.list(flavour, 3);
        if random.below(2) == 0 {
            pair = random.list(flavour, 2);
        }
    }
    if random.below(16) == 0 {
        let (at, bad) = (random.below(5), random.not_finite());
        if at < 3 { axis[at] = bad } else { pair[at - 3] = bad }
    }
    (axis, pair)
}

fn rot_der_n() -> Operation {
    let mut fixed = vec![[vec![Whole(0); 4], vec![Floats(vec![0.0, 0.0, 1.0]), Floats(vec![1.0, 0.0])]].concat()];
    // Every branch, at each number of quarter turns, on one axis and pair; then the bounds of the orders.
    for turns in 0..5 {
        for k in 0..27 {
            let orders = [k / 9, k / 3 % 3, k % 3, turns];
            fixed.push([orders.map(Whole).to_vec(), vec![Floats(vec![0.48, -0.6, 0.64]), Floats(vec![0.28, 0.96])]].concat());
        }
    }
    // Zeros of both signs, in the branches of order 0 and 1.
    for turns in 0..4 {
        for orders in [[0, 0, 0, turns], [1, 0, 0, turns], [0, 1, 0, turns], [0, 0, 1, turns]] {
            for pair in [vec![1.0, 0.0], vec![0.0, 1.0], vec![-0.0, -1.0]] {
                fixed.push([orders.map(Whole).to_vec(), vec![Floats(vec![0.0, -0.0, 1.0]), Floats(pair)]].concat());
            }
        }
    }
    // Twice the axis is formed first: 2 * 3 units times a half is 3 units, but 3 units times a half is rounded.
    fixed.push([[1, 0, 0, 0].map(Whole).to_vec(), vec![Floats(vec![f64::from_bits(3), 0.0, 0.0]), Floats(vec![0.0, 0.5])]].concat());
    for orders in [[20, 0, 0, 0], [21, 0, 0, 0], [0, 0, 21, 0], [0, 0, 0, 20], [0, 0, 0, 21], [0, 0, 0, u64::MAX], [u64::MAX, 1, 1, 1]] {
        fixed.push([orders.map(Whole).to_vec(), vec![Floats(vec![0.0, 0.0, 1.0]), Floats(vec![0.0, 1.0])]].concat());
    }
    Operation {
        name: "rot_der_n".to_string(),
        given: "four orders, axis, sine and cosine",
        answer: "the matrix, column by column",
        stored: 300,
        fixed,
        random: Box::new(|random| {
            let mut orders = [0u64; 4];
            for _ in 0..random.below(4) {
                orders[random.below(3)] += 1;
            }
            orders[3] = random.below(6) as u64;
            let (axis, pair) = turn(random);
            [orders.map(Whole).to_vec(), vec![Floats(axis), Floats(pair)]].concat()
        }),
        rust: Box::new(|items| {
            let mut reader = Reader::new(items);
            let orders: [usize; 4] = std::array::from_fn(|_| reader.whole());
            let (axis, pair) = (reader.floats(), reader.floats());
            let refusal = first(&[(1, orders.iter().any(|n| *n > 20)), (5, !finite(&axis) || !finite(&pair))]);
            if refusal != 0 {
                return Answer::refused(refusal);
            }
            settled_list(oracle::rot_der_n(orders, &axis, pair[0], pair[1]), single)
        }),
    }
}

fn from_axis_angle() -> Operation {
    Operation {
        name: "from_axis_angle".to_string(),
        given: "axis, sine and cosine",
        answer: "the matrix, column by column",
        stored: 100,
        fixed: vec![vec![Floats(vec![0.0, 0.0, 1.0]), Floats(vec![1.0, 0.0])]],
        random: Box::new(|random| {
            let (axis, pair) = turn(random);
            vec![Floats(axis), Floats(pair)]
        }),
        rust: Box::new(|items| {
            let mut reader = Reader::new(items);
            let (axis, pair) = (reader.floats(), reader.floats());
            if !finite(&axis) || !finite(&pair) {
                return Answer::refused(5);
            }
            settled_list(oracle::from_axis_angle(&axis, pair[0], pair[1]), single)
        }),
    }
}

// The fillet.

/// What a fillet is given, as items: circle, feet, normals, then the jets of edge, radius and both surfaces.
fn fillet_items(given: &Given) -> Vec<Item> {
    let jets = [jet(curve(3), &given.edge), jet(curve(1), &given.radius), jet(surface(3), &given.surface0), jet(surface(3), &given.surface1)];
    [vec![Floats(given.circle.clone()), Floats(given.feet.clone()), Floats(given.normals.clone())], items_of(&jets)].concat()
}

struct FilletGiven {
    plain: [Vec<f64>; 3],
    jets: [Jet; 4],
}

impl FilletGiven {
    fn read(reader: &mut Reader) -> Self {
        let plain = std::array::from_fn(|_| reader.floats());
        let jets = [reader.jet(curve(3)), reader.jet(curve(1)), reader.jet(surface(3)), reader.jet(surface(3))];
        FilletGiven { plain, jets }
    }
    fn too_high(&self) -> bool { self.jets.iter().any(Jet::too_high) }
    fn miscounted(&self) -> bool { self.jets.iter().any(Jet::miscounted) }
    fn shorter(&self, order: usize) -> bool { self.jets.iter().any(|j| j.shorter(order)) }
    /// Whether all that counts is finite: jets up to `order`, or up to their own.
    fn finite(&self, order: Option<usize>) -> bool {
        self.plain.iter().all(|list| finite(list)) && self.jets.iter().all(|j| j.finite_to(order.unwrap_or(j.order)))
    }
    fn given(&self) -> Given {
        let [circle, feet, normals] = self.plain.clone();
        let [edge, radius, surface0, surface1] = self.jets.clone().map(|j| j.list);
        Given { circle, feet, normals, edge, radius, surface0, surface1 }
    }
    /// The radius by which the angle divides, and its square.
    fn radius_is_zero(&self) -> bool { divides_by_zero(self.jets[1].list[0]) }
}

fn divides_by_zero(radius: f64) -> bool { radius == 0.0 || radius * radius == 0.0 }

fn random_fillet(random: &mut Random, order: usize) -> Given {
    let t = random.within(-3.0, 3.0);
    let mut given = match random.below(10) {
        0..=2 => two_spheres(t, order),
        3 => {
            let radius: Vec<f64> = (0..=order).map(|n| if n == 0 { 2.0 } else { random.of(Flavour::Whole) }).collect();
            two_planes(random.of(Flavour::Whole), &radius, random.below(2) == 0)
        }
        4 => two_planes(t, &random.list(Flavour::Unit, order + 1), false),
        5 | 6 => any_fillet(random, Flavour::Everyday, order),
        7 => any_fillet(random, Flavour::Whole, order),
        8 => any_fillet(random, Flavour::Unit, order),
        _ => {
            let flavour = random.flavour();
            any_fillet(random, flavour, order)
        }
    };
    // Degenerate ones: equal normals, a surface that is a point, one whose directions are parallel, no radius, an edge that stands still.
    match random.below(24) {
        0 => given.normals.copy_within(0..3, 3),
        1 => shrink(&mut given.surface0),
        2 => shrink(&mut given.surface1),
        3 if order > 0 => crease(&mut given.surface0, order),
        4 if order > 0 => crease(&mut given.surface1, order),
        5 => given.radius[0] = random.pick(&[0.0, -0.0, 1.0e-170]),
        6 => given.edge[3.min(order * 3)..].iter_mut().for_each(|x| *x = 0.0),
        _ => {}
    }
    given
}

/// Every derivative of a surface becomes zero: the determinant of its equations is zero.
fn shrink(surface: &mut [f64]) { surface[3..].iter_mut().for_each(|x| *x = 0.0) }

/// Entry [1][0] becomes entry [0][1]: the cross product of the two is zero.
fn crease(surface: &mut [f64], order: usize) { surface.copy_within(3..6, 3 * (order + 1)) }

/// A fault in one of the items now and then.
fn damaged_fillet(random: &mut Random, mut items: Vec<Item>) -> Vec<Item> {
    match random.below(24) {
        0 | 1 => {
            // Among circle, feet, normals, and the jets' lists.
            let at = random.pick(&[0, 1, 2, 4, 6, 8, 10]);
            if let Floats(list) = &mut items[at] {
                let k = random.below(list.len());
                list[k] = random.not_finite();
            }
        }
        2 => {
            if let Floats(list) = &mut items[random.pick(&[4, 6, 8, 10])] {
                list.pop();
            }
        }
        3 => {
            items[5] = Whole(21);
            items[6] = Floats(vec![1.0; 22]);
        }
        _ => {}
    }
    items
}

fn contacts_items(c: Contacts) -> Vec<Item> {
    items_of(&[jet(curve(3), &c.center), jet(curve(3), &c.contact0), jet(curve(3), &c.contact1), jet(curve(2), &c.uv0), jet(curve(2), &c.uv1)])
}

fn sub_center_contacts_ders() -> Operation {
    let case = |given: &Given, n: usize| [vec![Whole(n as u64)], fillet_items(given)].concat();
    let mut fixed = vec![
        case(&two_planes(3.0, &[2.0, 1.0, 0.0, 5.0], true), 2),
        case(&two_planes(3.0, &[2.0, 1.0, 0.0, 5.0], false), 2),
        case(&two_spheres(0.5, 1), 0),
        case(&two_spheres(0.5, 1), 1),
        case(&two_spheres(0.5, 1), 19),
        case(&two_spheres(0.5, 1), 20),
        case(&two_spheres(0.5, 1), usize::MAX),
        case(&two_spheres(0.5, 9), 8),
        case(&two_spheres(0.5, 13), 12),
        case(&two_spheres(1.5, 20), 13),
        case(&two_spheres(1.5, 20), 19),
    ];
    let mut random = Random::new(12);
    fixed.push(case(&any_fillet(&mut random, Flavour::Unit, 13), 12));
    fixed.push(case(&any_fillet(&mut random, Flavour::Unit, 20), 15));
    // A zero divisor on surface 0 is met before a zero determinant on surface 1, and the other way round.
    let mut both = any_fillet(&mut random, Flavour::Unit, 2);
    crease(&mut both.surface0, 2);
    shrink(&mut both.surface1);
    fixed.push(case(&both, 1));
    (both.surface0, both.surface1) = (both.surface1, both.surface0);
    fixed.push(case(&both, 1));
    // At n = 0 nothing is divided and no determinant is formed.
    both.normals.copy_within(0..3, 3);
    fixed.push(case(&both, 1));
    fixed.push(case(&both, 0));
    Operation {
        name: "sub_center_contacts_ders".to_string(),
        given: "n, circle, feet, normals, jet of the edge, jet of the radius, jet of surface 0, jet of surface 1",
        answer: "jets of centre, contact 0, contact 1, parameters 0, parameters 1",
        stored: 240,
        fixed,
        random: Box::new(|random| {
            let n = random.fillet_order();
            let order = match random.below(8) {
                0 => n,
                1 => (n + 2).min(20),
                _ => n + 1,
            };
            let given = random_fillet(random, order);
            [vec![Whole(n as u64)], damaged_fillet(random, fillet_items(&given))].concat()
        }),
        rust: Box::new(|items| {
            let mut reader = Reader::new(items);
            let n = reader.whole();
            let given = FilletGiven::read(&mut reader);
            let refusal = first(&[(1, n > 19 || given.too_high()), (2, n <= 19 && given.shorter(n + 1) || given.miscounted())]);
            if refusal != 0 {
                return Answer::refused(refusal);
            }
            if !given.finite(Some(n + 1)) {
                return Answer::refused(5);
            }
            settled(oracle::sub_center_contacts_ders(&given.given(), n), |_| false, contacts_items)
        }),
    }
}

const CONTACT_FORMS: [Form; 5] = [curve(3), curve(3), curve(3), curve(2), curve(2)];

/// The centre's and contacts' jets of a fillet, or jets of a flavour, with orders n and n + 1.
fn random_contacts(random: &mut Random, n: usize) -> (Contacts, Vec<f64>) {
    let given = random_fillet(random, n + 1);
    let of_fillet = oracle::sub_center_contacts_ders(&given, n).filter(|c| finite(&c.center) && finite(&c.contact0) && finite(&c.contact1));
    match of_fillet {
        Some(contacts) if finite(&contacts.uv0) && finite(&contacts.uv1) && random.below(3) != 0 => (contacts, given.radius),
        _ => {
            let flavour = random.flavour();
            let mut list = |width: usize, order: usize| random.list(flavour, width * (order + 1));
            let contacts = Contacts { center: list(3, n), contact0: list(3, n + 1), contact1: list(3, n + 1), uv0: list(2, n + 1), uv1: list(2, n + 1) };
            (contacts, list(1, n + 1))
        }
    }
}

fn read_contacts(reader: &mut Reader) -> (Contacts, bool) {
    let jets = CONTACT_FORMS.map(|form| reader.jet(form));
    let all_finite = jets.iter().all(|j| finite(&j.list));
    let [center, contact0, contact1, uv0, uv1] = jets.map(|j| j.list);
    (Contacts { center, contact0, contact1, uv0, uv1 }, all_finite)
}

fn vder_info() -> Operation {
    let case = |contacts: Contacts, radius: &[f64], angle: f64| [contacts_items(contacts), items_of(&[jet(curve(1), radius)]), vec![Floats(vec![angle])]].concat();
    let mut fixed = Vec::new();
    for (t, n) in [(0.5, 0), (0.5, 1), (0.5, 2), (2.5, 6), (1.5, 12), (1.5, 19)] {
        let given = two_spheres(t, n + 1);
        let contacts = oracle::sub_center_contacts_ders(&given, n).unwrap();
        fixed.push(case(contacts, &given.radius, arc_angle(&given)));
    }
    // The cosine is infinity over infinity, which the clamp makes 1; and a cosine below -1, which it leaves.
    for (p0, p1, r) in [([1.0e200, 0.0, 0.0], [-1.0e200, 1.0e-300, 0.0], 1.0e200), ([2.0, 0.0, 0.0], [-2.0, 1.0, 0.0], 1.0)] {
        let long = |p: [f64; 3]| [p.to_vec(), vec![0.0; 3]].concat();
        let contacts = Contacts { center: vec![0.0; 3], contact0: long(p0), contact1: long(p1), uv0: vec![0.0; 4], uv1: vec![0.0; 4] };
        fixed.push(case(contacts, &[r, 0.0], 0.5));
    }
    Operation {
        name: "vder_info".to_string(),
        given: "the five jets of the centre and contacts (orders n, n + 1, ..), jet of the radius (order n + 1), angle entry 0",
        answer: "jet of the axis, jet of the angle, clamped cosine",
        stored: 200,
        fixed,
        random: Box::new(move |random| {
            let n = random.fillet_order();
            let (contacts, mut radius) = random_contacts(random, n);
            let mut angle = random.within(0.0, 3.0);
            match random.below(32) {
                0 => angle = random.not_finite(),
                1 => radius[n] = random.not_finite(),
                2 => radius[0] = random.pick(&[0.0, -0.0, 1.0e-170]),
                _ => {}
            }
            case(contacts, &radius, angle)
        }),
        rust: Box::new(|items| {
            let mut reader = Reader::new(items);
            let (contacts, all_finite) = read_contacts(&mut reader);
            let (radius, angle) = (reader.jet(curve(1)), reader.floats());
            if !(all_finite && finite(&radius.list) && finite(&angle)) {
                return Answer::refused(5);
            }
            settled(
                oracle::vder_info(&contacts, &radius.list, angle[0]),
                |_| divides_by_zero(radius.list[0]),
                |a| [items_of(&[jet(curve(3), &a.axis), jet(curve(1), &a.angle)]), vec![Floats(vec![a.cosine])]].concat(),
            )
        }),
    }
}

type Partial = fn(&Contacts, &AxisAngle, f64, f64, f64) -> Option<Vec<f64>>;

/// One of the three methods that take the jets of `VderInfo`, of order n.
fn partial(name: &str, n: usize, rust: Partial) -> Operation {
    Operation {
        name: name.to_string(),
        given: "the five jets of the centre and contacts, jet of the axis, jet of the angle, then u, sine and cosine",
        answer: "vector",
        stored: 160,
        // Zeros of both signs and ones throughout.
        fixed: at_orders(13, &[n; 40], |random, n| {
            let mut zeros = |count: usize| random.list(Flavour::Zeros, count);
            let contacts =
                Contacts { center: zeros(3 * n + 3), contact0: zeros(3 * n + 6), contact1: zeros(3 * n + 6), uv0: zeros(2 * n + 4), uv1: zeros(2 * n + 4) };
            let info = items_of(&[jet(curve(3), &zeros(3 * n + 3)), jet(curve(1), &zeros(n + 1))]);
            [contacts_items(contacts), info, vec![Floats(zeros(3))]].concat()
        }),
        random: Box::new(move |random| {
            let (contacts, radius) = random_contacts(random, n);
            let (s, c) = random.pair();
            let flavour = random.flavour();
            let info = oracle::vder_info(&contacts, &radius, random.within(0.0, 3.0)).filter(|a| finite(&a.axis) && finite(&a.angle));
            let (axis, angle) = match info {
                Some(info) if random.below(4) != 0 => (info.axis, info.angle),
                _ => (random.list(flavour, 3 * (n + 1)), random.list(flavour, n + 1)),
            };
            let mut place = vec![random.within(-0.2, 1.2), s, c];
            if random.below(24) == 0 {
                place[random.below(3)] = random.not_finite();
            }
            [contacts_items(contacts), items_of(&[jet(curve(3), &axis), jet(curve(1), &angle)]), vec![Floats(place)]].concat()
        }),
        rust: Box::new(move |items| {
            let mut reader = Reader::new(items);
            let (contacts, all_finite) = read_contacts(&mut reader);
            let (axis, angle, place) = (reader.jet(curve(3)), reader.jet(curve(1)), reader.floats());
            if !(all_finite && finite(&axis.list) && finite(&angle.list) && finite(&place)) {
                return Answer::refused(5);
            }
            let info = AxisAngle { axis: axis.list, angle: angle.list, cosine: 0.0 };
            settled_list(rust(&contacts, &info, place[0], place[1], place[2]), single)
        }),
    }
}

fn sub_der_mn() -> Operation {
    let case = |m: usize, n: usize, given: &Given, rest: Vec<f64>| [vec![Whole(m as u64), Whole(n as u64)], fillet_items(given), vec![Floats(rest)]].concat();
    let mut fixed = Vec::new();
    for (m, n) in [(0, 0), (1, 0), (2, 0), (3, 0), (4, 0), (5, 0), (20, 0), (21, 0), (0, 1), (1, 1), (0, 2), (2, 1), (0, 3), (1, 2), (20, 20), (0, 21), (usize::MAX, 0)] {
        for given in [two_spheres(0.7, 3), two_spheres(0.7, 2), two_spheres(0.7, 0), two_planes(3.0, &[2.0, 1.0, 0.0, 5.0], false)] {
            fixed.push(case(m, n, &given, vec![arc_angle(&given), 0.25, 0.28, 0.96]));
        }
    }
    Operation {
        name: "sub_der_mn".to_string(),
        given: "m, n, circle, feet, normals, jet of the edge, jet of the radius, jet of surface 0, jet of surface 1, then angle entry 0, u, sine and cosine",
        answer: "vector",
        stored: 240,
        fixed,
        random: Box::new(move |random| {
            let (m, n) = random.pick(&[(0, 1), (0, 1), (1, 1), (1, 1), (0, 2), (0, 2), (0, 2), (0, 0), (1, 0), (2, 0), (3, 0), (7, 0), (20, 0), (2, 1)]);
            let order = if n == 0 { random.below(3) } else if n == 1 { 2 } else { 3 };
            let given = random_fillet(random, order);
            let (s, c) = random.pair();
            let mut rest = vec![random.within(0.0, 3.0), random.within(-0.2, 1.2), s, c];
            if random.below(24) == 0 {
                rest[random.below(4)] = random.not_finite();
            }
            [vec![Whole(m), Whole(n)], damaged_fillet(random, fillet_items(&given)), vec![Floats(rest)]].concat()
        }),
        rust: Box::new(|items| {
            let mut reader = Reader::new(items);
            let (m, n) = (reader.whole(), reader.whole());
            let given = FilletGiven::read(&mut reader);
            let rest = reader.floats();
            // The order of the jets that the pair works with; (m, 0) works with none.
            let (served, needed) = match (m, n) {
                (_, 0) => (true, None),
                (0, 1) | (1, 1) => (true, Some(2)),
                (0, 2) => (true, Some(3)),
                _ => (false, None),
            };
            let refusal = first(&[
                (1, m > 20 || n > 20 || given.too_high()),
                (2, given.miscounted() || needed.is_some_and(|k| given.shorter(k))),
                (11, !served),
            ]);
            if refusal != 0 {
                return Answer::refused(refusal);
            }
            if !(given.finite(needed) && finite(&rest)) {
                return Answer::refused(5);
            }
            let zero_radius = needed.is_some() && given.radius_is_zero();
            settled(oracle::sub_der_mn(&given.given(), m, n, rest[0], rest[1], rest[2], rest[3]), |_| zero_radius, single)
        }),
    }
}

/// The derivatives by u of a circle. `sub_der_mn` gives the same at (n, 0).
fn contact_circle_derivative_n() -> Operation {
    Operation {
        name: "contact_circle_derivative_n".to_string(),
        given: "n, circle, sine and cosine",
        answer: "vector",
        stored: 160,
        // The centre times zero is added from order 1 on: with an angle of zero it decides the sign of a zero.
        fixed: [0, 1, 2, 3, 4]
            .iter()
            .flat_map(|n| {
                [1.0, -1.0].map(|side: f64| {
                    let (center, point) = ([side, -side, 0.0], [0.0; 3]);
                    let circle = [&center[..], &[0.0, 0.0, 1.0], &[0.0], &point, &point].concat();
                    vec![Whole(*n), Floats(circle), Floats(vec![0.0, 1.0])]
                })
            })
            .collect(),
        random: Box::new(|random| {
            let n = random.pick(&[0, 0, 1, 1, 2, 3, 4, 5, 6, 7, 12, 19, 20, 21]);
            let mut circle = random_fillet(random, 1).circle;
            let (s, c) = random.pair();
            if random.below(16) == 0 {
                circle[random.below(13)] = random.not_finite();
            }
            vec![Whole(n), Floats(circle), Floats(vec![s, c])]
        }),
        rust: Box::new(|items| {
            let mut reader = Reader::new(items);
            let (n, circle, pair) = (reader.whole(), reader.floats(), reader.floats());
            let refusal = first(&[(1, n > 20), (5, !finite(&circle) || !finite(&pair))]);
            if refusal != 0 {
                return Answer::refused(refusal);
            }
            settled_list(oracle::contact_circle_derivative_n(&circle, n, pair[0], pair[1]), single)
        }),
    }
}

pub(super) fn fillet() -> Vec<Operation> {
    vec![
        rot_der_n(),
        from_axis_angle(),
        sub_center_contacts_ders(),
        vder_info(),
        partial("derivative_v", 1, oracle::derivative_v),
        partial("derivative_uv", 1, oracle::derivative_uv),
        partial("derivative_vv", 2, oracle::derivative_vv),
        sub_der_mn(),
        contact_circle_derivative_n(),
    ]
}

/// The same operation on jets of other orders: longer ones, which are cut to the orders that it works at (`needs`, from the centre's order), too short
/// or too high ones, and lists of the wrong length. The jets come first among its items, the centre's before the others.
fn of_other_orders(base: Operation, forms: Vec<Form>, keeps_center: bool, needs: impl Fn(usize) -> Vec<usize> + Copy + 'static) -> Operation {
    let count = forms.len();
    let made = base.random;
    Operation {
        name: format!("{}_of_other_orders", base.name),
        given: base.given,
        answer: base.answer,
        stored: 0,
        fixed: Vec::new(),
        random: Box::new({
            let forms = forms.clone();
            move |random| {
                let mut items = made(random);
                for (k, form) in forms.iter().enumerate() {
                    let mut reader = Reader::new(&items[2 * k..]);
                    let mut jet = reader.jet(*form);
                    // The centre's order says at which the axis is worked out: it is left as it is there.
                    match random.below(if k == 0 && keeps_center { 1 } else { 40 }) {
                        1..=8 if jet.order < 20 => {
                            jet.order += 1;
                            let more = if random.below(4) == 0 { vec![random.not_finite(); form.width] } else { random.floats(form.width) };
                            jet.list.extend(more);
                        }
                        9 if jet.order > 0 => {
                            jet.order -= 1;
                            jet.list.truncate(form.length(jet.order));
                        }
                        10 => jet.list.push(0.0),
                        11 => (jet.order, jet.list) = (21, vec![1.0; form.length(21)]),
                        12 => (jet.order, jet.list) = (20, vec![1.0; form.length(20)]),
                        _ => {}
                    }
                    items.splice(2 * k..2 * k + 2, jet.items());
                }
                items
            }
        }),
        rust: Box::new(move |items| {
            let mut reader = Reader::new(items);
            let jets: Vec<Jet> = forms.iter().map(|form| reader.jet(*form)).collect();
            let needs = needs(jets[0].order.min(20));
            let short = jets.iter().zip(&needs).any(|(jet, order)| jet.shorter(*order));
            let refusal = first(&[(1, jets[0].order > 19 || jets.iter().any(Jet::too_high)), (2, jets.iter().any(Jet::miscounted) || short)]);
            if refusal != 0 {
                return Answer::refused(refusal);
            }
            let cut: Vec<Jet> = jets.iter().zip(&needs).map(|(j, order)| jet(j.form, &j.cut(*order))).collect();
            (base.rust)(&[items_of(&cut), items[2 * count..].to_vec()].concat())
        }),
    }
}

/// The checks of the orders of the jets that the source makes itself.
pub(super) fn added() -> Vec<Operation> {
    let info = [&CONTACT_FORMS[..], &[curve(3), curve(1)]].concat();
    vec![
        of_other_orders(vder_info(), [&CONTACT_FORMS[..], &[curve(1)]].concat(), true, |n| vec![n, n + 1, n + 1, n + 1, n + 1, n + 1]),
        of_other_orders(partial("derivative_v", 1, oracle::derivative_v), info.clone(), false, |_| vec![1, 2, 2, 2, 2, 1, 1]),
        of_other_orders(partial("derivative_uv", 1, oracle::derivative_uv), info.clone(), false, |_| vec![1, 2, 2, 2, 2, 1, 1]),
        of_other_orders(partial("derivative_vv", 2, oracle::derivative_vv), info, false, |_| vec![2, 3, 3, 3, 3, 2, 2]),
    ]
}
