//! The rows of docs/DIFFERENCES.md, each on its small input: what the source gives and, where the archives are at hand, what the library gives.

use crate::cases::Item::{self, Floats, Whole, Wholes};
use crate::inputs::{surface_by, two_planes, two_spheres};
use crate::oracle::*;
use std::{fs, path::Path};

/// The table's first column, in its order, and the row's test.
const ROWS: &[(&str, fn())] = &[
    ("orders", orders),
    ("`multiplicity`, factorials", multiplicities),
    ("`CompositionIter::try_new`", walk_starts),
    ("`CompositionIter::next`", walk_steps),
    ("product", products),
    ("carry", carries),
    ("curve quotient, entry 0", quotient_entry_0),
    ("curve quotient, one sum", quotient_one_sum),
    ("curve quotient, overflow", quotient_overflow),
    ("surface quotient", surface_quotient),
    ("norm, entry 0", norm_entry_0),
    ("norm, later entries", norm_from_zero),
    ("surface norm", surface_norm),
    ("norm inside the centre", norm_inside),
    ("an input that is not finite", not_finite),
    ("one entry of a product above a jet's order", entry_above),
    ("derivative of a jet of order 0", derivative_of_order_0),
    ("carry order above a jet's", carry_above),
    ("a division by zero", by_zero),
    ("a zero determinant", zero_determinant),
    ("determinants that over- or underflow", far_determinants),
    ("both normals equal", equal_normals),
    ("the centre, with the normals turned away from the ball", turned_away),
    ("the centre, with a radius of order n", radius_of_order_n),
    ("contact and parameter jets", contact_jets),
    ("normals along the edge", normals_along),
    ("axis and angle from contacts of order n", contacts_of_order_n),
    ("axis and angle from a longer radius", longer_radius),
    ("axis and angle from a shorter radius", shorter_radius),
    ("partials from contacts of their order", partials_of_order),
    ("a record whose centre has order 20", center_of_order_20),
    ("the angle's cosine", cosine),
    ("a cosine below −1", cosine_below),
    ("a radius of zero", no_radius),
    ("pairs of orders", pairs),
    ("jets shorter than needed", short_jets),
    ("a returned float that is not finite", overflows),
    ("`rational_derivatives`", weights),
    ("quarter turns of a rotation", quarter_turns),
    ("quarter turns of the circle", quarter_turns_of_the_circle),
    ("powers of the angle", powers),
    ("`derivative_n` of the circle, order 1, radius along the axis", along_the_axis),
    ("NaN", one_nan),
];

#[test]
fn every_row_has_a_test() {
    let page = fs::read_to_string(Path::new(env!("CARGO_MANIFEST_DIR")).join("../docs/DIFFERENCES.md")).unwrap();
    let rows: Vec<&str> = page.lines().filter_map(|line| line.strip_prefix("| ")?.split(" | ").next()).skip(1).collect();
    assert_eq!(rows, ROWS.iter().map(|(name, _)| *name).collect::<Vec<_>>());
}

#[test]
fn every_row_is_so() {
    for (name, row) in ROWS {
        println!("{name}");
        row();
    }
}

// What both sides give.

fn bits(list: &[f64]) -> Vec<u64> { list.iter().map(|x| x.to_bits()).collect() }

fn same(found: Option<Vec<f64>>, wanted: &[f64]) {
    let found = found.expect("the source answers");
    assert_eq!(bits(&found), bits(wanted), "{found:?} {wanted:?}");
}

/// The library's refusal number and, one after the other, the floats of its answer.
#[cfg(ours)]
fn here(name: &str, given: &[Item], refusal: u8, wanted: &[f64]) {
    let answer = crate::ours::ours(name).unwrap()(given);
    let floats: Vec<f64> = answer.items.iter().flat_map(|item| if let Floats(list) = item { list.clone() } else { Vec::new() }).collect();
    assert_eq!((answer.refusal, bits(&floats)), (refusal, bits(wanted)), "{floats:?} {wanted:?}");
}

#[cfg(not(ours))]
fn here(_: &str, _: &[Item], _: u8, _: &[f64]) {}

/// That the library is asked and refuses with that number.
fn refused_here(name: &str, given: &[Item], refusal: u8) { here(name, given, refusal, &[]) }

/// An order and a list.
fn jet(order: u64, list: &[f64]) -> Vec<Item> { vec![Whole(order), Floats(list.to_vec())] }

fn curve(list: &[f64]) -> Vec<Item> { jet(list.len() as u64 - 1, list) }

fn vectors(list: &[f64]) -> Vec<Item> { jet(list.len() as u64 / 3 - 1, list) }

fn of_two(a: &[f64], b: &[f64]) -> Vec<Item> { [curve(a), curve(b)].concat() }

fn fillet(given: &Given) -> Vec<Item> {
    let order = |list: &[f64]| (0..=20).find(|n| 3 * surface_count(*n) == list.len()).unwrap() as u64;
    let plain = [&given.circle, &given.feet, &given.normals].map(|list| Floats(list.clone())).to_vec();
    let surfaces = [&given.surface0, &given.surface1].map(|s| jet(order(s), s)).concat();
    [plain, vectors(&given.edge), curve(&given.radius), surfaces].concat()
}

fn center_at(n: u64, given: &Given) -> Vec<Item> { [vec![Whole(n)], fillet(given)].concat() }

fn five(c: &Contacts) -> Vec<Item> {
    let pairs = |list: &[f64]| jet(list.len() as u64 / 2 - 1, list);
    [vectors(&c.center), vectors(&c.contact0), vectors(&c.contact1), pairs(&c.uv0), pairs(&c.uv1)].concat()
}

fn info_of(c: &Contacts, radius: &[f64], angle: f64) -> Vec<Item> { [five(c), curve(radius), vec![Floats(vec![angle])]].concat() }

fn listed(c: &Contacts) -> Vec<f64> { [&c.center[..], &c.contact0, &c.contact1, &c.uv0, &c.uv1].concat() }

const MINUS: f64 = -0.0;
const NAN: f64 = f64::NAN;
const INFINITY: f64 = f64::INFINITY;

// Part lists and orders.

fn orders() {
    let long = vec![1.0; 22];
    assert!(curve_sum(Kind::Floats, &long, &long).is_some());
    refused_here("curve_sum", &of_two(&long, &long), 1);
}

fn multiplicities() {
    assert_eq!(multiplicity(&[1, 2]), Some(3));
    refused_here("multiplicity", &[Wholes(vec![1, 2])], 3);
}

fn walk_starts() {
    assert!(crate::derivatives::open::walk(0, 0).is_some());
    assert_eq!(part_lists(0, 0), None);
    refused_here("part_lists", &[Whole(0), Whole(0)], 3);
}

fn walk_steps() {
    let record = [vec![3, 2, 0, 1, 2], vec![0; 18]].concat();
    refused_here("walk_next", &[Wholes(record)], 3);
}

// Jets.

fn products() {
    same(curve_combinatorial_derivatives(Product::Floats, &[MINUS], &[1.0]), &[0.0]);
    here("curve_combinatorial_derivatives", &of_two(&[MINUS], &[1.0]), 0, &[0.0]);
}

fn carries() {
    same(composite_derivatives(Kind::Floats, &[MINUS; 3], &[0.0, 0.0, 1.0, 1.0]), &[MINUS, 0.0]);
    here("composite_derivatives", &[jet(1, &[MINUS; 3]), jet(1, &[0.0, 0.0, 1.0, 1.0]), vec![Whole(1)]].concat(), 0, &[MINUS, 0.0]);
}

fn quotient_entry_0() {
    same(curve_rational_derivatives(Kind::Floats, &[MINUS], &[-1.0]), &[MINUS]);
    same(surface_rational_derivatives(Kind::Floats, &[MINUS], &[-1.0]), &[0.0]);
    here("curve_rational_derivatives", &of_two(&[MINUS], &[-1.0]), 0, &[MINUS]);
    here("surface_rational_derivatives", &of_two(&[MINUS], &[-1.0]), 0, &[0.0]);
}

fn quotient_one_sum() {
    let two_52 = 4503599627370496.0;
    let (x, w) = ([1.0, two_52 + 1.0, 2.0 * two_52], [1.0; 3]);
    same(curve_rational_derivatives(Kind::Floats, &x, &w), &[1.0, two_52, 0.0]);
    here("curve_rational_derivatives", &of_two(&x, &w), 0, &[1.0, two_52, 0.0]);
}

fn quotient_overflow() {
    let (x, w) = ([0.0; 3], [1.0, 1.0e308, 0.0]);
    assert!(curve_rational_derivatives(Kind::Floats, &x, &w).unwrap()[2].is_nan());
    refused_here("curve_rational_derivatives", &of_two(&x, &w), 10);
}

fn surface_quotient() {
    let two_52 = 4503599627370496.0;
    let along = |x: [f64; 3]| surface_by(2, 1, |i, j, _| if j == 0 { x[i] } else { 0.0 });
    let (x, w) = (along([1.0, two_52 + 1.0, 2.0 * two_52]), along([1.0; 3]));
    let wanted = along([1.0, two_52, 0.0]);
    same(surface_rational_derivatives(Kind::Floats, &x, &w), &wanted);
    here("surface_rational_derivatives", &[jet(2, &x), jet(2, &w)].concat(), 0, &wanted);
    let (x, w) = (along([0.0; 3]), along([1.0, 1.0e308, 0.0]));
    assert!(surface_rational_derivatives(Kind::Floats, &x, &w).unwrap()[5].is_nan());
    refused_here("surface_rational_derivatives", &[jet(2, &x), jet(2, &w)].concat(), 10);
}

fn norm_entry_0() {
    same(curve_absolute_derivatives(&[1.0e-200, 0.0, 0.0]), &[0.0]);
    here("curve_absolute_derivatives", &vectors(&[1.0e-200, 0.0, 0.0]), 0, &[0.0]);
    same(curve_absolute_derivatives(&[1.0e200, 0.0, 0.0]), &[INFINITY]);
    refused_here("curve_absolute_derivatives", &vectors(&[1.0e200, 0.0, 0.0]), 10);
}

fn norm_from_zero() {
    let list = [1.0, 1.0, 1.0, MINUS, MINUS, MINUS];
    same(curve_absolute_derivatives(&list), &[3.0f64.sqrt(), 0.0]);
    here("curve_absolute_derivatives", &vectors(&list), 0, &[3.0f64.sqrt(), 0.0]);
}

const TWO_27: f64 = 134217728.0;

fn surface_norm() {
    let x = [1.0, TWO_27, 1.0];
    let surface = surface_by(2, 3, |i, j, k| if j == 0 && k == 0 { x[i] } else { 0.0 });
    let wanted = [1.0, 0.0, 0.0, TWO_27, 0.0, 0.0];
    same(surface_absolute_derivatives(&surface), &wanted);
    here("surface_absolute_derivatives", &jet(2, &surface), 0, &wanted);
}

/// The plane z = 0 laid out as (u, (1 + 2^27 u + u^2 / 2) v), and the plane y = 0, of a ball that grows: along the edge, the x axis, the cross product of the
/// first plane's directions is 1, 2^27, 1 times z.
fn uneven_planes() -> Given {
    let mut given = two_planes(0.0, &[1.0, 1.0, 0.0, 0.0, 0.0], false);
    given.surface0 = surface_by(4, 3, |i, j, k| match (i, j, k) {
        (1, 0, 0) | (0, 0, 1) | (0, 1, 1) | (2, 1, 1) => 1.0,
        (1, 1, 1) => TWO_27,
        _ => 0.0,
    });
    given.feet[..2].copy_from_slice(&[0.0, 0.0]);
    given
}

fn norm_inside() {
    let given = uneven_planes();
    let along = surface_infos(&given, 3, 2).unwrap().0;
    assert_eq!(along[0].crossders[..9], [0.0, 0.0, 1.0, 0.0, 0.0, TWO_27, 0.0, 0.0, 1.0]);
    assert_eq!(along[0].abs_crossders[..3], [1.0, TWO_27, 0.0]);
    // The normal of a plane seems to turn, and the centre's third derivative feels it: geometry says 0.
    let contacts = sub_center_contacts_ders(&given, 3).unwrap();
    assert_eq!(contacts.center, [0.0, 1.0, 1.0, 1.0, 1.0, 1.0, 0.0, 0.0, 0.0, 0.0, 0.0, -1.0]);
    here("sub_center_contacts_ders", &center_at(3, &given), 0, &listed(&contacts));
}

fn not_finite() {
    assert!(curve_sum(Kind::Floats, &[NAN], &[1.0]).unwrap()[0].is_nan());
    refused_here("curve_sum", &of_two(&[NAN], &[1.0]), 5);
}

fn entry_above() {
    assert_eq!(curve_combinatorial_derivative(Product::Floats, &[1.0], &[1.0], 1), None);
    refused_here("curve_combinatorial_derivative", &[of_two(&[1.0], &[1.0]), vec![Whole(1)]].concat(), 2);
}

fn derivative_of_order_0() {
    assert_eq!(curve_derivative(Kind::Floats, &[1.0]), None);
    refused_here("curve_derivative", &curve(&[1.0]), 2);
}

fn carry_above() {
    let (surface, uv) = (vec![1.0; 10], [1.0; 6]);
    assert_eq!(composite_derivative(Kind::Floats, &surface, &uv, 3), None);
    assert_eq!(composite_derivatives(Kind::Floats, &surface, &uv).unwrap().len(), 3);
    refused_here("composite_derivatives", &[jet(3, &surface), jet(2, &uv), vec![Whole(3)]].concat(), 2);
}

fn by_zero() {
    same(curve_rational_derivatives(Kind::Floats, &[4.0], &[0.0]), &[INFINITY]);
    refused_here("curve_rational_derivatives", &of_two(&[4.0], &[0.0]), 7);
}

// Matrices; the source's are stand-ins after document 01, and a matrix without an inverse is its panic.

fn zero_determinant() {
    let mut given = two_planes(0.0, &[1.0, 1.0, 0.0], false);
    given.normals.copy_within(0..3, 3);
    assert_eq!((sub_center_contacts_ders(&given, 1), refused()), (None, 6));
    refused_here("sub_center_contacts_ders", &center_at(1, &given), 6);
    refused_here("matrix3_inverse", &[Floats(vec![1.0, 0.0, 0.0, 1.0, 0.0, 0.0, 0.0, 0.0, 1.0])], 6);
}

fn far_determinants() {
    here("matrix2_inverse", &[Floats(vec![1.0e200, 0.0, 0.0, 1.0e200])], 0, &[0.0, MINUS, MINUS, 0.0]);
    refused_here("matrix2_inverse", &[Floats(vec![1.0e-200, 0.0, 0.0, 1.0e-200])], 6);
}

fn equal_normals() {
    let mut given = two_planes(0.0, &[1.0, 1.0, 0.0], false);
    given.normals = vec![1.0e200; 6];
    assert!(sub_center_contacts_ders(&given, 1).unwrap().center[3].is_nan());
    refused_here("sub_center_contacts_ders", &center_at(1, &given), 10);
}

// The centre and the contacts.

fn turned_away() {
    let given = two_planes(0.0, &[1.0, 1.0, 0.0], true);
    let contacts = sub_center_contacts_ders(&given, 1).unwrap();
    assert_eq!(contacts.center, [0.0, -1.0, -1.0, 1.0, 1.0, 1.0]);
    here("sub_center_contacts_ders", &center_at(1, &given), 0, &listed(&contacts));
}

fn radius_of_order_n() {
    let given = two_planes(0.0, &[1.0, 1.0, 0.0], false);
    let short = Given { radius: vec![1.0, 1.0], ..given.clone() };
    assert_eq!(contact_curve_ders(&short, 1), sub_center_contacts_ders(&given, 1));
    refused_here("sub_center_contacts_ders", &center_at(1, &short), 2);
}

fn contact_jets() {
    let given = two_planes(0.0, &[1.0, 1.0], false);
    let contacts = sub_center_contacts_ders(&given, 0).unwrap();
    assert_eq!((&contacts.contact0[..], &contacts.uv0[..]), (&[0.0, 1.0, 0.0, 0.0, 0.0, 0.0][..], &[0.0, 1.0, 0.0, 0.0][..]));
    here("sub_center_contacts_ders", &center_at(0, &given), 0, &listed(&contacts));
}

fn normals_along() {
    let given = two_spheres(0.5, 3);
    let mut against = given.clone();
    against.normals.iter_mut().for_each(|x| *x = -*x);
    let normals = |given: &Given| surface_infos(given, 2, 1).unwrap().0.map(|side| side.nders);
    let ([with, _], [other, _]) = (normals(&given), normals(&against));
    assert!(with[..3].iter().zip(&other[..3]).all(|(x, y)| *x == -*y));
    assert!(with[3..6].iter().zip(&other[3..6]).any(|(x, y)| *x != -*y));
    let contacts = sub_center_contacts_ders(&against, 2).unwrap();
    here("sub_center_contacts_ders", &center_at(2, &against), 0, &listed(&contacts));
}

// Axis, angle and partials.

/// The centre 0, and contacts p and q that stand still, of order n.
fn still(n: usize, p: [f64; 3], q: [f64; 3]) -> Contacts {
    let long = |p: [f64; 3]| [p.to_vec(), vec![0.0; 3 * n]].concat();
    Contacts { center: vec![0.0; 3], contact0: long(p), contact1: long(q), uv0: vec![0.0; 2 * n + 2], uv1: vec![0.0; 2 * n + 2] }
}

const X: [f64; 3] = [1.0, 0.0, 0.0];
const Y: [f64; 3] = [0.0, 1.0, 0.0];

fn contacts_of_order_n() {
    let (short, long) = (still(0, X, Y), still(1, X, Y));
    let answer = vder_info(&short, &[1.0, 0.0], 0.5).unwrap();
    assert_eq!(answer.axis, [0.0, 0.0, 1.0]);
    assert_eq!(vder_info(&long, &[1.0, 0.0], 0.5), Some(answer));
    refused_here("vder_info", &info_of(&short, &[1.0, 0.0], 0.5), 2);
    here("vder_info", &info_of(&long, &[1.0, 0.0], 0.5), 0, &[0.0, 0.0, 1.0, 0.5, 0.0]);
}

fn longer_radius() {
    let contacts = still(1, X, Y);
    assert_eq!(vder_info(&contacts, &[1.0, 0.0, 0.0], 0.5), None);
    here("vder_info", &info_of(&contacts, &[1.0, 0.0, 0.0], 0.5), 0, &[0.0, 0.0, 1.0, 0.5, 0.0]);
}

fn shorter_radius() {
    let contacts = with_center(still(2, X, Y), 1);
    let answer = vder_info(&contacts, &[1.0, 0.5], 0.5).unwrap();
    assert_eq!((answer.axis.len(), answer.angle.len()), (6, 1));
    refused_here("vder_info", &info_of(&contacts, &[1.0, 0.5], 0.5), 2);
}

/// Five jets of the partial (0,1) and its axis, angle and place: all stand still.
fn place_of(contacts: &Contacts) -> Vec<Item> {
    [five(contacts), vectors(&[0.0, 0.0, 1.0, 0.0, 0.0, 0.0]), curve(&[1.0, 0.0]), vec![Floats(vec![0.0, 0.0, 1.0])]].concat()
}

fn with_center(contacts: Contacts, order: usize) -> Contacts { Contacts { center: vec![0.0; 3 * order + 3], ..contacts } }

fn partials_of_order() {
    let (short, long) = (with_center(still(1, X, Y), 1), with_center(still(2, X, Y), 1));
    let info = AxisAngle { axis: vec![0.0, 0.0, 1.0, 0.0, 0.0, 0.0], angle: vec![1.0, 0.0], cosine: 0.0 };
    same(derivative_v(&short, &info, 0.0, 0.0, 1.0), &[0.0; 3]);
    refused_here("derivative_v", &place_of(&short), 2);
    here("derivative_v", &place_of(&long), 0, &[0.0; 3]);
}

fn center_of_order_20() {
    let contacts = with_center(still(2, X, Y), 20);
    let info = AxisAngle { axis: vec![0.0, 0.0, 1.0, 0.0, 0.0, 0.0], angle: vec![1.0, 0.0], cosine: 0.0 };
    same(derivative_v(&contacts, &info, 0.0, 0.0, 1.0), &[0.0; 3]);
    refused_here("derivative_v", &place_of(&contacts), 1);
}

fn cosine() {
    let contacts = still(1, [1.0e200, 0.0, 0.0], [-1.0e200, 1.0e-300, 0.0]);
    assert_eq!(vder_info(&contacts, &[1.0e200, 0.0], 0.5).unwrap().cosine, 1.0);
    here("vder_info", &info_of(&contacts, &[1.0e200, 0.0], 0.5), 0, &[0.0, 0.0, 1.0, 0.5, 1.0]);
}

fn cosine_below() {
    let contacts = still(1, [2.0, 0.0, 0.0], [-2.0, 1.0, 0.0]);
    assert_eq!(vder_info(&contacts, &[1.0, 0.0], 0.5).unwrap().cosine, -4.0);
    assert!((-4.0f64).acos().is_nan());
    here("vder_info", &info_of(&contacts, &[1.0, 0.0], 0.5), 0, &[0.0, 0.0, 1.0, 0.5, -4.0]);
}

fn no_radius() {
    let contacts = with_center(still(2, X, Y), 1);
    let answer = vder_info(&contacts, &[0.0; 3], 0.5).unwrap();
    assert!(answer.angle[1].is_nan() && answer.cosine == 1.0);
    refused_here("vder_info", &info_of(&contacts, &[0.0; 3], 0.5), 7);
    // Where only the square is zero, so is the cosine's divisor.
    let contacts = still(1, X, Y);
    assert_eq!(vder_info(&contacts, &[1.0e-170, 0.0], 0.5).unwrap().cosine, 1.0);
    refused_here("vder_info", &info_of(&contacts, &[1.0e-170, 0.0], 0.5), 7);
}

fn at_pair(m: u64, n: u64, given: &Given) -> Vec<Item> { [vec![Whole(m), Whole(n)], fillet(given), vec![Floats(vec![0.5, 0.25, 0.28, 0.96])]].concat() }

fn pairs() {
    let given = two_spheres(0.7, 3);
    assert_eq!(sub_der_mn(&given, 2, 1, 0.5, 0.25, 0.28, 0.96), None);
    refused_here("sub_der_mn", &at_pair(2, 1, &given), 11);
}

fn short_jets() {
    let given = two_planes(0.0, &[1.0, 1.0], false);
    refused_here("sub_center_contacts_ders", &center_at(1, &given), 2);
}

fn overflows() {
    same(curve_combinatorial_derivatives(Product::Floats, &[1.0e308], &[1.0e308]), &[INFINITY]);
    refused_here("curve_combinatorial_derivatives", &of_two(&[1.0e308], &[1.0e308]), 10);
}

fn weights() {
    same(curve_rational_derivatives(Kind::Floats, &[4.0], &[2.0]), &[2.0]);
    here("curve_rational_derivatives", &of_two(&[4.0], &[2.0]), 0, &[2.0]);
    // The smaller order counts.
    here("curve_rational_derivatives", &of_two(&[4.0, 1.0], &[2.0]), 0, &[2.0]);
}

fn quarter_turns() {
    assert_eq!((0.0 + std::f64::consts::PI / 2.0 * 1.0).sin_cos(), (1.0, 6.123233995736766e-17));
    // Axis z: entry (x, x) is the cosine of the turned angle, and the axis' own entry -c + c.
    let wanted = [MINUS, 1.0, 0.0, -1.0, MINUS, 0.0, 0.0, 0.0, 0.0];
    let found = rot_der_n([0, 0, 0, 1], &[0.0, 0.0, 1.0], 0.0, 1.0).unwrap();
    assert_eq!(found, wanted);
    here("rot_der_n", &[vec![Whole(0), Whole(0), Whole(0), Whole(1)], vec![Floats(vec![0.0, 0.0, 1.0]), Floats(vec![0.0, 1.0])]].concat(), 0, &found);
}

fn quarter_turns_of_the_circle() {
    // Centre 0, axis z, angle 1, contact point (1, 0, 0), at u = 0: the unpatched line has the cosine 6.1e-17, the turned pair -0.
    let circle = [0.0, 0.0, 0.0, 0.0, 0.0, 1.0, 1.0, 1.0, 0.0, 0.0, 0.0, 0.0, 0.0];
    let found = contact_circle_derivative_n(&circle, 1, 0.0, 1.0).unwrap();
    assert_eq!(found, [0.0, 1.0, 0.0]);
    here("contact_circle_derivative_n", &[Whole(1), Floats(circle.to_vec()), Floats(vec![0.0, 1.0])], 0, &found);
}

fn powers() {
    let x: f64 = 1.1;
    assert_ne!(crate::standins::pair::power(x, 4), x.powi(4));
    // Centre 0, axis z, angle 1.1, contact point (1, 0, 0), at u = 0: derivative 4 is the fourth power.
    let circle = [0.0, 0.0, 0.0, 0.0, 0.0, 1.0, x, 1.0, 0.0, 0.0, 0.0, 0.0, 0.0];
    let found = contact_circle_derivative_n(&circle, 4, 0.0, 1.0).unwrap();
    assert_eq!(found[0], ((x * x) * x) * x);
    here("contact_circle_derivative_n", &[Whole(4), Floats(circle.to_vec()), Floats(vec![0.0, 1.0])], 0, &found);
}

fn along_the_axis() {
    let circle = [0.0, 0.0, 0.0, 0.0, 0.0, 1.0, 1.0, 0.0, 0.0, 1.0, 0.0, 0.0, 0.0];
    assert_eq!(contact_circle_derivative_n(&circle, 1, 0.0, 1.0).unwrap(), [0.0, 0.0, 1.0]);
    let found = contact_circle_derivative_n(&circle, 1, 0.0, 1.0).unwrap();
    here("contact_circle_derivative_n", &[Whole(1), Floats(circle.to_vec()), Floats(vec![0.0, 1.0])], 0, &found);
}

fn one_nan() {
    // Infinity less infinity on the way; a function that can refuse returns none.
    let (a, b) = ([1.0e308, 1.0e308], [1.0e308, -1.0e308]);
    assert!(curve_combinatorial_derivatives(Product::Floats, &a, &b).unwrap()[1].is_nan());
    refused_here("curve_combinatorial_derivatives", &of_two(&a, &b), 10);
}
