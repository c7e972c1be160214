//! Document 01's figures through the oracle, the source's examples and tests, and that each patch finds its place.

use crate::inputs::{surface_by, Random};
use crate::oracle::*;
use std::{fs, path::Path};

#[allow(dead_code)]
#[path = "../patches.rs"]
mod patches;

/// The examples in the source's documentation. Its two plain tests run where they stand, in `derivatives`.
#[allow(unused_mut, unused_imports, clippy::all)]
mod examples {
    use crate::standins::monstertruck_core::{self, anyhow};
    mod derivatives {
        use super::*;
        include!(concat!(env!("OUT_DIR"), "/examples_derivatives.rs"));
    }
    mod cgmath_extend_traits {
        use super::*;
        include!(concat!(env!("OUT_DIR"), "/examples_cgmath_extend_traits.rs"));
    }
}

fn bits(list: &[f64]) -> Vec<u64> { list.iter().map(|x| x.to_bits()).collect() }

fn assert_bits(a: &[f64], b: &[f64]) { assert_eq!(bits(a), bits(b), "{a:?} {b:?}") }

// Patches.

fn source(file: &str) -> String { fs::read_to_string(Path::new(env!("ORACLE_SOURCE")).join(file)).unwrap() }

#[test]
fn each_patch_has_a_reason_and_a_file_that_is_read() {
    for patch in patches::PATCHES {
        assert!(!patch.why.is_empty());
        assert!(patches::FILES.iter().any(|(file, _)| *file == patch.file));
    }
}

#[test]
fn each_patch_finds_its_text_once() {
    for (file, _) in patches::FILES {
        let text = source(file);
        assert!(patches::patched(file, &text).is_ok());
        for patch in patches::PATCHES.iter().filter(|p| p.file == file) {
            let (patches::Edit::Line(old, _) | patches::Edit::Cut(old, _) | patches::Edit::Rest(old)) = patch.edit;
            // With its last line gone it is there no longer; with a copy at the end it is there twice.
            let line = old.lines().next_back().unwrap();
            assert!(patches::patched(file, &text.replace(line, "")).is_err(), "{old}");
            assert!(patches::patched(file, &format!("{text}\n{old}")).is_err(), "{old}");
        }
    }
}

// Lists of parts.

#[test]
fn part_lists_of_the_figures() {
    assert_eq!(part_lists(5, 2).unwrap(), [[4, 1], [3, 2]]);
    assert_eq!(multiplicity(&[4, 1]), Some(5));
    assert_eq!(multiplicity(&[3, 2]), Some(10));
    assert_eq!(part_lists(4, 3).unwrap(), [[2, 1, 1]]);
    assert_eq!(multiplicity(&[2, 1, 1]), Some(6));
    assert_eq!(part_lists(20, 20).unwrap(), [[1; 20]]);
    assert_eq!(multiplicity(&[1; 20]), Some(1));
    assert_eq!(part_lists(20, 21), None);
    assert_eq!(multiplicity(&[3, 1]), Some(4));
}

/// The number of partitions of `order` into `len` parts, each at most `max`.
fn partitions(order: usize, len: usize, max: usize) -> usize {
    match (order, len) {
        (0, 0) => 1,
        (_, 0) => 0,
        _ => (1..=max.min(order)).map(|part| partitions(order - part, len - 1, part)).sum(),
    }
}

#[test]
fn part_lists_are_all_lists_once_greatest_first() {
    for order in 1..=20 {
        for len in 1..=order {
            let lists = part_lists(order, len).unwrap();
            assert_eq!(lists.len(), partitions(order, len, order));
            assert!(lists.windows(2).all(|w| w[0] > w[1]));
            for list in &lists {
                assert_eq!((list.len(), list.iter().sum::<usize>()), (len, order));
                assert!(list.windows(2).all(|w| w[0] >= w[1]) && list[len - 1] >= 1);
            }
            for w in lists.windows(2) {
                assert_eq!(next_list(&w[0]), Some((true, w[1].clone())));
            }
            // After the last list the walk still holds it.
            let last = lists.last().unwrap();
            assert_eq!(next_list(last), Some((false, last.clone())));
        }
    }
}

#[test]
fn multiplicities_total_the_stirling_numbers() {
    let mut row = vec![1u128];
    for order in 1..=20 {
        let mut next = vec![0; order + 1];
        for k in 1..=order {
            next[k] = k as u128 * row.get(k).copied().unwrap_or(0) + row[k - 1];
            let total: u128 = part_lists(order, k).unwrap().iter().map(|l| multiplicity(l).unwrap()).sum();
            assert_eq!(total, next[k]);
        }
        row = next;
    }
    assert_eq!(row[2], 524_287);
}

// Jets.

/// Document 01's surface, as a list: [0][0], [0][1], [0][2], [1][0], [1][1], [2][0].
const SURFACE: [f64; 6] = [5.0, 3.0, 6.0, 2.0, 4.0, 1.0];
/// u' = 1, u'' = 2, v' = 2, v'' = 1.
const CURVE: [f64; 6] = [0.0, 0.0, 1.0, 2.0, 2.0, 1.0];

#[test]
fn products_and_quotients_of_the_figures() {
    let product = curve_combinatorial_derivatives(Product::Floats, &[1.0, 2.0, 3.0], &[4.0, 5.0, 6.0]).unwrap();
    assert_eq!(product, [4.0, 13.0, 38.0]);
    assert_eq!(curve_rational_derivatives(Kind::Floats, &product, &[1.0, 2.0, 3.0]).unwrap(), [4.0, 5.0, 6.0]);
    for (order, entry) in product.iter().enumerate() {
        assert_eq!(curve_combinatorial_derivative(Product::Floats, &[1.0, 2.0, 3.0], &[4.0, 5.0, 6.0], order).unwrap(), [*entry]);
    }
}

#[test]
fn carried_surface_of_the_figures() {
    assert_eq!(composite_derivatives(Kind::Floats, &SURFACE, &CURVE).unwrap(), [5.0, 8.0, 48.0]);
    let square = surface_combinatorial_derivatives(Product::Floats, &SURFACE, &SURFACE).unwrap();
    assert_eq!(composite_derivatives(Kind::Floats, &square, &CURVE).unwrap(), [25.0, 80.0, 608.0]);
    // Order 0 of the single form is zero.
    assert_eq!(composite_derivative(Kind::Floats, &SURFACE, &CURVE, 0).unwrap(), [0.0]);
    assert_eq!(composite_derivative(Kind::Floats, &SURFACE, &CURVE, 2).unwrap(), [48.0]);
    assert_eq!(composite_derivative(Kind::Floats, &SURFACE, &CURVE, 3), None);
    assert_eq!(surface_rational_derivatives(Kind::Floats, &square, &SURFACE).unwrap(), SURFACE);
}

#[test]
fn norm_and_rotation_of_the_figures() {
    assert_eq!(curve_absolute_derivatives(&[3.0, 4.0, 0.0, 5.0, 5.0, 0.0]).unwrap(), [5.0, 7.0]);
    assert_eq!(surface_absolute_derivatives(&[3.0, 4.0, 0.0, 5.0, 5.0, 0.0, 5.0, 5.0, 0.0]).unwrap(), [5.0, 7.0, 7.0]);
    let columns = [0.0, 1.0, 0.0, -1.0, 0.0, 0.0, 0.0, 0.0, 1.0];
    assert_eq!(rot_der_n([0; 4], &[0.0, 0.0, 1.0], 1.0, 0.0).unwrap(), columns);
    assert_eq!(from_axis_angle(&[0.0, 0.0, 1.0], 1.0, 0.0).unwrap(), columns);
    assert_eq!(2.0f64.sqrt().to_bits(), 0x3FF6A09E667F3BCD);
}

#[test]
fn where_the_source_panics() {
    assert_eq!(curve_derivative(Kind::Floats, &[1.0]), None);
    assert_eq!(surface_derivative_u(Kind::Vectors, &[1.0, 2.0, 3.0]), None);
    assert_eq!(curve_derivative(Kind::Floats, &[1.0, 2.0]).unwrap(), [2.0]);
    assert_eq!(curve_combinatorial_derivative(Product::Floats, &[1.0], &[1.0], 1), None);
    // The walk of order 0 and len 0 is made, and panics at its first step.
    assert_eq!(part_lists(0, 0), None);
    assert!(crate::derivatives::open::walk(0, 0).is_some());
    assert!(crate::derivatives::open::walk(1, 0).is_none());
}

/// The single forms give the entries of the whole forms, and lists come back as they went in.
#[test]
fn single_forms_agree_with_whole_ones() {
    let mut random = Random::new(1);
    for order in 0..=6 {
        for product in [Product::Floats, Product::Scaled, Product::Dot, Product::Cross] {
            let (v, w, out) = product.widths();
            let (a, b) = (random.floats((order + 1) * v), random.floats((order + 1) * w));
            let whole = curve_combinatorial_derivatives(product, &a, &b).unwrap();
            for k in 0..=order {
                assert_bits(&curve_combinatorial_derivative(product, &a, &b, k).unwrap(), &whole[k * out..(k + 1) * out]);
            }
            let count = surface_count(order);
            let (a, b) = (random.floats(count * v), random.floats(count * w));
            let whole = surface_combinatorial_derivatives(product, &a, &b).unwrap();
            let mut at = 0;
            for i in 0..=order {
                for j in 0..=order - i {
                    assert_bits(&surface_combinatorial_derivative(product, &a, &b, i, j).unwrap(), &whole[at..at + out]);
                    at += out;
                }
            }
        }
        let (a, uv) = (random.floats(surface_count(order) * 3), random.floats((order + 1) * 2));
        let whole = composite_derivatives(Kind::Vectors, &a, &uv).unwrap();
        assert_bits(&whole[..3], &a[..3]);
        for k in 1..=order {
            assert_bits(&composite_derivative(Kind::Vectors, &a, &uv, k).unwrap(), &whole[k * 3..(k + 1) * 3]);
            assert_bits(&composite_derivatives(Kind::Vectors, &cut_surface(&a, 3, k), &uv).unwrap(), &whole[..(k + 1) * 3]);
        }
    }
    let a = surface_by(3, 1, |i, j, _| (10 * i + j) as f64);
    assert_eq!(a, [0.0, 1.0, 2.0, 3.0, 10.0, 11.0, 12.0, 20.0, 21.0, 30.0]);
    assert_eq!(surface_derivative_u(Kind::Floats, &a).unwrap(), [10.0, 11.0, 12.0, 20.0, 21.0, 30.0]);
    assert_eq!(surface_derivative_v(Kind::Floats, &a).unwrap(), [1.0, 2.0, 3.0, 11.0, 12.0, 21.0]);
    assert_eq!(cut_surface(&a, 1, 1), [0.0, 1.0, 10.0]);
}

// Rotations.

#[test]
fn from_axis_angle_is_all_orders_zero() {
    let mut random = Random::new(2);
    for _ in 0..10_000 {
        let axis = random.floats(3);
        let (s, c) = (random.float(), random.float());
        assert_bits(&from_axis_angle(&axis, s, c).unwrap(), &rot_der_n([0; 4], &axis, s, c).unwrap());
    }
}

/// Each derivative of the rotation is a limit of difference quotients: the source's own test, over sines and cosines of the angle.
#[test]
fn rotation_derivatives_are_derivatives() {
    const EPS: f64 = 1.0e-4;
    let mut random = Random::new(3);
    for _ in 0..2_000 {
        let (u, v, angle) = (random.within(0.0, 6.0), random.within(-1.0, 1.0), random.within(0.0, 6.0));
        let r = (1.0 - v * v).sqrt();
        let axis = [r * u.cos(), r * u.sin(), v];
        let orders: [usize; 4] = std::array::from_fn(|_| random.below(5));
        let index = random.below(4);
        let mut above = orders;
        above[index] += 1;
        let at = |orders: [usize; 4], shift: f64| {
            let (mut axis, mut angle) = (axis, angle);
            if index < 3 {
                axis[index] += shift;
            } else {
                angle += shift;
            }
            rot_der_n(orders, &axis, angle.sin(), angle.cos()).unwrap()
        };
        let (plus, minus) = (at(orders, EPS), at(orders, -EPS));
        for (k, x) in at(above, 0.0).into_iter().enumerate() {
            assert!((x - (plus[k] - minus[k]) / (2.0 * EPS)).abs() < EPS);
        }
    }
}

// The fillet.

/// The source's own test: a ball of changing radius between two spheres, against difference quotients.
#[test]
fn fillet_between_two_spheres() {
    const EPS: f64 = 1.0e-4;
    for i in 1..20 {
        let t = 2.0 * std::f64::consts::PI * i as f64 / 20.0;
        let at = |t: f64, n: usize| {
            let given = crate::inputs::two_spheres(t, 5);
            let angle = crate::inputs::arc_angle(&given);
            fillet_vder_info(&given, n, angle).unwrap()
        };
        let (here, plus, minus) = (at(t, 4), at(t + EPS, 3), at(t - EPS, 3));
        let near = |name: &str, width: usize, pick: &dyn Fn(&(Contacts, AxisAngle)) -> Vec<f64>| {
            let (here, plus, minus) = (pick(&here), pick(&plus), pick(&minus));
            for k in 0..3 * width {
                let slope = (plus[k] - minus[k]) / (2.0 * EPS);
                assert!((here[k + width] - slope).abs() < EPS, "{name} {k}: {} {slope}", here[k + width]);
            }
        };
        near("center", 3, &|x| x.0.center.clone());
        near("contact0", 3, &|x| x.0.contact0.clone());
        near("contact1", 3, &|x| x.0.contact1.clone());
        near("uv0", 2, &|x| x.0.uv0.clone());
        near("uv1", 2, &|x| x.0.uv1.clone());
        near("axis", 3, &|x| x.1.axis.clone());
        near("angle", 1, &|x| x.1.angle.clone());
        assert!((here.1.cosine - here.1.angle[0].cos()).abs() < 1.0e-12);
    }
}

/// The partials by v and u of that fillet, against difference quotients of the circle's points.
#[test]
fn partials_between_two_spheres() {
    const EPS: f64 = 1.0e-4;
    for i in 1..20 {
        let (t, u) = (2.0 * std::f64::consts::PI * i as f64 / 20.0, 0.05 * i as f64);
        let at = |t: f64, u: f64, m: usize, n: usize| {
            let given = crate::inputs::two_spheres(t, 3);
            let angle = crate::inputs::arc_angle(&given);
            let (s, c) = (angle * u).sin_cos();
            sub_der_mn(&given, m, n, angle, u, s, c).unwrap()
        };
        let near = |here: Vec<f64>, plus: Vec<f64>, minus: Vec<f64>| {
            for k in 0..3 {
                let slope = (plus[k] - minus[k]) / (2.0 * EPS);
                assert!((here[k] - slope).abs() < 1.0e-5, "{here:?} {slope} {k}");
            }
        };
        for m in 0..4 {
            near(at(t, u, m + 1, 0), at(t, u + EPS, m, 0), at(t, u - EPS, m, 0));
        }
        near(at(t, u, 0, 1), at(t + EPS, u, 0, 0), at(t - EPS, u, 0, 0));
        near(at(t, u, 1, 1), at(t + EPS, u, 1, 0), at(t - EPS, u, 1, 0));
        near(at(t, u, 0, 2), at(t + EPS, u, 0, 1), at(t - EPS, u, 0, 1));
    }
}

/// The pieces give what the source's own way through them gives.
#[test]
fn pieces_of_the_fillet_agree() {
    for i in 1..20 {
        let given = crate::inputs::two_spheres(0.3 * i as f64, 4);
        let angle = crate::inputs::arc_angle(&given);
        let u = 0.07 * i as f64;
        let (s, c) = (angle * u).sin_cos();
        for n in 0..=3 {
            let contacts = sub_center_contacts_ders(&given, n).unwrap();
            let radius = cut_curve(&given.radius, 1, n + 1);
            let axis_angle = vder_info(&contacts, &radius, angle).unwrap();
            assert_eq!(fillet_vder_info(&given, n, angle).unwrap(), (contacts.clone(), axis_angle.clone()));
            let (along, center) = surface_infos(&given, n, n).unwrap();
            assert_bits(&center, &contacts.center);
            assert_bits(&along[0].tders, &contacts.contact0);
            assert_bits(&along[1].uvders, &contacts.uv1);
            if n == 1 {
                assert_bits(&derivative_v(&contacts, &axis_angle, u, s, c).unwrap(), &sub_der_mn(&given, 0, 1, angle, u, s, c).unwrap());
                assert_bits(&derivative_uv(&contacts, &axis_angle, u, s, c).unwrap(), &sub_der_mn(&given, 1, 1, angle, u, s, c).unwrap());
            }
            if n == 2 {
                assert_bits(&derivative_vv(&contacts, &axis_angle, u, s, c).unwrap(), &sub_der_mn(&given, 0, 2, angle, u, s, c).unwrap());
            }
        }
        assert_eq!(sub_der_mn(&given, 2, 1, angle, u, s, c), None);
        assert_bits(&contact_circle_derivative_n(&given.circle, 3, s, c).unwrap(), &sub_der_mn(&given, 3, 0, angle, u, s, c).unwrap());
    }
}

// More of where the source and the public formula part; differences.rs has the rows of docs/DIFFERENCES.md.

#[test]
fn multiplicity_takes_any_list() {
    assert_eq!(multiplicity(&[]), Some(1));
    assert_eq!(multiplicity(&[0]), Some(1));
    assert_eq!(multiplicity(&[1, 2]), Some(3));
    // Equal parts that do not stand side by side are not counted as a run.
    assert_eq!((multiplicity(&[1, 2, 1]), multiplicity(&[2, 1, 1])), (Some(12), Some(6)));
}

#[test]
fn a_growing_radius_enters_with_a_plus() {
    let centre = |inward: bool| sub_center_contacts_ders(&crate::inputs::two_planes(0.0, &[1.0, 1.0, 0.0], inward), 1).unwrap().center;
    assert_eq!(centre(false), [0.0, 1.0, 1.0, 1.0, 1.0, 1.0]);
    // Tangency asks for (1, -1, -1).
    assert_eq!(centre(true), [0.0, -1.0, -1.0, 1.0, 1.0, 1.0]);
}

#[test]
fn zero_determinants_and_divisors_are_seen() {
    let mut given = crate::inputs::two_planes(0.0, &[1.0, 1.0, 0.0], false);
    given.normals.copy_within(0..3, 3);
    assert_eq!((sub_center_contacts_ders(&given, 1), refused()), (None, 6));
    // At n = 0 no determinant is formed.
    assert!(sub_center_contacts_ders(&given, 0).is_some() && refused() == 0);
    assert_eq!((curve_rational_derivatives(Kind::Floats, &[4.0], &[0.0]), refused()), (Some(vec![f64::INFINITY]), 7));
}

// Runs.

#[test]
fn stored_answers_are_the_source_s() {
    let dir = Path::new(env!("CARGO_MANIFEST_DIR")).join("../data/rust_answers");
    for operation in crate::cases::operations() {
        let file = fs::read_to_string(dir.join(format!("{}.txt", operation.name))).unwrap();
        let (cases, wrong) = crate::runs::stored(&operation, &file, &operation.rust);
        assert!(cases > 0 && wrong.is_empty(), "{}: {wrong:?}", operation.name);
    }
}

#[test]
fn a_wrong_answer_is_found() {
    let operation = crate::cases::operations().into_iter().find(|o| o.name == "multiplicity").unwrap();
    assert_eq!(crate::runs::stored(&operation, "# a note\n3 2 1 1 = 0 6\n", &operation.rust), (1, vec![]));
    assert_eq!(crate::runs::stored(&operation, "3 2 1 1 = 0 7\n3 2 1 = 0 6\n", &operation.rust).1.len(), 2);
    let mute = |_: &[crate::cases::Item]| crate::cases::Answer { refusal: 200, items: vec![] };
    assert_eq!(crate::runs::random(&operation, Random::new(1), 10, &mute).wrong.len(), 10);
}

/// An answer depends on its case alone: nothing is left over from the calls before.
#[test]
fn answers_follow_from_the_case() {
    let operations = crate::cases::operations();
    for (k, operation) in operations.iter().enumerate() {
        let before = &operations[(k + 7) % operations.len()];
        let other = (before.random)(&mut Random::new(k as u64));
        let side = |case: &[crate::cases::Item]| {
            (before.rust)(&other);
            (operation.rust)(case)
        };
        assert!(crate::runs::random(operation, Random::new(5), 40, &side).wrong.is_empty(), "{}", operation.name);
    }
}

/// Many cases, orders to 20 among them: the source answers each that passes the checks, and twice the same.
#[test]
#[ignore = "long"]
fn long_runs_are_settled() {
    for operation in crate::cases::operations() {
        assert!(crate::runs::random(&operation, Random::far(9), 1_000, &operation.rust).wrong.is_empty(), "{}", operation.name);
    }
}

// What the source has not.

fn added(name: &str) -> crate::cases::Operation { crate::cases::added().into_iter().find(|o| o.name == name).unwrap() }

#[test]
fn added_operations_meet_the_figures() {
    let answers = |name: &str| -> Vec<String> {
        let operation = added(name);
        operation.fixed.iter().map(|case| (operation.rust)(case).text()).collect()
    };
    assert_eq!(answers("exact_curve_combinatorial_derivatives")[..], ["0 3 4 13 38", "0 3 4 21 102", "0 1 10", "9"]);
    assert_eq!(answers("exact_curve_quotient")[1..3], ["0 3 4 5 6", "8"]);
    assert_eq!(answers("exact_composite_derivatives"), ["0 3 5 8 48"]);
    assert_eq!(answers("whole_quotient")[2..5], ["9", "8", "7"]);
    assert_eq!(answers("roads")[..], ["0 0 3 25 80 608 0 3 25 80 608", "0 0 3 0 0 31 9 0"]);
    assert_eq!(answers("stirling_number").iter().filter(|a| *a == "0 524287").count(), 1);
}

/// Demand 3, in the calculation that the library is held against.
#[test]
fn the_two_roads_meet() {
    use crate::cases::Item::{Signed, Whole};
    let (operation, mut random) = (added("roads"), Random::new(4));
    let (mut same, mut refused) = (0, 0);
    for _ in 0..5_000 {
        let case = (operation.random)(&mut random);
        match &(operation.rust)(&case).items[..] {
            [Whole(0), Signed(first), Whole(0), Signed(second)] => {
                assert_eq!(first, second, "{case:?}");
                same += 1
            }
            [Whole(0), _, Whole(refusal), _] => {
                assert_eq!(*refusal, 9, "{case:?}");
                refused += 1
            }
            _ => {}
        }
    }
    assert!(same > 500 && refused > 5, "{same} {refused}");
}
