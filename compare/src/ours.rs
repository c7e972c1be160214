//! The library's answers to the cases, through its C interface.
//!
//! Each call is made once more with each output one number too long, and one too short: it must be refused 1 or 2. A refusal must leave what was
//! lent as it was. A call that keeps neither is answered with a number that no refusal has.

use crate::cases::{curve, surface, Answer, Form, Item, Reader, Work};
use crate::ffi;
use Item::{Floats, Signed, Whole, Wholes};

/// An output was changed by a refusal.
const CHANGED: u8 = 100;
/// An output of a wrong length was taken.
const TAKEN: u8 = 101;
/// The two roads do not meet.
const PARTED: u8 = 102;

/// A number that can be lent. `mark` is in no answer.
trait Lent: Copy + 'static {
    const MARK: Self;
    fn same(self, other: Self) -> bool;
    fn item(list: Vec<Self>) -> Item;
}

impl Lent for f64 {
    const MARK: f64 = f64::from_bits(0x7FF8_0000_DEAD_BEEF);
    fn same(self, other: f64) -> bool { self.to_bits() == other.to_bits() }
    fn item(list: Vec<f64>) -> Item { Floats(list) }
}

impl Lent for i64 {
    const MARK: i64 = 0x0BAD_CAFE_0BAD_CAFE;
    fn same(self, other: i64) -> bool { self == other }
    fn item(list: Vec<i64>) -> Item { Signed(list) }
}

impl Lent for u64 {
    const MARK: u64 = 0x0BAD_CAFE_0BAD_CAFE;
    fn same(self, other: u64) -> bool { self == other }
    fn item(list: Vec<u64>) -> Item { Wholes(list) }
}

type Outputs<N, const K: usize> = [Vec<N>; K];

/// What a call writes into outputs of the lengths `due`, or its refusal.
fn called<N: Lent, const K: usize>(due: [usize; K], call: impl Fn(&mut Outputs<N, K>) -> u8) -> Result<Outputs<N, K>, u8> {
    let run = |lengths: [usize; K]| {
        let mut out = lengths.map(|length| vec![N::MARK; length]);
        let refusal = call(&mut out);
        let kept = out.iter().flatten().all(|x| x.same(N::MARK));
        (if refusal != 0 && !kept { CHANGED } else { refusal }, out)
    };
    let (refusal, out) = run(due);
    for k in 0..K {
        for length in [due[k] + 1, due[k].wrapping_sub(1)] {
            let mut lengths = due;
            lengths[k] = length;
            if length != usize::MAX && run(lengths).0 != if refusal == 1 { 1 } else { 2 } {
                return Err(TAKEN);
            }
        }
    }
    if refusal == 0 { Ok(out) } else { Err(refusal) }
}

fn answer(outcome: Result<Vec<Item>, u8>) -> Answer {
    match outcome {
        Ok(items) => Answer { refusal: 0, items },
        Err(refusal) => Answer::refused(refusal),
    }
}

/// One output, as one list.
fn listed<N: Lent>(due: usize, call: impl Fn(&mut [N]) -> u8) -> Answer {
    answer(called([due], |[out]| call(out)).map(|[out]| vec![N::item(out)]))
}

/// One output, as a jet.
fn jet(form: Form, order: usize, call: impl Fn(&mut [f64]) -> u8) -> Answer {
    answer(called([form.length(order)], |[out]| call(out)).map(|[out]| vec![Whole(order as u64), Floats(out)]))
}

/// An order for the length of an output: a call at a higher one is refused whatever the length is.
fn bounded(order: usize) -> usize { order.min(32) }

/// The items of a jet.
impl Reader<'_> {
    fn given(&mut self) -> (usize, Vec<f64>) { (self.whole(), self.floats()) }
    fn given_exact(&mut self) -> (usize, Vec<i64>) { (self.whole(), self.signed()) }
}

// Jets of floats and vectors.

type OfOne<N> = fn(usize, &[N], &mut [N]) -> u8;
type OfTwo<N> = fn(usize, &[N], usize, &[N], &mut [N]) -> u8;
type Asked<N> = fn(usize, &[N], usize, &[N], usize, &mut [N]) -> u8;
type AskedTwice<N> = fn(usize, &[N], usize, &[N], usize, usize, &mut [N]) -> u8;

/// `lower` is by how much the answer's order is lower.
fn of_one(form: Form, lower: usize, call: OfOne<f64>) -> Work {
    Box::new(move |items| {
        let (order, a) = Reader::new(items).given();
        if order < lower {
            return listed(0, |out| call(order, &a, out));
        }
        jet(form, bounded(order - lower), |out| call(order, &a, out))
    })
}

fn of_two(form: Form, call: OfTwo<f64>) -> Work {
    Box::new(move |items| {
        let mut reader = Reader::new(items);
        let ((m, a), (n, b)) = (reader.given(), reader.given());
        jet(form, bounded(m.min(n)), |out| call(m, &a, n, &b, out))
    })
}

fn entry(width: usize, call: Asked<f64>) -> Work {
    Box::new(move |items| {
        let mut reader = Reader::new(items);
        let ((m, a), (n, b), order) = (reader.given(), reader.given(), reader.whole());
        listed(width, |out| call(m, &a, n, &b, order, out))
    })
}

fn entry_uv(width: usize, call: AskedTwice<f64>) -> Work {
    Box::new(move |items| {
        let mut reader = Reader::new(items);
        let ((m, a), (n, b), i, j) = (reader.given(), reader.given(), reader.whole(), reader.whole());
        listed(width, |out| call(m, &a, n, &b, i, j, out))
    })
}

fn carry(width: usize, call: Asked<f64>) -> Work {
    Box::new(move |items| {
        let mut reader = Reader::new(items);
        let ((m, a), (n, c), order) = (reader.given(), reader.given(), reader.whole());
        jet(curve(width), bounded(order), |out| call(m, &a, n, &c, order, out))
    })
}

// Exact jets.

fn exact_of_one(form: Form, call: OfOne<i64>) -> Work {
    Box::new(move |items| {
        let (order, a) = Reader::new(items).given_exact();
        let due = if order == 0 { 0 } else { form.length(bounded(order - 1)) };
        listed(due, |out| call(order, &a, out))
    })
}

fn exact_of_two(form: Form, call: OfTwo<i64>) -> Work {
    Box::new(move |items| {
        let mut reader = Reader::new(items);
        let ((m, a), (n, b)) = (reader.given_exact(), reader.given_exact());
        listed(form.length(bounded(m.min(n))), |out| call(m, &a, n, &b, out))
    })
}

/// `whole`: entries 0 to the order asked; else one.
fn exact_asked(whole: bool, call: Asked<i64>) -> Work {
    Box::new(move |items| {
        let mut reader = Reader::new(items);
        let ((m, a), (n, b), order) = (reader.given_exact(), reader.given_exact(), reader.whole());
        listed(if whole { bounded(order) + 1 } else { 1 }, |out| call(m, &a, n, &b, order, out))
    })
}

fn exact_entry_uv(call: AskedTwice<i64>) -> Work {
    Box::new(move |items| {
        let mut reader = Reader::new(items);
        let ((m, a), (n, b), i, j) = (reader.given_exact(), reader.given_exact(), reader.whole(), reader.whole());
        listed(1, |out| call(m, &a, n, &b, i, j, out))
    })
}

fn whole(call: fn(i64, i64, &mut [i64]) -> u8) -> Work {
    Box::new(move |items| {
        let mut reader = Reader::new(items);
        let (a, b) = (reader.signed(), reader.signed());
        listed(1, |out| call(a[0], b[0], out))
    })
}

type Build = fn(&[usize], &[i64], &[usize], &mut [i64]) -> u8;
type Road = fn(&[usize], &[i64], &[usize], usize, &[i64], usize, &mut [i64]) -> u8;

fn recipe(form: Form, call: Build) -> Work {
    Box::new(move |items| {
        let mut reader = Reader::new(items);
        let (orders, entries, steps) = (reader.wholes(), reader.signed(), reader.wholes());
        // Without a jet nothing is due, and an output of any length is refused alike.
        let Some(order) = orders.iter().min() else { return Answer::refused(call(&orders, &entries, &steps, &mut [])) };
        listed(form.length(bounded(*order)), |out| call(&orders, &entries, &steps, out))
    })
}

/// Where the first road is answered, the second has the same answer or is refused 9.
fn roads() -> Work {
    Box::new(|items| {
        let mut reader = Reader::new(items);
        let (orders, entries, steps) = (reader.wholes(), reader.signed(), reader.wholes());
        let ((n, c), order) = (reader.given_exact(), reader.whole());
        let road = |call: Road| {
            let onto = |out: &mut [i64]| call(&orders, &entries, &steps, n, &c, order, out);
            // Above 20 no length is due of the output, and any is refused alike.
            if order > 20 {
                let refusals = [0, 1, 22].map(|length| onto(&mut vec![0; length]));
                return Err(if refusals[0] != 0 && refusals == [refusals[0]; 3] { refusals[0] } else { TAKEN });
            }
            called([bounded(order) + 1], |[out]| onto(out)).map(|[out]| out)
        };
        let (first, second) = (road(ffi::build_then_carry), road(ffi::carry_then_build));
        if first.is_ok() && second != first && second != Err(9) {
            return Answer::refused(PARTED);
        }
        let items = [first, second].into_iter().flat_map(|road| match road {
            Ok(list) => [Whole(0), Signed(list)],
            Err(refusal) => [Whole(refusal as u64), Signed(Vec::new())],
        });
        Answer { refusal: 0, items: items.collect() }
    })
}

// Part lists.

fn count(call: impl Fn(&mut [u64]) -> u8) -> Result<u64, u8> { called([1], |[out]| call(out)).map(|[out]| out[0]) }

/// A walk is lent and comes back: what it was is kept by a refusal.
fn step(walk: &mut [usize]) -> Result<[usize; 20], u8> {
    let before = walk.to_vec();
    for length in [19, 21] {
        let mut parts = vec![7; length];
        let refusal = ffi::walk_next(walk, &mut parts);
        if refusal == 0 || parts != vec![7; length] || *walk != before {
            return Err(TAKEN);
        }
    }
    let mut parts = [7; 20];
    match ffi::walk_next(walk, &mut parts) {
        0 => Ok(parts),
        _ if *walk != before || parts != [7; 20] => Err(CHANGED),
        refusal => Err(refusal),
    }
}

fn part_lists() -> Work {
    Box::new(|items| {
        let mut reader = Reader::new(items);
        let (order, len) = (reader.whole(), reader.whole());
        let lists = || {
            for length in [22, 24] {
                let mut walk = vec![7; length];
                if ffi::walk_start(order, len, &mut walk) == 0 || walk != vec![7; length] {
                    return Err(TAKEN);
                }
            }
            let mut walk = [7; 23];
            match ffi::walk_start(order, len, &mut walk) {
                0 => {}
                _ if walk != [7; 23] => return Err(CHANGED),
                refusal => return Err(refusal),
            }
            let mut lists = Vec::new();
            loop {
                let parts = step(&mut walk)?;
                if parts == [0; 20] {
                    break;
                }
                let list: Vec<usize> = parts.into_iter().take_while(|part| *part != 0).collect();
                let multiplicity = count(|out| ffi::multiplicity(&list, out))?;
                lists.push(Wholes([vec![multiplicity], list.iter().map(|part| *part as u64).collect()].concat()));
            }
            // A walk that has ended says so again.
            if step(&mut walk)? != [0; 20] {
                return Err(TAKEN);
            }
            Ok([vec![Whole(lists.len() as u64)], lists].concat())
        };
        answer(lists())
    })
}

fn walk_next() -> Work {
    Box::new(|items| {
        let mut walk = Reader::new(items).wholes();
        let wholes = |list: &[usize]| Wholes(list.iter().map(|n| *n as u64).collect());
        let parts = step(&mut walk);
        answer(parts.map(|parts| vec![wholes(&parts), wholes(&walk)]))
    })
}

fn numbered(work: impl Fn(&mut Reader) -> Result<u64, u8> + 'static) -> Work {
    Box::new(move |items| answer(work(&mut Reader::new(items)).map(|number| vec![Whole(number)])))
}

// Vectors.

fn lists_of_one(width: usize, call: fn(&[f64], &mut [f64]) -> u8) -> Work {
    Box::new(move |items| {
        let a = Reader::new(items).floats();
        listed(width, |out| call(&a, out))
    })
}

fn lists_of_two(width: usize, call: fn(&[f64], &[f64], &mut [f64]) -> u8) -> Work {
    Box::new(move |items| {
        let mut reader = Reader::new(items);
        let (a, b) = (reader.floats(), reader.floats());
        listed(width, |out| call(&a, &b, out))
    })
}

fn list_and_float(call: fn(&[f64], f64, &mut [f64]) -> u8) -> Work {
    Box::new(move |items| {
        let mut reader = Reader::new(items);
        let (a, s) = (reader.floats(), reader.floats());
        listed(3, |out| call(&a, s[0], out))
    })
}

// The fillet.

mod fillet {
    use super::*;

    pub fn rot_der_n() -> Work {
        Box::new(|items| {
            let mut reader = Reader::new(items);
            let [x, y, z, n]: [usize; 4] = std::array::from_fn(|_| reader.whole());
            let (axis, pair) = (reader.floats(), reader.floats());
            listed(9, |out| ffi::rot_der_n(x, y, z, n, &axis, pair[0], pair[1], out))
        })
    }

    pub fn from_axis_angle() -> Work {
        Box::new(|items| {
            let mut reader = Reader::new(items);
            let (axis, pair) = (reader.floats(), reader.floats());
            listed(9, |out| ffi::from_axis_angle(&axis, pair[0], pair[1], out))
        })
    }

    pub fn contact_circle_derivative_n() -> Work {
        Box::new(|items| {
            let mut reader = Reader::new(items);
            let (n, circle, pair) = (reader.whole(), reader.floats(), reader.floats());
            listed(3, |out| ffi::contact_circle_derivative_n(n, &circle, pair[0], pair[1], out))
        })
    }

    pub fn sub_center_contacts_ders() -> Work {
        Box::new(|items| {
            let mut reader = Reader::new(items);
            let n = reader.whole();
            let [circle, feet, normals] = std::array::from_fn(|_| reader.floats());
            let [(e, edge), (r, radius), (s, surface0), (t, surface1)] = std::array::from_fn(|_| reader.given());
            let order = bounded(n);
            let orders = [order, order + 1, order + 1, order + 1, order + 1];
            let due = [3 * order + 3, 3 * order + 6, 3 * order + 6, 2 * order + 4, 2 * order + 4];
            let outputs = called(due, |[center, contact0, contact1, uv0, uv1]| {
                ffi::sub_center_contacts_ders(
                    n, &circle, &feet, &normals, e, &edge, r, &radius, s, &surface0, t, &surface1, center, contact0, contact1, uv0, uv1,
                )
            });
            answer(outputs.map(|lists| orders.into_iter().zip(lists).flat_map(|(n, list)| [Whole(n as u64), Floats(list)]).collect()))
        })
    }

    pub fn vder_info() -> Work {
        Box::new(|items| {
            let mut reader = Reader::new(items);
            let [(a, center), (b, contact0), (c, contact1), (d, uv0), (e, uv1), (r, radius)] = std::array::from_fn(|_| reader.given());
            let angle = reader.floats();
            let order = bounded(a);
            let outputs = called([3 * order + 3, order + 1, 1], |[axis_out, angle_out, cosine_out]| {
                ffi::vder_info(
                    a, &center, b, &contact0, c, &contact1, d, &uv0, e, &uv1, r, &radius, angle[0], axis_out, angle_out, cosine_out,
                )
            });
            answer(outputs.map(|[axis, angle, cosine]| vec![Whole(order as u64), Floats(axis), Whole(order as u64), Floats(angle), Floats(cosine)]))
        })
    }

    /// One of the three methods on the jets of `vder_info`.
    macro_rules! partial {
        ($call:path) => {
            Box::new(|items: &[Item]| {
                let mut reader = Reader::new(items);
                let [(a, center), (b, contact0), (c, contact1), (d, uv0), (e, uv1), (f, axis), (g, angle)] = std::array::from_fn(|_| reader.given());
                let place = reader.floats();
                listed(3, |out| {
                    $call(
                        a, &center, b, &contact0, c, &contact1, d, &uv0, e, &uv1, f, &axis, g, &angle, place[0], place[1], place[2], out,
                    )
                })
            }) as Work
        };
    }
    pub(super) use partial;

    pub fn sub_der_mn() -> Work {
        Box::new(|items| {
            let mut reader = Reader::new(items);
            let (m, n) = (reader.whole(), reader.whole());
            let [circle, feet, normals] = std::array::from_fn(|_| reader.floats());
            let [(e, edge), (r, radius), (s, surface0), (t, surface1)] = std::array::from_fn(|_| reader.given());
            let rest = reader.floats();
            listed(3, |out| {
                ffi::sub_der_mn(
                    m, n, &circle, &feet, &normals, e, &edge, r, &radius, s, &surface0, t, &surface1, rest[0], rest[1], rest[2], rest[3], out,
                )
            })
        })
    }
}

/// The library's answer to the cases of an operation.
pub fn ours(name: &str) -> Option<Work> {
    let (curves, surfaces) = (curve(1), surface(1));
    let (vector_curves, vector_surfaces) = (curve(3), surface(3));
    Some(match name {
        "part_lists" => part_lists(),
        "walk_next" => walk_next(),
        "multiplicity" => numbered(|reader| {
            let list = reader.wholes();
            count(|out| ffi::multiplicity(&list, out))
        }),
        "factorial" => numbered(|reader| {
            let n = reader.whole();
            count(|out| ffi::factorial(n, out))
        }),
        "stirling_number" => numbered(|reader| {
            let (order, len) = (reader.whole(), reader.whole());
            count(|out| ffi::stirling_number(order, len, out))
        }),
        "total_multiplicity" => numbered(|reader| {
            let (order, len) = (reader.whole(), reader.whole());
            count(|out| ffi::total_multiplicity(order, len, out))
        }),

        "curve_sum" => of_two(curves, ffi::curve_sum),
        "curve_difference" => of_two(curves, ffi::curve_difference),
        "curve_derivative" => of_one(curves, 1, ffi::curve_derivative),
        "curve_combinatorial_derivative" => entry(1, ffi::curve_combinatorial_derivative),
        "curve_combinatorial_derivatives" => of_two(curves, ffi::curve_combinatorial_derivatives),
        "curve_rational_derivatives" => of_two(curves, ffi::curve_rational_derivatives),

        "surface_sum" => of_two(surfaces, ffi::surface_sum),
        "surface_difference" => of_two(surfaces, ffi::surface_difference),
        "surface_derivative_u" => of_one(surfaces, 1, ffi::surface_derivative_u),
        "surface_derivative_v" => of_one(surfaces, 1, ffi::surface_derivative_v),
        "surface_combinatorial_derivative" => entry_uv(1, ffi::surface_combinatorial_derivative),
        "surface_combinatorial_derivatives" => of_two(surfaces, ffi::surface_combinatorial_derivatives),
        "surface_rational_derivatives" => of_two(surfaces, ffi::surface_rational_derivatives),
        "composite_derivative" => entry(1, ffi::composite_derivative),
        "composite_derivatives" => carry(1, ffi::composite_derivatives),

        "vector_curve_sum" => of_two(vector_curves, ffi::vector_curve_sum),
        "vector_curve_difference" => of_two(vector_curves, ffi::vector_curve_difference),
        "vector_curve_derivative" => of_one(vector_curves, 1, ffi::vector_curve_derivative),
        "vector_curve_rational_derivatives" => of_two(vector_curves, ffi::vector_curve_rational_derivatives),
        "curve_combinatorial_derivative_scaled" => entry(3, ffi::curve_combinatorial_derivative_scaled),
        "curve_combinatorial_derivative_dot" => entry(1, ffi::curve_combinatorial_derivative_dot),
        "curve_combinatorial_derivative_cross" => entry(3, ffi::curve_combinatorial_derivative_cross),
        "curve_combinatorial_derivatives_scaled" => of_two(vector_curves, ffi::curve_combinatorial_derivatives_scaled),
        "curve_combinatorial_derivatives_dot" => of_two(curves, ffi::curve_combinatorial_derivatives_dot),
        "curve_combinatorial_derivatives_cross" => of_two(vector_curves, ffi::curve_combinatorial_derivatives_cross),
        "curve_absolute_derivatives" => of_one(curves, 0, ffi::curve_absolute_derivatives),

        "vector_surface_sum" => of_two(vector_surfaces, ffi::vector_surface_sum),
        "vector_surface_difference" => of_two(vector_surfaces, ffi::vector_surface_difference),
        "vector_surface_derivative_u" => of_one(vector_surfaces, 1, ffi::vector_surface_derivative_u),
        "vector_surface_derivative_v" => of_one(vector_surfaces, 1, ffi::vector_surface_derivative_v),
        "vector_surface_rational_derivatives" => of_two(vector_surfaces, ffi::vector_surface_rational_derivatives),
        "surface_combinatorial_derivative_scaled" => entry_uv(3, ffi::surface_combinatorial_derivative_scaled),
        "surface_combinatorial_derivative_dot" => entry_uv(1, ffi::surface_combinatorial_derivative_dot),
        "surface_combinatorial_derivative_cross" => entry_uv(3, ffi::surface_combinatorial_derivative_cross),
        "surface_combinatorial_derivatives_scaled" => of_two(vector_surfaces, ffi::surface_combinatorial_derivatives_scaled),
        "surface_combinatorial_derivatives_dot" => of_two(surfaces, ffi::surface_combinatorial_derivatives_dot),
        "surface_combinatorial_derivatives_cross" => of_two(vector_surfaces, ffi::surface_combinatorial_derivatives_cross),
        "surface_absolute_derivatives" => of_one(surfaces, 0, ffi::surface_absolute_derivatives),
        "vector_composite_derivative" => entry(3, ffi::vector_composite_derivative),
        "vector_composite_derivatives" => carry(3, ffi::vector_composite_derivatives),

        "square_root" => Box::new(|items| {
            let x = Reader::new(items).floats();
            listed(1, |out| ffi::square_root(x[0], out))
        }),
        "vector_sum" => lists_of_two(3, ffi::vector_sum),
        "vector_difference" => lists_of_two(3, ffi::vector_difference),
        "vector_multiple" => list_and_float(ffi::vector_multiple),
        "vector_quotient" => list_and_float(ffi::vector_quotient),
        "vector_cross" => lists_of_two(3, ffi::vector_cross),
        "vector_dot" => lists_of_two(1, ffi::vector_dot),
        "vector_magnitude" => lists_of_one(1, ffi::vector_magnitude),
        "matrix2_determinant" => lists_of_one(1, ffi::matrix2_determinant),
        "matrix2_inverse" => lists_of_one(4, ffi::matrix2_inverse),
        "matrix2_image" => lists_of_two(2, ffi::matrix2_image),
        "matrix3_determinant" => lists_of_one(1, ffi::matrix3_determinant),
        "matrix3_inverse" => lists_of_one(9, ffi::matrix3_inverse),
        "matrix3_image" => lists_of_two(3, ffi::matrix3_image),

        "whole_sum" => whole(ffi::whole_sum),
        "whole_difference" => whole(ffi::whole_difference),
        "whole_product" => whole(ffi::whole_product),
        "whole_quotient" => whole(ffi::whole_quotient),
        "exact_curve_sum" => exact_of_two(curves, ffi::exact_curve_sum),
        "exact_curve_difference" => exact_of_two(curves, ffi::exact_curve_difference),
        "exact_curve_derivative" => exact_of_one(curves, ffi::exact_curve_derivative),
        "exact_curve_combinatorial_derivative" => exact_asked(false, ffi::exact_curve_combinatorial_derivative),
        "exact_curve_combinatorial_derivatives" => exact_of_two(curves, ffi::exact_curve_combinatorial_derivatives),
        "exact_curve_quotient" => exact_of_two(curves, ffi::exact_curve_quotient),
        "exact_surface_sum" => exact_of_two(surfaces, ffi::exact_surface_sum),
        "exact_surface_difference" => exact_of_two(surfaces, ffi::exact_surface_difference),
        "exact_surface_derivative_u" => exact_of_one(surfaces, ffi::exact_surface_derivative_u),
        "exact_surface_derivative_v" => exact_of_one(surfaces, ffi::exact_surface_derivative_v),
        "exact_surface_combinatorial_derivative" => exact_entry_uv(ffi::exact_surface_combinatorial_derivative),
        "exact_surface_combinatorial_derivatives" => exact_of_two(surfaces, ffi::exact_surface_combinatorial_derivatives),
        "exact_surface_quotient" => exact_of_two(surfaces, ffi::exact_surface_quotient),
        "exact_composite_derivative" => exact_asked(false, ffi::exact_composite_derivative),
        "exact_composite_derivatives" => exact_asked(true, ffi::exact_composite_derivatives),
        "recipe_curves" => recipe(curves, ffi::recipe_curves),
        "recipe_surfaces" => recipe(surfaces, ffi::recipe_surfaces),
        "roads" => roads(),

        "rot_der_n" => fillet::rot_der_n(),
        "from_axis_angle" => fillet::from_axis_angle(),
        "contact_circle_derivative_n" => fillet::contact_circle_derivative_n(),
        "sub_center_contacts_ders" => fillet::sub_center_contacts_ders(),
        "vder_info" | "vder_info_of_other_orders" => fillet::vder_info(),
        "derivative_v" | "derivative_v_of_other_orders" => fillet::partial!(ffi::derivative_v),
        "derivative_uv" | "derivative_uv_of_other_orders" => fillet::partial!(ffi::derivative_uv),
        "derivative_vv" | "derivative_vv_of_other_orders" => fillet::partial!(ffi::derivative_vv),
        "sub_der_mn" => fillet::sub_der_mn(),
        _ => return None,
    })
}
