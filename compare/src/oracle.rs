//! The source's functions on lists of floats.
//!
//! Lists: a curve by order; a surface by i, then j ([0][0], [0][1], .., [0][N], [1][0], ..); a vector as three floats; a parameter curve as u and
//! v side by side; a matrix column by column. The order of a jet follows from its list's length. `None` stands for a panic of the source.
//! Entries that are not finite come back as they are. `refused` tells which of document 01's refusals 6 and 7 the last call met first.

use crate::derivatives::{self, CurveDerivatives, SurfaceDerivatives};
use crate::standins::cgmath::Zero;
use crate::standins::cgmath64::{EuclideanSpace, InnerSpace, Matrix3, Point2, Point3, Rad, Vector1, Vector2, Vector3};
use crate::standins::decorators::rolling_ball_fillet::{open, ContactCircle};
use crate::standins::{events, pair};
use std::cell::Cell;
use std::panic;
use std::sync::Once;

// Calls into the source.

thread_local! {
    static INSIDE: Cell<bool> = const { Cell::new(false) };
}

/// What the source gives, or `None` if it panics. Its message is not printed.
fn attempt<T>(work: impl FnOnce() -> T) -> Option<T> {
    static HOOK: Once = Once::new();
    HOOK.call_once(|| {
        let before = panic::take_hook();
        panic::set_hook(Box::new(move |info| {
            if !INSIDE.with(|i| i.get()) {
                before(info)
            }
        }));
    });
    events::clear();
    let outer = INSIDE.with(|i| i.replace(true));
    let result = panic::catch_unwind(panic::AssertUnwindSafe(work)).ok();
    INSIDE.with(|i| i.set(outer));
    result
}

/// 6 if the last call met a zero determinant, 7 if it divided a vector by zero, whichever came first; else 0. A quotient of plain floats is not
/// seen here: where the source has one, the caller looks at the divisor.
pub fn refused() -> u8 { events::first() }

// Lists.

/// What a jet holds.
trait Entry: Copy + Zero {
    const WIDTH: usize;
    fn read(list: &[f64]) -> Self;
    fn write(self, list: &mut Vec<f64>);
}

macro_rules! entry {
    ($name:ident, $width:expr, $($index:tt),*) => {
        impl Entry for $name {
            const WIDTH: usize = $width;
            fn read(list: &[f64]) -> Self { Self::new($(list[$index]),*) }
            fn write(self, list: &mut Vec<f64>) { list.extend([$(self[$index]),*]) }
        }
    };
}
entry!(Vector1, 1, 0);
entry!(Vector2, 2, 0, 1);
entry!(Vector3, 3, 0, 1, 2);

impl Entry for f64 {
    const WIDTH: usize = 1;
    fn read(list: &[f64]) -> Self { list[0] }
    fn write(self, list: &mut Vec<f64>) { list.push(self) }
}

fn entries<V: Entry>(list: &[f64]) -> Vec<V> {
    assert_eq!(list.len() % V::WIDTH, 0, "a list has whole entries");
    list.chunks_exact(V::WIDTH).map(V::read).collect()
}

fn list_of<V: Entry>(entries: impl IntoIterator<Item = V>) -> Vec<f64> {
    let mut list = Vec::new();
    entries.into_iter().for_each(|e| e.write(&mut list));
    list
}

fn curve<V: Entry>(list: &[f64]) -> CurveDerivatives<V> { CurveDerivatives::try_from(&entries::<V>(list)[..]).unwrap() }

fn curve_list<V: Entry>(jet: &CurveDerivatives<V>) -> Vec<f64> { list_of(jet.iter().copied()) }

/// The order of a surface with that many entries.
pub fn surface_order(count: usize) -> Option<usize> { (0..=31).find(|n| surface_count(*n) == count) }

/// The number of entries of a surface.
pub fn surface_count(order: usize) -> usize { (order + 1) * (order + 2) / 2 }

fn surface<V: Entry>(list: &[f64]) -> SurfaceDerivatives<V> {
    let all = entries::<V>(list);
    let order = surface_order(all.len()).expect("a surface's list has (N + 1)(N + 2)/2 entries");
    let mut rest = &all[..];
    let rows: Vec<&[V]> = (0..=order)
        .map(|i| {
            let (row, after) = rest.split_at(order + 1 - i);
            rest = after;
            row
        })
        .collect();
    SurfaceDerivatives::try_from(&rows[..]).unwrap()
}

fn surface_list<V: Entry>(jet: &SurfaceDerivatives<V>) -> Vec<f64> { list_of(jet.slice_iter().flatten().copied()) }

fn vector(list: &[f64]) -> Vector3 { Vector3::read(list) }

fn matrix_list(m: Matrix3) -> Vec<f64> { list_of([m.x, m.y, m.z]) }

/// A curve's list up to an order; `width` floats an entry.
pub fn cut_curve(list: &[f64], width: usize, order: usize) -> Vec<f64> { list[..(order + 1) * width].to_vec() }

/// A surface's list up to an order.
pub fn cut_surface(list: &[f64], width: usize, order: usize) -> Vec<f64> {
    let full = surface_order(list.len() / width).unwrap();
    let mut cut = Vec::new();
    let mut start = 0;
    for i in 0..=order {
        cut.extend_from_slice(&list[start..start + (order + 1 - i) * width]);
        start += (full + 1 - i) * width;
    }
    cut
}

// Lists of parts.

/// Every list of the source's walk. `None` where the source makes no walk or panics.
pub fn part_lists(order: usize, len: usize) -> Option<Vec<Vec<usize>>> { attempt(|| derivatives::open::walk(order, len).map(|w| w.collect())).flatten() }

/// The step to the next list: whether there is one, and the list that the step leaves.
pub fn next_list(list: &[usize]) -> Option<(bool, Vec<usize>)> { attempt(|| derivatives::open::next(list)) }

pub fn multiplicity(list: &[usize]) -> Option<u128> { attempt(|| derivatives::open::multiplicity(list)) }

// Jets.

/// What the jets of an operation hold.
#[derive(Clone, Copy, Debug, PartialEq)]
pub enum Kind {
    Floats,
    Vectors,
}

impl Kind {
    pub fn width(self) -> usize {
        match self {
            Kind::Floats => 1,
            Kind::Vectors => 3,
        }
    }
}

/// The products that the source takes of two jets.
#[derive(Clone, Copy, Debug, PartialEq)]
pub enum Product {
    /// float times float
    Floats,
    /// vector times float
    Scaled,
    /// vector . vector
    Dot,
    /// vector x vector
    Cross,
}

impl Product {
    pub fn widths(self) -> (usize, usize, usize) {
        match self {
            Product::Floats => (1, 1, 1),
            Product::Scaled => (3, 1, 3),
            Product::Dot => (3, 3, 1),
            Product::Cross => (3, 3, 3),
        }
    }
}

/// Works `$body` with the operation and the two kinds of entry of a product.
macro_rules! by_product {
    ($product:expr, |$f:ident, $V:ident, $W:ident| $body:expr) => {
        match $product {
            Product::Floats => {
                type $V = f64;
                type $W = f64;
                let $f = |x: f64, y: f64| x * y;
                $body
            }
            Product::Scaled => {
                type $V = Vector3;
                type $W = f64;
                let $f = |x: Vector3, y: f64| x * y;
                $body
            }
            Product::Dot => {
                type $V = Vector3;
                type $W = Vector3;
                let $f = Vector3::dot;
                $body
            }
            Product::Cross => {
                type $V = Vector3;
                type $W = Vector3;
                let $f = Vector3::cross;
                $body
            }
        }
    };
}

macro_rules! by_kind {
    ($kind:expr, |$V:ident| $body:expr) => {
        match $kind {
            Kind::Floats => {
                type $V = f64;
                $body
            }
            Kind::Vectors => {
                type $V = Vector3;
                $body
            }
        }
    };
}

/// `element_wise_derivatives` with +.
pub fn curve_sum(kind: Kind, a: &[f64], b: &[f64]) -> Option<Vec<f64>> {
    attempt(|| by_kind!(kind, |V| curve_list::<V>(&curve::<V>(a).element_wise_derivatives(&curve::<V>(b), |x, y| x + y))))
}

/// `element_wise_derivatives` with -.
pub fn curve_difference(kind: Kind, a: &[f64], b: &[f64]) -> Option<Vec<f64>> {
    attempt(|| by_kind!(kind, |V| curve_list::<V>(&curve::<V>(a).element_wise_derivatives(&curve::<V>(b), |x, y| x - y))))
}

pub fn surface_sum(kind: Kind, a: &[f64], b: &[f64]) -> Option<Vec<f64>> {
    attempt(|| by_kind!(kind, |V| surface_list::<V>(&surface::<V>(a).element_wise_derivatives(&surface::<V>(b), |x, y| x + y))))
}

pub fn surface_difference(kind: Kind, a: &[f64], b: &[f64]) -> Option<Vec<f64>> {
    attempt(|| by_kind!(kind, |V| surface_list::<V>(&surface::<V>(a).element_wise_derivatives(&surface::<V>(b), |x, y| x - y))))
}

pub fn curve_derivative(kind: Kind, a: &[f64]) -> Option<Vec<f64>> { attempt(|| by_kind!(kind, |V| curve_list(&curve::<V>(a).derivative()))) }

pub fn surface_derivative_u(kind: Kind, a: &[f64]) -> Option<Vec<f64>> {
    attempt(|| by_kind!(kind, |V| surface_list(&surface::<V>(a).derivative_u())))
}

pub fn surface_derivative_v(kind: Kind, a: &[f64]) -> Option<Vec<f64>> {
    attempt(|| by_kind!(kind, |V| surface_list(&surface::<V>(a).derivative_v())))
}

/// One entry of a product.
pub fn curve_combinatorial_derivative(product: Product, a: &[f64], b: &[f64], order: usize) -> Option<Vec<f64>> {
    attempt(|| by_product!(product, |f, V, W| list_of([curve::<V>(a).combinatorial_derivative(&curve::<W>(b), f, order)])))
}

/// A whole product.
pub fn curve_combinatorial_derivatives(product: Product, a: &[f64], b: &[f64]) -> Option<Vec<f64>> {
    attempt(|| by_product!(product, |f, V, W| curve_list(&curve::<V>(a).combinatorial_derivatives(&curve::<W>(b), f))))
}

pub fn surface_combinatorial_derivative(product: Product, a: &[f64], b: &[f64], u_order: usize, v_order: usize) -> Option<Vec<f64>> {
    attempt(|| by_product!(product, |f, V, W| list_of([surface::<V>(a).combinatorial_derivative(&surface::<W>(b), f, u_order, v_order)])))
}

pub fn surface_combinatorial_derivatives(product: Product, a: &[f64], b: &[f64]) -> Option<Vec<f64>> {
    attempt(|| by_product!(product, |f, V, W| surface_list(&surface::<V>(a).combinatorial_derivatives(&surface::<W>(b), f))))
}

/// Numerator over denominator, as homogeneous vectors.
pub fn curve_rational_derivatives(kind: Kind, a: &[f64], w: &[f64]) -> Option<Vec<f64>> {
    attempt(|| {
        let w = curve::<f64>(w);
        match kind {
            Kind::Floats => curve_list(&curve::<Vector1>(a).element_wise_derivatives(&w, Vector1::extend).rational_derivatives()),
            Kind::Vectors => curve_list(&curve::<Vector3>(a).element_wise_derivatives(&w, Vector3::extend).rational_derivatives()),
        }
    })
}

pub fn surface_rational_derivatives(kind: Kind, a: &[f64], w: &[f64]) -> Option<Vec<f64>> {
    attempt(|| {
        let w = surface::<f64>(w);
        match kind {
            Kind::Floats => surface_list(&surface::<Vector1>(a).element_wise_derivatives(&w, Vector1::extend).rational_derivatives()),
            Kind::Vectors => surface_list(&surface::<Vector3>(a).element_wise_derivatives(&w, Vector3::extend).rational_derivatives()),
        }
    })
}

/// The norm of a jet of vectors.
pub fn curve_absolute_derivatives(a: &[f64]) -> Option<Vec<f64>> { attempt(|| curve_list(&curve::<Vector3>(a).absolute_derivatives())) }

pub fn surface_absolute_derivatives(a: &[f64]) -> Option<Vec<f64>> { attempt(|| surface_list(&surface::<Vector3>(a).absolute_derivatives())) }

/// One entry of a surface carried along a parameter curve; zero at order 0.
pub fn composite_derivative(kind: Kind, a: &[f64], uv: &[f64], order: usize) -> Option<Vec<f64>> {
    attempt(|| match kind {
        Kind::Floats => list_of([surface::<Vector1>(a).composite_derivative(&curve(uv), order)]),
        Kind::Vectors => list_of([surface::<Vector3>(a).composite_derivative(&curve(uv), order)]),
    })
}

/// A surface carried along a parameter curve, at the smaller order.
pub fn composite_derivatives(kind: Kind, a: &[f64], uv: &[f64]) -> Option<Vec<f64>> {
    attempt(|| match kind {
        Kind::Floats => curve_list(&surface::<Vector1>(a).composite_derivatives(&curve(uv))),
        Kind::Vectors => curve_list(&surface::<Vector3>(a).composite_derivatives(&curve(uv))),
    })
}

/// The carry of a surface of vectors on jets that are there already, and nothing else: for measuring.
pub fn timed_carry(a: &[f64], uv: &[f64]) -> impl Fn() {
    let (a, uv) = (surface::<Vector3>(a), curve::<Vector2>(uv));
    move || {
        std::hint::black_box(std::hint::black_box(&a).composite_derivatives(std::hint::black_box(&uv)));
    }
}

// Rotations.

/// The matrix's columns; `s` and `c` are sine and cosine of the angle.
pub fn rot_der_n(orders: [usize; 4], axis: &[f64], s: f64, c: f64) -> Option<Vec<f64>> {
    attempt(|| {
        pair::give(s, c);
        matrix_list(open::rot_der_n(orders, vector(axis)))
    })
}

pub fn from_axis_angle(axis: &[f64], s: f64, c: f64) -> Option<Vec<f64>> {
    attempt(|| {
        pair::give(s, c);
        matrix_list(Matrix3::from_axis_angle(vector(axis), Rad(0.0)))
    })
}

// The fillet.

/// All that a fillet's derivatives are worked out from.
#[derive(Clone, Debug, PartialEq)]
pub struct Given {
    /// centre, axis, angle, contact point 0, contact point 1: 13 floats
    pub circle: Vec<f64>,
    /// u and v on surface 0, u and v on surface 1
    pub feet: Vec<f64>,
    /// unit normals of surface 0 and surface 1
    pub normals: Vec<f64>,
    /// jet of vectors
    pub edge: Vec<f64>,
    /// jet of floats
    pub radius: Vec<f64>,
    /// jets of vectors
    pub surface0: Vec<f64>,
    pub surface1: Vec<f64>,
}

/// The five jets of `CenterContactDers`. The centre has order n, the others n + 1 with zero last.
#[derive(Clone, Debug, PartialEq)]
pub struct Contacts {
    pub center: Vec<f64>,
    pub contact0: Vec<f64>,
    pub contact1: Vec<f64>,
    pub uv0: Vec<f64>,
    pub uv1: Vec<f64>,
}

/// Jets of the axis and the angle, and the clamped cosine of the angle's entry 0.
#[derive(Clone, Debug, PartialEq)]
pub struct AxisAngle {
    pub axis: Vec<f64>,
    pub angle: Vec<f64>,
    pub cosine: f64,
}

/// What the source keeps along the edge for one surface (`SurfaceInfo`): jets of order n + 1.
#[derive(Clone, Debug, PartialEq)]
pub struct Along {
    pub tders: Vec<f64>,
    pub uderders: Vec<f64>,
    pub vderders: Vec<f64>,
    pub crossders: Vec<f64>,
    pub abs_crossders: Vec<f64>,
    pub nders: Vec<f64>,
    pub uvders: Vec<f64>,
}

fn point(list: &[f64]) -> Point3 { Point3::from_vec(vector(list)) }

fn circle(circle: &[f64], feet: &[f64]) -> ContactCircle {
    assert_eq!((circle.len(), feet.len()), (13, 4));
    let uv = |k: usize| Point2::new(feet[k], feet[k + 1]);
    open::circle(point(&circle[0..3]), vector(&circle[3..6]), circle[6], (point(&circle[7..10]), uv(0)), (point(&circle[10..13]), uv(2)))
}

fn fillet(given: &Given) -> (open::Fillet, ContactCircle) {
    let side = |list: &[f64], normal: &[f64]| open::SurfaceJet { ders: surface(list), normal: vector(normal) };
    let fillet = open::Fillet::new(
        open::EdgeJet(curve(&given.edge)),
        side(&given.surface0, &given.normals[0..3]),
        side(&given.surface1, &given.normals[3..6]),
        open::RadiusJet(curve(&given.radius)),
    );
    (fillet, circle(&given.circle, &given.feet))
}

fn contacts_lists(c: &open::CenterContacts) -> Contacts {
    Contacts {
        center: curve_list(&c.center_ders),
        contact0: curve_list(&c.contact0_ders),
        contact1: curve_list(&c.contact1_ders),
        uv0: curve_list(&c.uv0_ders),
        uv1: curve_list(&c.uv1_ders),
    }
}

fn contacts_jets(c: &Contacts) -> open::CenterContacts {
    open::CenterContacts {
        center_ders: curve(&c.center),
        contact0_ders: curve(&c.contact0),
        contact1_ders: curve(&c.contact1),
        uv0_ders: curve(&c.uv0),
        uv1_ders: curve(&c.uv1),
    }
}

fn axis_angle_lists(a: &open::AxisAngle) -> AxisAngle {
    AxisAngle { axis: curve_list(&a.axis_ders), angle: curve_list(&a.angle_ders), cosine: a.cosine }
}

/// Jets of the centre to order n, of contacts and parameters to order n + 1. Longer jets are cut.
pub fn sub_center_contacts_ders(given: &Given, n: usize) -> Option<Contacts> {
    attempt(|| {
        let (fillet, circle) = fillet(given);
        contacts_lists(&open::sub_center_contacts_ders(&fillet, circle, n))
    })
}

/// The same with a radius of order n, as the source's contact curve has it.
pub fn contact_curve_ders(given: &Given, n: usize) -> Option<Contacts> {
    attempt(|| {
        let (fillet, circle) = fillet(given);
        contacts_lists(&open::contact_curve_ders(&fillet, circle, n))
    })
}

/// What the source keeps for both surfaces after `m` steps of `der_routine` at order n, and the centre's jet then.
pub fn surface_infos(given: &Given, n: usize, m: usize) -> Option<([Along; 2], Vec<f64>)> {
    attempt(|| {
        let (fillet, circle) = fillet(given);
        let (a, b, center) = open::surface_infos(&fillet, circle, n, m);
        let lists = |a: open::Along| Along {
            tders: curve_list(&a.tders),
            uderders: curve_list(&a.uderders),
            vderders: curve_list(&a.vderders),
            crossders: curve_list(&a.crossders),
            abs_crossders: curve_list(&a.abs_crossders),
            nders: curve_list(&a.nders),
            uvders: curve_list(&a.uvders),
        };
        ([lists(a), lists(b)], curve_list(&center))
    })
}

/// Axis and angle from five jets and a radius of order n + 1; `angle` is the angle's entry 0.
pub fn vder_info(contacts: &Contacts, radius: &[f64], angle: f64) -> Option<AxisAngle> {
    attempt(|| {
        pair::give_arc(angle);
        axis_angle_lists(&open::vder_info(contacts_jets(contacts), &curve(radius)))
    })
}

/// The two before in one: what the source's method `vder_info` of the fillet does.
pub fn fillet_vder_info(given: &Given, n: usize, angle: f64) -> Option<(Contacts, AxisAngle)> {
    attempt(|| {
        pair::give_arc(angle);
        let (fillet, circle) = fillet(given);
        let contacts = open::sub_center_contacts_ders(&fillet, circle, n);
        let radius = curve::<f64>(&cut_curve(&given.radius, 1, n + 1));
        (contacts_lists(&contacts), axis_angle_lists(&open::vder_info(contacts, &radius)))
    })
}

fn partial(pair_of_orders: (usize, usize), contacts: &Contacts, a: &AxisAngle, u: f64, s: f64, c: f64) -> Option<Vec<f64>> {
    attempt(|| {
        pair::give(s, c);
        list_of([open::partial(contacts_jets(contacts), curve(&a.axis), curve(&a.angle), pair_of_orders, u)])
    })
}

/// The partial by v, from the jets of `VderInfo`. `s` and `c` are sine and cosine of (angle entry 0) * u.
pub fn derivative_v(contacts: &Contacts, a: &AxisAngle, u: f64, s: f64, c: f64) -> Option<Vec<f64>> { partial((0, 1), contacts, a, u, s, c) }

pub fn derivative_uv(contacts: &Contacts, a: &AxisAngle, u: f64, s: f64, c: f64) -> Option<Vec<f64>> { partial((1, 1), contacts, a, u, s, c) }

pub fn derivative_vv(contacts: &Contacts, a: &AxisAngle, u: f64, s: f64, c: f64) -> Option<Vec<f64>> { partial((0, 2), contacts, a, u, s, c) }

/// The partial (m, n) of the fillet. `angle` is the angle's entry 0; (m, 0) takes the circle's own.
pub fn sub_der_mn(given: &Given, m: usize, n: usize, angle: f64, u: f64, s: f64, c: f64) -> Option<Vec<f64>> {
    attempt(|| {
        pair::give(s, c);
        pair::give_arc(angle);
        let (fillet, circle) = fillet(given);
        list_of([open::sub_der_mn(&fillet, m, n, u, circle)])
    })
}

/// `derivative_n` of the contact circle: 13 floats as in `Given`. `s` and `c` are sine and cosine of angle * t.
pub fn contact_circle_derivative_n(circle_list: &[f64], n: usize, s: f64, c: f64) -> Option<Vec<f64>> {
    attempt(|| {
        pair::give(s, c);
        list_of([open::circle_derivative_n(circle(circle_list, &[0.0; 4]), n)])
    })
}
