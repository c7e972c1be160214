//! Inputs: a generator that gives the same numbers on every run, kinds of lists, and fillets with a known shape.

use crate::oracle::{surface_count, Given};

/// Splitmix64 (Steele, Lea and Flood).
pub struct Random {
    state: u64,
    far: bool,
}

impl Random {
    pub fn new(seed: u64) -> Self { Random { state: seed, far: false } }

    /// Gives orders up to 20 now and then: for long runs.
    pub fn far(seed: u64) -> Self { Random { state: seed, far: true } }

    pub fn bits(&mut self) -> u64 {
        self.state = self.state.wrapping_add(0x9E3779B97F4A7C15);
        let z = (self.state ^ (self.state >> 30)).wrapping_mul(0xBF58476D1CE4E5B9);
        let z = (z ^ (z >> 27)).wrapping_mul(0x94D049BB133111EB);
        z ^ (z >> 31)
    }

    /// A number below `n`.
    pub fn below(&mut self, n: usize) -> usize { ((self.bits() >> 32) as usize * n) >> 32 }

    pub fn pick<T: Copy>(&mut self, from: &[T]) -> T { from[self.below(from.len())] }

    /// Uniform in lo to hi.
    pub fn within(&mut self, lo: f64, hi: f64) -> f64 { lo + (hi - lo) * ((self.bits() >> 11) as f64 / (1u64 << 53) as f64) }

    /// Random sign and fraction, biased exponent `lo` to `hi`.
    fn by_exponent(&mut self, lo: usize, hi: usize) -> f64 {
        let exponent = (lo + self.below(hi - lo + 1)) as u64;
        f64::from_bits((self.bits() & 0x800F_FFFF_FFFF_FFFF) | exponent << 52)
    }

    fn sign(&mut self) -> f64 { self.pick(&[1.0, -1.0]) }

    /// A float of everyday size.
    pub fn float(&mut self) -> f64 { self.of(Flavour::Everyday) }

    pub fn floats(&mut self, count: usize) -> Vec<f64> { self.list(Flavour::Everyday, count) }

    pub fn of(&mut self, flavour: Flavour) -> f64 {
        match flavour {
            Flavour::Unit => self.within(-1.0, 1.0),
            Flavour::Whole => self.below(19) as f64 - 9.0,
            Flavour::Zeros => self.pick(&[0.0, -0.0, 0.0, -0.0, 1.0, -1.0, 2.0]),
            Flavour::Subnormal => f64::from_bits(self.bits() & 0x800F_FFFF_FFFF_FFFF),
            Flavour::Tiny => self.by_exponent(0, 60),
            Flavour::Huge => self.by_exponent(1980, 2046),
            Flavour::Edge => {
                let size = self.pick(&[f64::MAX, f64::MIN_POSITIVE, f64::from_bits(1), 1.0e308, 1.0e154, 1.0e-154, 1.0e-162, 1.0, 0.0, 2.0f64.powi(511)]);
                size * self.sign()
            }
            Flavour::Everyday => self.by_exponent(1003, 1043),
            Flavour::Wide => self.by_exponent(0, 2046),
            Flavour::Cancelling => unreachable!("a list"),
        }
    }

    pub fn list(&mut self, flavour: Flavour, count: usize) -> Vec<f64> {
        match flavour {
            Flavour::Cancelling => {
                let (x, y) = (self.float(), self.within(-1.0, 1.0));
                (0..count).map(|_| self.pick(&[x, -x, y, -y, x + y, -(x + y), 0.0, 1.0, -1.0])).collect()
            }
            _ => (0..count).map(|_| self.of(flavour)).collect(),
        }
    }

    pub fn flavour(&mut self) -> Flavour { self.pick(&FLAVOURS) }

    fn goes_far(&mut self) -> bool { self.far && self.below(32) == 0 }

    /// The n of a fillet: below 4; at most 19.
    pub fn fillet_order(&mut self) -> usize {
        let bound = if self.goes_far() { 20 } else { 4 };
        self.below(bound)
    }

    /// An order: mostly small, now and then up to 8; at most 20.
    pub fn order(&mut self) -> usize {
        if self.goes_far() {
            return 9 + self.below(12);
        }
        match self.below(10) {
            0..=6 => self.below(5),
            7 | 8 => 2 + self.below(4),
            _ => 5 + self.below(4),
        }
    }

    /// A float that is not finite.
    pub fn not_finite(&mut self) -> f64 {
        self.pick(&[f64::NAN, f64::INFINITY, f64::NEG_INFINITY, -f64::NAN, f64::from_bits(0x7FF0_0000_0000_0001), f64::from_bits(0xFFF8_0000_0000_1234)])
    }

    /// Sine and cosine, on the circle up to rounding.
    pub fn pair(&mut self) -> (f64, f64) {
        match self.below(8) {
            0 => self.pick(&[(0.0, 1.0), (1.0, 0.0), (-0.0, -1.0), (-1.0, 0.0), (0.0, -1.0), (1.0, -0.0), (-0.0, 1.0)]),
            _ => {
                let q = self.within(-3.0, 3.0);
                (2.0 * q / (1.0 + q * q), (1.0 - q * q) / (1.0 + q * q))
            }
        }
    }

    /// An axis of length one up to rounding.
    pub fn axis(&mut self) -> Vec<f64> {
        let ((s, c), (t, d)) = (self.pair(), self.pair());
        vec![t * c, t * s, d]
    }
}

/// Kinds of lists.
#[derive(Clone, Copy, Debug, PartialEq)]
pub enum Flavour {
    /// uniform in -1 to 1
    Unit,
    /// -9 to 9
    Whole,
    /// zeros of both signs, and ones
    Zeros,
    /// below the least normal number
    Subnormal,
    /// near the least normal number
    Tiny,
    /// near overflow
    Huge,
    /// limits and their roots
    Edge,
    /// 2^-20 to 2^20
    Everyday,
    /// any exponent
    Wide,
    /// a few numbers and their opposites
    Cancelling,
}

pub const FLAVOURS: [Flavour; 12] = [
    Flavour::Unit,
    Flavour::Whole,
    Flavour::Whole,
    Flavour::Zeros,
    Flavour::Subnormal,
    Flavour::Tiny,
    Flavour::Huge,
    Flavour::Edge,
    Flavour::Everyday,
    Flavour::Everyday,
    Flavour::Wide,
    Flavour::Cancelling,
];

/// A surface's list from a function of i, j and the component.
pub fn surface_by(order: usize, width: usize, entry: impl Fn(usize, usize, usize) -> f64) -> Vec<f64> {
    let mut list = Vec::with_capacity(surface_count(order) * width);
    for i in 0..=order {
        for j in 0..=order - i {
            list.extend((0..width).map(|k| entry(i, j, k)));
        }
    }
    list
}

fn difference(a: &[f64], b: &[f64]) -> [f64; 3] { [a[0] - b[0], a[1] - b[1], a[2] - b[2]] }

fn dot(a: &[f64], b: &[f64]) -> f64 { a[0] * b[0] + a[1] * b[1] + a[2] * b[2] }

/// Centre, axis, angle and contact points; the axis and the angle from the points.
fn circle(center: [f64; 3], p0: [f64; 3], p1: [f64; 3]) -> Vec<f64> {
    let (a, b) = (difference(&p0, &center), difference(&p1, &center));
    let cross = [a[1] * b[2] - a[2] * b[1], a[2] * b[0] - a[0] * b[2], a[0] * b[1] - a[1] * b[0]];
    let length = dot(&cross, &cross).sqrt();
    let angle = (dot(&a, &b) / (dot(&a, &a) * dot(&b, &b)).sqrt()).min(1.0).acos();
    let axis = cross.map(|x| x / length);
    [&center[..], &axis, &[angle], &p0, &p1].concat()
}

/// The angle whose cosine the source works out, by the platform's arc cosine.
pub fn arc_angle(given: &Given) -> f64 {
    let (a, b) = (difference(&given.circle[7..10], &given.circle[..3]), difference(&given.circle[10..13], &given.circle[..3]));
    (dot(&a, &b) / (given.radius[0] * given.radius[0])).min(1.0).acos()
}

/// Derivative `n` of the sine and cosine of `t`.
fn sine(n: usize, t: f64) -> f64 {
    match n % 4 {
        0 => t.sin(),
        1 => t.cos(),
        2 => -t.sin(),
        _ => -t.cos(),
    }
}
fn cosine(n: usize, t: f64) -> f64 { sine(n + 1, t) }

/// A ball of radius 1 + 0.2 cos t rolling on the outer side of two spheres of radius 2 about (0, 0, 1) and (0, 0, -1): the source's own test.
pub fn two_spheres(t: f64, order: usize) -> Given {
    let radius: Vec<f64> = (0..=order).map(|n| (if n == 0 { 1.0 } else { 0.0 }) + 0.2 * cosine(n, t)).collect();
    let edge = (0..=order).flat_map(|n| [3.0f64.sqrt() * cosine(n, t), 3.0f64.sqrt() * sine(n, t), 0.0]).collect();
    // The centre is at distance 2 + r from both spheres' centres, in the plane z = 0.
    let far = 2.0 + radius[0];
    let rho = (far * far - 1.0).sqrt();
    let center = [rho * t.cos(), rho * t.sin(), 0.0];
    let side = |z: f64| {
        let (u, v) = ((-z / far).acos(), t);
        let normal = [u.sin() * v.cos(), u.sin() * v.sin(), u.cos()];
        let point = [2.0 * normal[0], 2.0 * normal[1], 2.0 * normal[2] + z];
        let jet = surface_by(order, 3, |i, j, k| {
            let direction = match k {
                0 => sine(i, u) * cosine(j, v),
                1 => sine(i, u) * sine(j, v),
                _ if j == 0 => cosine(i, u),
                _ => 0.0,
            };
            2.0 * direction + if (i, j, k) == (0, 0, 2) { z } else { 0.0 }
        });
        (u, v, normal, point, jet)
    };
    let (u0, v0, n0, p0, surface0) = side(1.0);
    let (u1, v1, n1, p1, surface1) = side(-1.0);
    Given { circle: circle(center, p0, p1), feet: vec![u0, v0, u1, v1], normals: [n0, n1].concat(), edge, radius, surface0, surface1 }
}

/// A straight edge along x between the planes z = 0 and y = 0, with the given jet of the radius; nothing here is rounded for small whole numbers.
/// Inward: the determinant of tangent and normals is 1 and the centre lies on the side away from the normals; else it is -1.
pub fn two_planes(t: f64, radius: &[f64], inward: bool) -> Given {
    let order = radius.len() - 1;
    let (x, y, z) = ([1.0, 0.0, 0.0], [0.0, 1.0, 0.0], [0.0, 0.0, 1.0]);
    let plane = |u: [f64; 3], v: [f64; 3], p: [f64; 3]| {
        surface_by(order, 3, |i, j, k| match (i, j) {
            (0, 0) => p[k],
            (1, 0) => u[k],
            (0, 1) => v[k],
            _ => 0.0,
        })
    };
    let r = if inward { -radius[0] } else { radius[0] };
    // The feet on z = 0, by x and y, and on y = 0, by z and x; the normals are z and y.
    let (on_z, on_y) = ([t, r, 0.0], [t, 0.0, r]);
    let mut sides = [(on_z, [t, r], z, plane(x, y, on_z)), (on_y, [r, t], y, plane(z, x, on_y))];
    if inward {
        sides.reverse();
    }
    let [(p0, uv0, n0, surface0), (p1, uv1, n1, surface1)] = sides;
    let line = |n: usize| if n == 0 { t } else if n == 1 { 1.0 } else { 0.0 };
    Given {
        circle: circle([t, r, r], p0, p1),
        feet: [uv0, uv1].concat(),
        normals: [n0, n1].concat(),
        edge: (0..=order).flat_map(|n| [line(n), 0.0, 0.0]).collect(),
        radius: radius.to_vec(),
        surface0,
        surface1,
    }
}

/// Jets of one order and one flavour, with unit normals: no fillet, but everything is defined.
pub fn any_fillet(random: &mut Random, flavour: Flavour, order: usize) -> Given {
    let mut radius = random.list(flavour, order + 1);
    radius[0] = radius[0].abs();
    Given {
        circle: [random.list(flavour, 3), random.axis(), vec![random.within(0.0, 3.0)], random.list(flavour, 6)].concat(),
        feet: random.floats(4),
        normals: [random.axis(), random.axis()].concat(),
        edge: random.list(flavour, (order + 1) * 3),
        radius,
        surface0: random.list(flavour, surface_count(order) * 3),
        surface1: random.list(flavour, surface_count(order) * 3),
    }
}
