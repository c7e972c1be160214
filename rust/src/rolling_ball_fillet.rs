//! The fillet that a rolling ball leaves between two surfaces. Sines and cosines, and the angle at the place in question, come from the caller.
//!
//! A ball in the corner of the planes z = 0 and y = 0, at a place of the edge along x where its radius is 1 and grows as fast as x:
//!
//! ```
//! use std::f64::consts::FRAC_PI_2;
//! use sugamdely::derivatives::{CurveDerivatives, SurfaceDerivatives};
//! use sugamdely::rolling_ball_fillet::{ContactCircle, ContactPoint, RollingBallFilletSurface};
//! use sugamdely::Refusal;
//!
//! let (x, y, z, none) = ([1.0, 0.0, 0.0], [0.0, 1.0, 0.0], [0.0, 0.0, 1.0], [0.0; 3]);
//! let fillet = RollingBallFilletSurface {
//!     edge_curve: CurveDerivatives::new(&[none, x, none])?,
//!     surface0: SurfaceDerivatives::new(2, &[y, y, none, x, none, none])?,
//!     surface1: SurfaceDerivatives::new(2, &[z, x, none, z, none, none])?,
//!     radius: CurveDerivatives::new(&[1.0, 1.0, 0.0])?,
//!     normal0: z,
//!     normal1: y,
//! };
//! let circle = ContactCircle {
//!     center: [0.0, 1.0, 1.0],
//!     axis: [-1.0, 0.0, 0.0],
//!     angle: FRAC_PI_2,
//!     contact_point0: ContactPoint { point: y, uv: [0.0, 1.0] },
//!     contact_point1: ContactPoint { point: z, uv: [1.0, 0.0] },
//! };
//!
//! let ders = fillet.sub_center_contacts_ders(&circle, 1)?;
//! assert_eq!(ders.center_ders.entries(), [[0.0, 1.0, 1.0], [1.0, 1.0, 1.0]]);
//! assert_eq!(ders.contact0_ders.entries(), [[0.0, 1.0, 0.0], [1.0, 1.0, 0.0], none]);
//!
//! let (info, cosine) = ders.vder_info(&fillet.radius, FRAC_PI_2)?;
//! assert_eq!(cosine, 0.0);
//! assert_eq!(info.angle_ders.entries(), [FRAC_PI_2, 0.0]);
//! // At the beginning of the arc the fillet moves with its contact point 0.
//! assert_eq!(info.derivative_v(0.0, 0.0, 1.0)?, [1.0, 1.0, 0.0]);
//! assert_eq!(fillet.sub_der_mn(0, 1, 0.0, &circle, FRAC_PI_2, 0.0, 1.0)?, [1.0, 1.0, 0.0]);
//! assert_eq!(fillet.sub_der_mn(2, 1, 0.0, &circle, FRAC_PI_2, 0.0, 1.0), Err(Refusal::PairNotServed));
//! # Ok::<(), Refusal>(())
//! ```

use crate::derivatives::{CurveDerivatives, Jet, ParameterCurve, SurfaceDerivatives};
use crate::refusal::answered;
use crate::vectors::{matrix3, vector, Matrix3, Vector3};
use crate::{ffi, Refusal};

/// Rodrigues' rotation, derived `orders[0]`, `[1]`, `[2]` times by the components of the axis and `orders[3]` times by the angle, whose sine and
/// cosine are `s` and `c`.
///
/// ```
/// use sugamdely::rolling_ball_fillet::rot_der_n;
///
/// let columns = rot_der_n([0; 4], [0.0, 0.0, 1.0], 1.0, 0.0)?;
/// assert_eq!(columns, [[0.0, 1.0, 0.0], [-1.0, 0.0, 0.0], [0.0, 0.0, 1.0]]);
/// # Ok::<(), sugamdely::Refusal>(())
/// ```
pub fn rot_der_n(orders: [usize; 4], axis: Vector3, s: f64, c: f64) -> Result<Matrix3, Refusal> {
    let [x, y, z, n] = orders;
    matrix3(|out| ffi::rot_der_n(x, y, z, n, &axis, s, c, out))
}

/// The rotation itself.
pub fn from_axis_angle(axis: Vector3, s: f64, c: f64) -> Result<Matrix3, Refusal> { matrix3(|out| ffi::from_axis_angle(&axis, s, c, out)) }

/// Where the ball touches a surface, and the surface's parameters there.
#[derive(Clone, Copy, Debug, PartialEq)]
pub struct ContactPoint {
    pub point: Vector3,
    pub uv: [f64; 2],
}

/// The arc of the ball's great circle from contact point 0 to contact point 1: `angle` about `axis`.
#[derive(Clone, Copy, Debug, PartialEq)]
pub struct ContactCircle {
    pub center: Vector3,
    pub axis: Vector3,
    pub angle: f64,
    pub contact_point0: ContactPoint,
    pub contact_point1: ContactPoint,
}

impl ContactCircle {
    fn list(&self) -> [f64; 13] {
        let ([a, b, c], [x, y, z]) = (self.center, self.axis);
        let ([d, e, f], [g, h, i]) = (self.contact_point0.point, self.contact_point1.point);
        [a, b, c, x, y, z, self.angle, d, e, f, g, h, i]
    }

    fn feet(&self) -> [f64; 4] {
        let ([a, b], [c, d]) = (self.contact_point0.uv, self.contact_point1.uv);
        [a, b, c, d]
    }

    /// The derivative of order `n` by the share u of the arc; `s` and `c` are the sine and cosine of angle · u.
    ///
    /// ```
    /// use sugamdely::rolling_ball_fillet::{ContactCircle, ContactPoint};
    ///
    /// let contact = |point| ContactPoint { point, uv: [0.0, 0.0] };
    /// let circle = ContactCircle {
    ///     center: [1.0, 0.0, 0.0],
    ///     axis: [0.0, 0.0, 1.0],
    ///     angle: 2.0,
    ///     contact_point0: contact([2.0, 0.0, 0.0]),
    ///     contact_point1: contact([1.0, 1.0, 0.0]),
    /// };
    /// assert_eq!(circle.derivative_n(0, 0.0, 1.0)?, [2.0, 0.0, 0.0]);
    /// assert_eq!(circle.derivative_n(1, 0.0, 1.0)?, [0.0, 2.0, 0.0]);
    /// # Ok::<(), sugamdely::Refusal>(())
    /// ```
    pub fn derivative_n(&self, n: usize, s: f64, c: f64) -> Result<Vector3, Refusal> {
        vector(|out| ffi::contact_circle_derivative_n(n, &self.list(), s, c, out))
    }
}

/// The edge, both surfaces and the radius at one place of the edge, as jets, and the surfaces' unit normals there.
#[derive(Clone, Debug, PartialEq)]
pub struct RollingBallFilletSurface {
    pub edge_curve: CurveDerivatives<[f64; 3]>,
    pub surface0: SurfaceDerivatives<[f64; 3]>,
    pub surface1: SurfaceDerivatives<[f64; 3]>,
    pub radius: CurveDerivatives<f64>,
    pub normal0: Vector3,
    pub normal1: Vector3,
}

/// How the ball's centre, its two contact points and their parameters move along the edge: the centre to order n, 0 to 19, the others to order n + 1 with
/// a last entry of zero.
#[derive(Clone, Debug, PartialEq)]
pub struct CenterContactDers {
    pub center_ders: CurveDerivatives<[f64; 3]>,
    pub contact0_ders: CurveDerivatives<[f64; 3]>,
    pub contact1_ders: CurveDerivatives<[f64; 3]>,
    pub uv0_ders: ParameterCurve,
    pub uv1_ders: ParameterCurve,
}

/// How the circle's axis and angle move along the edge, beside its centre and contacts.
#[derive(Clone, Debug, PartialEq)]
pub struct VderInfo {
    pub cc_ders: CenterContactDers,
    pub axis_ders: CurveDerivatives<[f64; 3]>,
    pub angle_ders: CurveDerivatives<f64>,
}

impl RollingBallFilletSurface {
    fn normals(&self) -> [f64; 6] {
        let ([a, b, c], [d, e, f]) = (self.normal0, self.normal1);
        [a, b, c, d, e, f]
    }

    /// The jets of the centre and the contacts from those of edge, radius and surfaces, of order n + 1 or more; `n` up to 19.
    pub fn sub_center_contacts_ders(&self, circle: &ContactCircle, n: usize) -> Result<CenterContactDers, Refusal> {
        let above = n.saturating_add(1);
        let mut ders = CenterContactDers {
            center_ders: Jet::blank(n),
            contact0_ders: Jet::blank(above),
            contact1_ders: Jet::blank(above),
            uv0_ders: Jet::blank(above),
            uv1_ders: Jet::blank(above),
        };
        answered(ffi::sub_center_contacts_ders(
            n,
            &circle.list(),
            &circle.feet(),
            &self.normals(),
            self.edge_curve.order(),
            self.edge_curve.list(),
            self.radius.order(),
            self.radius.list(),
            self.surface0.order(),
            self.surface0.list(),
            self.surface1.order(),
            self.surface1.list(),
            ders.center_ders.list_mut(),
            ders.contact0_ders.list_mut(),
            ders.contact1_ders.list_mut(),
            ders.uv0_ders.list_mut(),
            ders.uv1_ders.list_mut(),
        ))?;
        Ok(ders)
    }

    /// The partial derivative m times by u and n times by v, at the share `u` of the arc; `s` and `c` are the sine and cosine of angle · u.
    ///
    /// Served are (m, 0) with m up to 20, (0, 1), (1, 1) and (0, 2). `angle` is that at the place for the last three; (m, 0) takes the circle's.
    /// (0, 1) and (1, 1) need jets of order 2, (0, 2) of order 3, and longer ones are cut. (m, 0) needs none and cuts none: every float of them is to be finite.
    #[allow(clippy::too_many_arguments)]
    pub fn sub_der_mn(&self, m: usize, n: usize, u: f64, circle: &ContactCircle, angle: f64, s: f64, c: f64) -> Result<Vector3, Refusal> {
        vector(|out| {
            ffi::sub_der_mn(
                m,
                n,
                &circle.list(),
                &circle.feet(),
                &self.normals(),
                self.edge_curve.order(),
                self.edge_curve.list(),
                self.radius.order(),
                self.radius.list(),
                self.surface0.order(),
                self.surface0.list(),
                self.surface1.order(),
                self.surface1.list(),
                angle,
                u,
                s,
                c,
                out,
            )
        })
    }
}

impl CenterContactDers {
    /// The jets of the axis and the angle, to the centre's order. `angle` is the angle's entry 0; the clamped cosine that it should have is beside
    /// the answer.
    pub fn vder_info(self, radius: &CurveDerivatives<f64>, angle: f64) -> Result<(VderInfo, f64), Refusal> {
        let order = self.center_ders.order();
        let (mut axis_ders, mut angle_ders) = (CurveDerivatives::<[f64; 3]>::blank(order), CurveDerivatives::<f64>::blank(order));
        let mut cosine = [0.0];
        answered(ffi::vder_info(
            order,
            self.center_ders.list(),
            self.contact0_ders.order(),
            self.contact0_ders.list(),
            self.contact1_ders.order(),
            self.contact1_ders.list(),
            self.uv0_ders.order(),
            self.uv0_ders.list(),
            self.uv1_ders.order(),
            self.uv1_ders.list(),
            radius.order(),
            radius.list(),
            angle,
            axis_ders.list_mut(),
            angle_ders.list_mut(),
            &mut cosine,
        ))?;
        Ok((VderInfo { cc_ders: self, axis_ders, angle_ders }, cosine[0]))
    }
}

impl VderInfo {
    /// The partial (0, 1) at the share `u` of the arc; `s` and `c` are the sine and cosine of angle · u. Needs order 1 of centre, axis and angle, and 2
    /// of contacts and parameters.
    pub fn derivative_v(&self, u: f64, s: f64, c: f64) -> Result<Vector3, Refusal> { self.partial(ffi::derivative_v, u, s, c) }

    /// The partial (1, 1). Needs the same orders.
    pub fn derivative_uv(&self, u: f64, s: f64, c: f64) -> Result<Vector3, Refusal> { self.partial(ffi::derivative_uv, u, s, c) }

    /// The partial (0, 2). Needs order 2 of centre, axis and angle, and 3 of contacts and parameters.
    pub fn derivative_vv(&self, u: f64, s: f64, c: f64) -> Result<Vector3, Refusal> { self.partial(ffi::derivative_vv, u, s, c) }

    fn partial(&self, call: Partial, u: f64, s: f64, c: f64) -> Result<Vector3, Refusal> {
        let CenterContactDers { center_ders, contact0_ders, contact1_ders, uv0_ders, uv1_ders } = &self.cc_ders;
        vector(|out| {
            call(
                center_ders.order(),
                center_ders.list(),
                contact0_ders.order(),
                contact0_ders.list(),
                contact1_ders.order(),
                contact1_ders.list(),
                uv0_ders.order(),
                uv0_ders.list(),
                uv1_ders.order(),
                uv1_ders.list(),
                self.axis_ders.order(),
                self.axis_ders.list(),
                self.angle_ders.order(),
                self.angle_ders.list(),
                u,
                s,
                c,
                out,
            )
        })
    }
}

type Partial = fn(
    usize,
    &[f64],
    usize,
    &[f64],
    usize,
    &[f64],
    usize,
    &[f64],
    usize,
    &[f64],
    usize,
    &[f64],
    usize,
    &[f64],
    f64,
    f64,
    f64,
    &mut [f64],
) -> u8;
