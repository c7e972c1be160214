// Reaches what is private in source files 000 and 002. Included in a module inside `algo`.

use super::*;
use crate::standins::pair;

pub use super::CenterContactDers as CenterContacts;

/// A surface of which one jet and one normal are known.
#[derive(Clone, Copy, Debug)]
pub struct SurfaceJet {
    pub ders: SurfaceDerivatives<Vector3>,
    pub normal: Vector3,
}

impl ParametricSurface3D for SurfaceJet {
    fn derivatives(&self, n: usize, _u: f64, _v: f64) -> SurfaceDerivatives<Vector3> {
        let mut cut = SurfaceDerivatives::new(n);
        for i in 0..=n {
            for j in 0..=n - i {
                cut[i][j] = self.ders[i][j];
            }
        }
        cut
    }
    fn normal(&self, _u: f64, _v: f64) -> Vector3 { self.normal }
}

impl SearchParameter<SurfaceParameter> for SurfaceJet {
    type Point = Point3;
}

/// An edge of which one jet is known.
#[derive(Clone, Copy, Debug)]
pub struct EdgeJet(pub CurveDerivatives<Vector3>);

impl ParametricCurve3D for EdgeJet {
    fn derivatives(&self, n: usize, _t: f64) -> CurveDerivatives<Vector3> { self.0[..=n].iter().copied().collect() }
}

/// A radius of which one jet is known.
#[derive(Clone, Copy, Debug)]
pub struct RadiusJet(pub CurveDerivatives<f64>);

impl RadiusFunction for RadiusJet {
    fn derivative_n(&self, n: usize, _t: f64) -> f64 { self.0[n] }
}

pub type Fillet = RollingBallFilletSurface<EdgeJet, SurfaceJet, SurfaceJet, RadiusJet>;

/// Centre, axis, angle, then the point and parameters of each contact.
pub fn circle(center: Point3, axis: Vector3, angle: f64, contact0: (Point3, Point2), contact1: (Point3, Point2)) -> ContactCircle {
    ContactCircle { center, axis, angle: Rad(angle), t: 0.0, contact_point0: contact0.into(), contact_point1: contact1.into() }
}

pub fn rot_der_n(orders: [usize; 4], axis: Vector3) -> Matrix3 { super::rot_der_n(orders, axis, 0.0) }

/// The derivatives by u of a circle: pairs (m, 0).
pub fn circle_derivative_n(circle: ContactCircle, n: usize) -> Vector3 { monstertruck_traits::ParametricCurve::derivative_n(&circle, n, 0.0) }

/// Jets along the edge that the source keeps for one surface.
#[derive(Clone, Copy, Debug)]
pub struct Along {
    pub tders: CurveDerivatives<Vector3>,
    pub uderders: CurveDerivatives<Vector3>,
    pub vderders: CurveDerivatives<Vector3>,
    pub crossders: CurveDerivatives<Vector3>,
    pub abs_crossders: CurveDerivatives<f64>,
    pub nders: CurveDerivatives<Vector3>,
    pub uvders: CurveDerivatives<Vector2>,
}

fn along(info: SurfaceInfo) -> Along {
    let SurfaceInfo { ders: _, tders, uderders, vderders, crossders, abs_crossders, nders, uvders } = info;
    Along { tders, uderders, vderders, crossders, abs_crossders, nders, uvders }
}

/// What the source keeps for both surfaces after `m` steps of `der_routine`, with the centre's jet.
pub fn surface_infos(fillet: &Fillet, circle: ContactCircle, n: usize, m: usize) -> (Along, Along, CurveDerivatives<Vector3>) {
    let info = |surface: &SurfaceJet, uv: Point2| SurfaceInfo::new(surface, (uv.x, uv.y), n + 1);
    let mut info0 = info(&fillet.surface0, circle.contact_point0.uv);
    let mut info1 = info(&fillet.surface1, circle.contact_point1.uv);
    let edge = fillet.edge_curve.derivatives(n + 1, circle.t);
    let radius = fillet.radius.derivatives(n + 1, circle.t);
    let mut center = CurveDerivatives::new(n);
    center[0] = circle.center.to_vec();
    for m in 1..=m {
        der_routine(&mut info0, &mut info1, &edge, &radius, &mut center, m);
    }
    (along(info0), along(info1), center)
}

pub fn sub_center_contacts_ders(fillet: &Fillet, circle: ContactCircle, n: usize) -> CenterContactDers {
    let radius = fillet.radius.derivatives(n + 1, circle.t);
    fillet.sub_center_contacts_ders(circle, &radius, n)
}

/// As the source's contact curve calls it: with a radius of order n.
pub fn contact_curve_ders(fillet: &Fillet, circle: ContactCircle, n: usize) -> CenterContactDers {
    let radius = fillet.radius.derivatives(n, circle.t);
    fillet.sub_center_contacts_ders(circle, &radius, n)
}

/// Jets of the axis and the angle, and the clamped cosine.
#[derive(Clone, Copy, Debug)]
pub struct AxisAngle {
    pub axis_ders: CurveDerivatives<Vector3>,
    pub angle_ders: CurveDerivatives<f64>,
    pub cosine: f64,
}

pub fn vder_info(contacts: CenterContactDers, radius: &CurveDerivatives<f64>) -> AxisAngle {
    let VderInfo { cc_ders: _, axis_ders, angle_ders } = contacts.vder_info(radius);
    AxisAngle { axis_ders, angle_ders, cosine: pair::cosine() }
}

/// The named method of a partial: (0, 1), (1, 1) or (0, 2).
pub fn partial(cc_ders: CenterContactDers, axis_ders: CurveDerivatives<Vector3>, angle_ders: CurveDerivatives<f64>, pair: (usize, usize), u: f64) -> Vector3 {
    let info = VderInfo { cc_ders, axis_ders, angle_ders };
    match pair {
        (0, 1) => info.derivative_v(u),
        (1, 1) => info.derivative_uv(u),
        (0, 2) => info.derivative_vv(u),
        _ => panic!("no method for {pair:?}"),
    }
}

pub fn sub_der_mn(fillet: &Fillet, m: usize, n: usize, u: f64, circle: ContactCircle) -> Vector3 { fillet.sub_der_mn(m, n, u, circle) }
