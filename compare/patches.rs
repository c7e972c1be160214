// What is changed in the source's text before it is compiled, and how. Used by build.rs and by the tests.

pub const DERIVATIVES: &str = "src--kernel--monstertruck-core--src--derivatives.rs.txt";
pub const EXTEND_TRAITS: &str = "src--kernel--monstertruck-core--src--cgmath_extend_traits.rs.txt";
pub const ALGO: &str = "src--kernel--monstertruck-geometry--src--decorators--rolling_ball_fillet--algo.rs.txt";
pub const CONTACT_CIRCLE: &str = "src--kernel--monstertruck-geometry--src--decorators--rolling_ball_fillet--contact_circle.rs.txt";
pub const FILLET: &str = "src--kernel--monstertruck-geometry--src--decorators--rolling_ball_fillet--mod.rs.txt";

/// The source files that are read, and the names under which their patched text is written.
pub const FILES: [(&str, &str); 5] = [
    (DERIVATIVES, "derivatives.rs"),
    (EXTEND_TRAITS, "cgmath_extend_traits.rs"),
    (ALGO, "algo.rs"),
    (CONTACT_CIRCLE, "contact_circle.rs"),
    (FILLET, "rolling_ball_fillet.rs"),
];

pub enum Edit {
    /// This text becomes that one.
    Line(&'static str, &'static str),
    /// From this text up to and with the next line that is exactly the second one.
    Cut(&'static str, &'static str),
    /// From this text to the end of the file.
    Rest(&'static str),
}
use Edit::*;

pub struct Patch {
    pub file: &'static str,
    pub edit: Edit,
    pub why: &'static str,
}

const fn patch(file: &'static str, edit: Edit, why: &'static str) -> Patch { Patch { file, edit, why } }

pub const PATCHES: &[Patch] = &[
    // Lines that compute.
    patch(
        ALGO,
        Line(
            "    let (s, c) = (angle + PI / 2.0 * orders[3] as f64).sin_cos();\n",
            "    let (s, c) = crate::standins::pair::turned(angle, orders[3]);\n",
        ),
        "the pair comes from the caller and turns by document 01's rule",
    ),
    patch(
        ALGO,
        Line(
            "angle_ders[0] = f64::acos(f64::min(cp0[0].dot(cp1[0]) / (rders[0] * rders[0]), 1.0));\n",
            "angle_ders[0] = crate::standins::pair::arc_cosine(f64::min(cp0[0].dot(cp1[0]) / (rders[0] * rders[0]), 1.0));\n",
        ),
        "the angle comes from the caller; the clamped cosine is kept",
    ),
    patch(
        CONTACT_CIRCLE,
        Line(
            "        let angle = Rad(PI / 2.0) * n as f64 + self.angle * t;\n        let rot = Matrix3::from_axis_angle(self.axis, angle);\n",
            "        let rot = Matrix3::from_axis_pair(self.axis, crate::standins::pair::turned((self.angle * t).0, n));\n",
        ),
        "the pair comes from the caller and turns by document 01's rule",
    ),
    patch(
        CONTACT_CIRCLE,
        Line("self.angle.0.powi(n as i32)\n", "crate::standins::pair::power(self.angle.0, n)\n"),
        "powers are repeated products from 1.0 (document 01)",
    ),
    // Where the files stand.
    patch(
        FILLET,
        Line("mod algo;\n", "mod algo { include!(concat!(env!(\"OUT_DIR\"), \"/algo.rs\")); pub mod open { include!(concat!(env!(\"CARGO_MANIFEST_DIR\"), \"/src/open_algo.rs\")); } }\n"),
        "the patched file is in the build's directory; open_algo.rs reaches what is private in it",
    ),
    patch(
        FILLET,
        Line("mod contact_circle;\n", "mod contact_circle { include!(concat!(env!(\"OUT_DIR\"), \"/contact_circle.rs\")); }\npub use algo::open;\n"),
        "the patched file is in the build's directory",
    ),
    // What is not compared.
    patch(EXTEND_TRAITS, Cut("pub mod control_point {\n", "}"), "control points of splines"),
    patch(
        FILLET,
        Cut("    #[inline]\n    pub fn contact_curve0(&self)", "    }"),
        "a curve that searches for its circles",
    ),
    patch(
        FILLET,
        Cut("    #[inline]\n    pub fn contact_curve1(&self)", "    }"),
        "a curve that searches for its circles",
    ),
    patch(FILLET, Cut("macro_rules! impl_radius_1dim {\n", "}"), "radius functions from splines"),
    patch(FILLET, Line("impl_radius_1dim!(BsplineCurve<Point1>);\n", ""), "radius functions from splines"),
    patch(FILLET, Line("impl_radius_1dim!(NurbsCurve<Vector2>);\n", ""), "radius functions from splines"),
    patch(
        FILLET,
        Rest("impl<C, S0, S1, R> ParametricSurface for RollingBallFilletSurface<C, S0, S1, R>\n"),
        "traits that search for the circle, then call what stands above",
    ),
    patch(
        ALGO,
        Cut("    pub fn contact_circle(&self, t: f64) -> Option<ContactCircle> {\n", "    }"),
        "the search for the circle: the circle is handed in",
    ),
    patch(ALGO, Cut("    pub(super) fn parameter_division_u(\n", "    }"), "meshing"),
    patch(ALGO, Line("#[cfg(test)]\nuse proptest::prelude::*;\n", ""), "a test that needs a crate; tests.rs has its like"),
    patch(ALGO, Cut("#[cfg(test)]\nproptest! {\n", "}"), "a test that needs a crate; tests.rs has its like"),
    patch(ALGO, Cut("pub(super) fn parameter_division_v_for_fillet<S>(\n", "}"), "meshing"),
    patch(ALGO, Cut("#[test]\nfn fillet_between_two_spheres_deralgo() {\n", "}"), "a test that searches for the circle; tests.rs has its like"),
    patch(CONTACT_CIRCLE, Cut("pub(super) trait FilletableSurface:\n", "}"), "the search for the circle"),
    patch(CONTACT_CIRCLE, Cut("impl<S: ParametricSurface3D + SearchParameter<SurfaceParameter, Point = Point3>> FilletableSurface\n", "}"), "the search for the circle"),
    patch(CONTACT_CIRCLE, Cut("    pub(super) fn try_new(\n", "    }"), "the search for the circle"),
    patch(CONTACT_CIRCLE, Cut("impl ToSameGeometry<NurbsCurve<Vector4>> for ContactCircle {\n", "}"), "splines"),
    patch(CONTACT_CIRCLE, Cut("fn contact_points(\n", "}"), "the search for the circle"),
    patch(CONTACT_CIRCLE, Cut("fn next_point(\n", "}"), "the search for the circle"),
];

/// The only place of `what` in `text`.
fn only(text: &str, what: &str) -> Result<usize, String> {
    match text.matches(what).count() {
        1 => Ok(text.find(what).unwrap()),
        n => Err(format!("a text to be patched is there {n} times, not once:\n{what}")),
    }
}

/// The text without its documentation, which would be tried as examples of this crate.
fn without_documentation(text: &str) -> String {
    text.lines().filter(|line| !line.trim_start().starts_with("///")).map(|line| format!("{line}\n")).collect()
}

/// The source file's text as it is compiled.
pub fn patched(file: &str, text: &str) -> Result<String, String> {
    let mut text = without_documentation(text);
    for patch in PATCHES.iter().filter(|p| p.file == file) {
        let (start, end, new) = match patch.edit {
            Line(old, new) => {
                let start = only(&text, old)?;
                (start, start + old.len(), new)
            }
            Cut(from, last) => {
                let start = only(&text, from)?;
                let last = format!("\n{last}\n");
                let length = text[start..].find(&last).ok_or_else(|| format!("no end of:\n{from}"))?;
                (start, start + length + last.len(), "")
            }
            Rest(from) => (only(&text, from)?, text.len(), ""),
        };
        text.replace_range(start..end, new);
    }
    Ok(text)
}

/// The examples in the documentation of a source file, each as a test named after its line.
pub fn examples(text: &str) -> String {
    let mut tests = String::new();
    let mut body: Option<(usize, String)> = None;
    for (number, line) in text.lines().enumerate() {
        let Some(line) = line.trim_start().strip_prefix("///") else { continue };
        let line = line.strip_prefix(' ').unwrap_or(line);
        if !line.starts_with("```") {
            if let Some((_, body)) = &mut body {
                body.push_str(line.strip_prefix("# ").unwrap_or(line));
                body.push('\n');
            }
        } else if let Some((start, body)) = body.take() {
            let call = if body.contains("fn main()") { "main().unwrap();\n" } else { "" };
            tests.push_str(&format!("#[test]\nfn line_{start}() {{\n{body}{call}}}\n"));
        } else {
            body = Some((number + 1, String::new()));
        }
    }
    tests
}
