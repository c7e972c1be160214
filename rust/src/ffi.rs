//! The C interface (include/sugamdely.h) on slices. A slice goes as its pointer and its length.

/// A function `name` on slices for the C function `sugamdely_name`.
///
/// The calls are sound for all arguments: a slice is valid for its length, an output is lent to nobody else, and each function is proved to read
/// and write within what it is given.
macro_rules! function {
    ($name:ident ($($safe:tt)*) ($($c:tt)*) ($($call:tt)*) $(,)?) => {
        #[allow(clippy::too_many_arguments)]
        pub fn $name($($safe)*) -> u8 {
            extern "C" {
                #[link_name = concat!("sugamdely_", stringify!($name))]
                fn $name($($c)*) -> u8;
            }
            unsafe { $name($($call)*) }
        }
    };
    ($name:ident ($($safe:tt)*) ($($c:tt)*) ($($call:tt)*) $p:ident: &mut [$t:ty], $($rest:tt)*) => {
        function!($name ($($safe)* $p: &mut [$t],) ($($c)* $p: *mut $t, _: usize,) ($($call)* $p.as_mut_ptr(), $p.len(),) $($rest)*);
    };
    ($name:ident ($($safe:tt)*) ($($c:tt)*) ($($call:tt)*) $p:ident: &[$t:ty], $($rest:tt)*) => {
        function!($name ($($safe)* $p: &[$t],) ($($c)* $p: *const $t, _: usize,) ($($call)* $p.as_ptr(), $p.len(),) $($rest)*);
    };
    ($name:ident ($($safe:tt)*) ($($c:tt)*) ($($call:tt)*) $p:ident: $t:ty, $($rest:tt)*) => {
        function!($name ($($safe)* $p: $t,) ($($c)* $p: $t,) ($($call)* $p,) $($rest)*);
    };
}

macro_rules! functions {
    ($(fn $name:ident($($parameters:tt)*);)*) => { $(function!($name () () () $($parameters)*,);)* };
}

functions! {
    // Whole numbers.
    fn whole_sum(a: i64, b: i64, out: &mut [i64]);
    fn whole_difference(a: i64, b: i64, out: &mut [i64]);
    fn whole_product(a: i64, b: i64, out: &mut [i64]);
    fn whole_quotient(a: i64, b: i64, out: &mut [i64]);

    // Part lists.
    fn walk_start(order: usize, len: usize, walk: &mut [usize]);
    fn walk_next(walk: &mut [usize], parts: &mut [usize]);
    fn multiplicity(list: &[usize], out: &mut [u64]);
    fn factorial(n: usize, out: &mut [u64]);
    fn stirling_number(order: usize, len: usize, out: &mut [u64]);
    fn total_multiplicity(order: usize, len: usize, out: &mut [u64]);

    // Exact curves.
    fn exact_curve_sum(a_order: usize, a: &[i64], b_order: usize, b: &[i64], out: &mut [i64]);
    fn exact_curve_difference(a_order: usize, a: &[i64], b_order: usize, b: &[i64], out: &mut [i64]);
    fn exact_curve_derivative(a_order: usize, a: &[i64], out: &mut [i64]);
    fn exact_curve_combinatorial_derivative(a_order: usize, a: &[i64], b_order: usize, b: &[i64], m: usize, out: &mut [i64]);
    fn exact_curve_combinatorial_derivatives(a_order: usize, a: &[i64], b_order: usize, b: &[i64], out: &mut [i64]);
    fn exact_curve_quotient(a_order: usize, a: &[i64], b_order: usize, b: &[i64], out: &mut [i64]);

    // Exact surfaces.
    fn exact_surface_sum(a_order: usize, a: &[i64], b_order: usize, b: &[i64], out: &mut [i64]);
    fn exact_surface_difference(a_order: usize, a: &[i64], b_order: usize, b: &[i64], out: &mut [i64]);
    fn exact_surface_derivative_u(a_order: usize, a: &[i64], out: &mut [i64]);
    fn exact_surface_derivative_v(a_order: usize, a: &[i64], out: &mut [i64]);
    fn exact_surface_combinatorial_derivative(a_order: usize, a: &[i64], b_order: usize, b: &[i64], m: usize, n: usize, out: &mut [i64]);
    fn exact_surface_combinatorial_derivatives(a_order: usize, a: &[i64], b_order: usize, b: &[i64], out: &mut [i64]);
    fn exact_surface_quotient(a_order: usize, a: &[i64], b_order: usize, b: &[i64], out: &mut [i64]);
    fn exact_composite_derivative(a_order: usize, a: &[i64], c_order: usize, c: &[i64], n: usize, out: &mut [i64]);
    fn exact_composite_derivatives(a_order: usize, a: &[i64], c_order: usize, c: &[i64], n: usize, out: &mut [i64]);

    // Recipes.
    fn recipe_surfaces(orders: &[usize], entries: &[i64], steps: &[usize], out: &mut [i64]);
    fn recipe_curves(orders: &[usize], entries: &[i64], steps: &[usize], out: &mut [i64]);
    fn build_then_carry(orders: &[usize], entries: &[i64], steps: &[usize], c_order: usize, c: &[i64], n: usize, out: &mut [i64]);
    fn carry_then_build(orders: &[usize], entries: &[i64], steps: &[usize], c_order: usize, c: &[i64], n: usize, out: &mut [i64]);

    // Curves of floats.
    fn curve_sum(a_order: usize, a: &[f64], b_order: usize, b: &[f64], out: &mut [f64]);
    fn curve_difference(a_order: usize, a: &[f64], b_order: usize, b: &[f64], out: &mut [f64]);
    fn curve_derivative(a_order: usize, a: &[f64], out: &mut [f64]);
    fn curve_combinatorial_derivative(a_order: usize, a: &[f64], b_order: usize, b: &[f64], m: usize, out: &mut [f64]);
    fn curve_combinatorial_derivatives(a_order: usize, a: &[f64], b_order: usize, b: &[f64], out: &mut [f64]);
    fn curve_rational_derivatives(a_order: usize, a: &[f64], w_order: usize, w: &[f64], out: &mut [f64]);

    // Surfaces of floats.
    fn surface_sum(a_order: usize, a: &[f64], b_order: usize, b: &[f64], out: &mut [f64]);
    fn surface_difference(a_order: usize, a: &[f64], b_order: usize, b: &[f64], out: &mut [f64]);
    fn surface_derivative_u(a_order: usize, a: &[f64], out: &mut [f64]);
    fn surface_derivative_v(a_order: usize, a: &[f64], out: &mut [f64]);
    fn surface_combinatorial_derivative(a_order: usize, a: &[f64], b_order: usize, b: &[f64], m: usize, n: usize, out: &mut [f64]);
    fn surface_combinatorial_derivatives(a_order: usize, a: &[f64], b_order: usize, b: &[f64], out: &mut [f64]);
    fn surface_rational_derivatives(a_order: usize, a: &[f64], w_order: usize, w: &[f64], out: &mut [f64]);
    fn composite_derivative(a_order: usize, a: &[f64], c_order: usize, c: &[f64], n: usize, out: &mut [f64]);
    fn composite_derivatives(a_order: usize, a: &[f64], c_order: usize, c: &[f64], n: usize, out: &mut [f64]);

    // Curves of vectors.
    fn vector_curve_sum(a_order: usize, a: &[f64], b_order: usize, b: &[f64], out: &mut [f64]);
    fn vector_curve_difference(a_order: usize, a: &[f64], b_order: usize, b: &[f64], out: &mut [f64]);
    fn vector_curve_derivative(a_order: usize, a: &[f64], out: &mut [f64]);
    fn vector_curve_rational_derivatives(a_order: usize, a: &[f64], w_order: usize, w: &[f64], out: &mut [f64]);
    fn curve_combinatorial_derivative_scaled(a_order: usize, a: &[f64], b_order: usize, b: &[f64], m: usize, out: &mut [f64]);
    fn curve_combinatorial_derivative_dot(a_order: usize, a: &[f64], b_order: usize, b: &[f64], m: usize, out: &mut [f64]);
    fn curve_combinatorial_derivative_cross(a_order: usize, a: &[f64], b_order: usize, b: &[f64], m: usize, out: &mut [f64]);
    fn curve_combinatorial_derivatives_scaled(a_order: usize, a: &[f64], b_order: usize, b: &[f64], out: &mut [f64]);
    fn curve_combinatorial_derivatives_dot(a_order: usize, a: &[f64], b_order: usize, b: &[f64], out: &mut [f64]);
    fn curve_combinatorial_derivatives_cross(a_order: usize, a: &[f64], b_order: usize, b: &[f64], out: &mut [f64]);
    fn curve_absolute_derivatives(a_order: usize, a: &[f64], out: &mut [f64]);

    // Surfaces of vectors.
    fn vector_surface_sum(a_order: usize, a: &[f64], b_order: usize, b: &[f64], out: &mut [f64]);
    fn vector_surface_difference(a_order: usize, a: &[f64], b_order: usize, b: &[f64], out: &mut [f64]);
    fn vector_surface_derivative_u(a_order: usize, a: &[f64], out: &mut [f64]);
    fn vector_surface_derivative_v(a_order: usize, a: &[f64], out: &mut [f64]);
    fn vector_surface_rational_derivatives(a_order: usize, a: &[f64], w_order: usize, w: &[f64], out: &mut [f64]);
    fn surface_combinatorial_derivative_scaled(a_order: usize, a: &[f64], b_order: usize, b: &[f64], m: usize, n: usize, out: &mut [f64]);
    fn surface_combinatorial_derivative_dot(a_order: usize, a: &[f64], b_order: usize, b: &[f64], m: usize, n: usize, out: &mut [f64]);
    fn surface_combinatorial_derivative_cross(a_order: usize, a: &[f64], b_order: usize, b: &[f64], m: usize, n: usize, out: &mut [f64]);
    fn surface_combinatorial_derivatives_scaled(a_order: usize, a: &[f64], b_order: usize, b: &[f64], out: &mut [f64]);
    fn surface_combinatorial_derivatives_dot(a_order: usize, a: &[f64], b_order: usize, b: &[f64], out: &mut [f64]);
    fn surface_combinatorial_derivatives_cross(a_order: usize, a: &[f64], b_order: usize, b: &[f64], out: &mut [f64]);
    fn surface_absolute_derivatives(a_order: usize, a: &[f64], out: &mut [f64]);
    fn vector_composite_derivative(a_order: usize, a: &[f64], c_order: usize, c: &[f64], n: usize, out: &mut [f64]);
    fn vector_composite_derivatives(a_order: usize, a: &[f64], c_order: usize, c: &[f64], n: usize, out: &mut [f64]);

    // Vectors and matrices.
    fn square_root(x: f64, out: &mut [f64]);
    fn vector_sum(a: &[f64], b: &[f64], out: &mut [f64]);
    fn vector_difference(a: &[f64], b: &[f64], out: &mut [f64]);
    fn vector_multiple(a: &[f64], s: f64, out: &mut [f64]);
    fn vector_quotient(a: &[f64], s: f64, out: &mut [f64]);
    fn vector_cross(a: &[f64], b: &[f64], out: &mut [f64]);
    fn vector_dot(a: &[f64], b: &[f64], out: &mut [f64]);
    fn vector_magnitude(a: &[f64], out: &mut [f64]);
    fn matrix2_determinant(m: &[f64], out: &mut [f64]);
    fn matrix2_inverse(m: &[f64], out: &mut [f64]);
    fn matrix2_image(m: &[f64], v: &[f64], out: &mut [f64]);
    fn matrix3_determinant(m: &[f64], out: &mut [f64]);
    fn matrix3_inverse(m: &[f64], out: &mut [f64]);
    fn matrix3_image(m: &[f64], v: &[f64], out: &mut [f64]);

    // The fillet.
    fn rot_der_n(x: usize, y: usize, z: usize, n: usize, axis: &[f64], s: f64, c: f64, out: &mut [f64]);
    fn from_axis_angle(axis: &[f64], s: f64, c: f64, out: &mut [f64]);
    fn contact_circle_derivative_n(n: usize, circle: &[f64], s: f64, c: f64, out: &mut [f64]);
    fn sub_center_contacts_ders(
        n: usize, circle: &[f64], feet: &[f64], normals: &[f64], edge_order: usize, edge: &[f64], radius_order: usize, radius: &[f64],
        surface0_order: usize, surface0: &[f64], surface1_order: usize, surface1: &[f64], center: &mut [f64], contact0: &mut [f64],
        contact1: &mut [f64], uv0: &mut [f64], uv1: &mut [f64],
    );
    fn vder_info(
        center_order: usize, center: &[f64], contact0_order: usize, contact0: &[f64], contact1_order: usize, contact1: &[f64], uv0_order: usize,
        uv0: &[f64], uv1_order: usize, uv1: &[f64], radius_order: usize, radius: &[f64], angle: f64, axis_out: &mut [f64], angle_out: &mut [f64],
        cosine_out: &mut [f64],
    );
    fn derivative_v(
        center_order: usize, center: &[f64], contact0_order: usize, contact0: &[f64], contact1_order: usize, contact1: &[f64], uv0_order: usize,
        uv0: &[f64], uv1_order: usize, uv1: &[f64], axis_order: usize, axis: &[f64], angle_order: usize, angle: &[f64], u: f64, s: f64, c: f64,
        out: &mut [f64],
    );
    fn derivative_uv(
        center_order: usize, center: &[f64], contact0_order: usize, contact0: &[f64], contact1_order: usize, contact1: &[f64], uv0_order: usize,
        uv0: &[f64], uv1_order: usize, uv1: &[f64], axis_order: usize, axis: &[f64], angle_order: usize, angle: &[f64], u: f64, s: f64, c: f64,
        out: &mut [f64],
    );
    fn derivative_vv(
        center_order: usize, center: &[f64], contact0_order: usize, contact0: &[f64], contact1_order: usize, contact1: &[f64], uv0_order: usize,
        uv0: &[f64], uv1_order: usize, uv1: &[f64], axis_order: usize, axis: &[f64], angle_order: usize, angle: &[f64], u: f64, s: f64, c: f64,
        out: &mut [f64],
    );
    fn sub_der_mn(
        m: usize, n: usize, circle: &[f64], feet: &[f64], normals: &[f64], edge_order: usize, edge: &[f64], radius_order: usize, radius: &[f64],
        surface0_order: usize, surface0: &[f64], surface1_order: usize, surface1: &[f64], angle: f64, u: f64, s: f64, c: f64, out: &mut [f64],
    );
}
