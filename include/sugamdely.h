/* Derivative jets of curves and surfaces, exact and of floats, and the arithmetic of a rolling-ball fillet.

   tools/staticlib
   cc program.c target/staticlib/libcapi_*.a

   Every function is proved to give what its contract in crates/capi_exact, capi_roads, capi_floats, capi_vectors or capi_fillet says, for any
   numbers and any lists, and always returns.

   REFUSALS. A function returns 0 where it has answered, or the number of its refusal:

     1   an order above 20 (above 19 for n of sugamdely_sub_center_contacts_ders, and for the centre of a record of five jets)
     2   an order asked or needed exceeds a jet's; a list, or an output, of the wrong length; the derivative of a jet of order 0
     3   part lists: len 0 or above the order; a list whose parts are not positive and nonincreasing; a walk that holds no list of its walk
     4   a recipe with no jet or more than 4, with no step or more than 12, with an operation above 3, or with a step that names itself or a
         later number; on a road, where it comes to its recipe
     5   a float handed in is not finite, used or not; entries above the order worked at do not count
     6   a determinant is zero
     7   a division by zero is due
     8   an exact quotient leaves a remainder
     9   a number is formed that lies outside -2^63 to 2^63 - 1
     10  a float that would be returned is not finite
     11  a pair of orders that is not served

   They are tested as 1, 2, 3, 4, 11, 5; then 6 to 9 at the first operation that meets one; 10 last. A road (sugamdely_build_then_carry,
   sugamdely_carry_then_build) refuses as its calls do, in their order. On a refusal no output is changed.
   1 and 2 are possible wherever an order or a list is given; the comments below name the others.

   LISTS. A list is a pointer, then how many numbers stand there; it is not read or written past them. The outputs come last. An output
   must not overlap anything else that is given. With length 0 the pointer is not followed, but it should not be NULL.

     curve             order N, entries 0 .. N                               N + 1 numbers
     surface           entry [i][j] is i times by u and j times by v, i + j <= N: by i, then j,
                       [0][0] [0][1] .. [0][N] [1][0] .. [N][0]              (N + 1)(N + 2)/2 numbers
     of vectors        three floats an entry                                 3 times as many
     parameter curve   u0 v0 u1 v1 ..                                        2(N + 1) numbers
     matrix            3 by 3 column by column: 9; 2 by 2 row by row: 4
     circle            centre, axis, angle, contact point 0, contact point 1: 13
     feet              u and v on surface 0, then on surface 1: 4
     normals           of surface 0, then of surface 1: 6

   A jet is its order and its list side by side (a_order, a, a_len). Orders are 0 to 20. An output has exactly the length of its answer:
   "out of 3" below says that out_len is 3.

   THE PROCESSOR. Floats are worked under the caller's rounding mode and flags; no call looks at these or changes them. What the contracts say holds
   under round to nearest, with subnormal numbers kept (neither flush-to-zero nor denormals-are-zero) and exceptions masked: as a program starts, unless it is
   linked with -ffast-math, which sets both flags. (1e-310)/(1e-310) is 0 with the first, and refused 7 with both, with which the root of 1e-310 is a subnormal number; rounding to
   zero answers 2^1023 times 2, which is refused 10 (bench/environment.c shows these). Nothing traps, unless the caller has unmasked exceptions. Whole numbers
   and part lists do not depend on it.

   THREADS. No call keeps anything from one to the next, so any number of threads may call at once, each with outputs of its own.

   STACK. No call was seen to take more than this, in bytes, of archives that rattle-kit-13f built (in brackets: the kit before; bench/stack.c measures it): partials of the fillet
   130,000; centre and contacts 120,000; recipes and roads 102,000 (92,000); jets of vectors 82,000 (70,000); exact jets 24,000; jets of floats 26,000 (22,000); axis and
   angle 20,000; partials of given jets 20,000; the rest 4,000 or less. */
#ifndef SUGAMDELY_H
#define SUGAMDELY_H

#include <stddef.h>
#include <stdint.h>

#ifdef __cplusplus
extern "C" {
#endif

/* ---- Whole numbers: out of 1. Refusals 7 and 8 (quotient), 9. */

uint8_t sugamdely_whole_sum(int64_t a, int64_t b, int64_t *out, size_t out_len);
uint8_t sugamdely_whole_difference(int64_t a, int64_t b, int64_t *out, size_t out_len);
uint8_t sugamdely_whole_product(int64_t a, int64_t b, int64_t *out, size_t out_len);
uint8_t sugamdely_whole_quotient(int64_t a, int64_t b, int64_t *out, size_t out_len);

/* ---- Part lists: the nonincreasing lists of len positive parts with sum order, the greatest first. */

/* A walk is 23 numbers: order, len, 1 if it has ended and else 0, then 20 parts, zeros past len. Refusal 3 where there is no such list. */
uint8_t sugamdely_walk_start(size_t order, size_t len, size_t *walk, size_t walk_len);
/* Hands out the walk's list into parts (20, zeros past the list) and moves the walk on to the next. Where the walk has ended parts is all
   zeros, which is no refusal. Refusal 3 where the walk holds no list of its walk, or its third number is above 1. */
uint8_t sugamdely_walk_next(size_t *walk, size_t walk_len, size_t *parts, size_t parts_len);
/* How often a part list counts in Faa di Bruno's formula: out of 1. Its order is its sum: above 20 is 1. Refusal 3 where it is no part list. */
uint8_t sugamdely_multiplicity(const size_t *list, size_t list_len, uint64_t *out, size_t out_len);
/* n!, n up to 20: out of 1. */
uint8_t sugamdely_factorial(size_t n, uint64_t *out, size_t out_len);
/* The Stirling number of the second kind, len 0 to order: out of 1. Refusal 3 where len is above order. */
uint8_t sugamdely_stirling_number(size_t order, size_t len, uint64_t *out, size_t out_len);
/* The multiplicities of all lists of an order and a len, added: out of 1. Read from a table: nothing is walked. Refusal 3 where there is no such list. */
uint8_t sugamdely_total_multiplicity(size_t order, size_t len, uint64_t *out, size_t out_len);

/* ---- Exact jets of curves: entries are signed 64-bit numbers. Refusal 9, for a quotient 7 and 8 too. */

/* Entry by entry, at the smaller order. */
uint8_t sugamdely_exact_curve_sum(size_t a_order, const int64_t *a, size_t a_len, size_t b_order, const int64_t *b, size_t b_len, int64_t *out, size_t out_len);
uint8_t sugamdely_exact_curve_difference(size_t a_order, const int64_t *a, size_t a_len, size_t b_order, const int64_t *b, size_t b_len, int64_t *out, size_t out_len);
/* Order a_order - 1. */
uint8_t sugamdely_exact_curve_derivative(size_t a_order, const int64_t *a, size_t a_len, int64_t *out, size_t out_len);
/* Entry m of the product (Leibniz): out of 1. m must not exceed either order. */
uint8_t sugamdely_exact_curve_combinatorial_derivative(size_t a_order, const int64_t *a, size_t a_len, size_t b_order, const int64_t *b, size_t b_len, size_t m, int64_t *out, size_t out_len);
/* The product, at the smaller order. */
uint8_t sugamdely_exact_curve_combinatorial_derivatives(size_t a_order, const int64_t *a, size_t a_len, size_t b_order, const int64_t *b, size_t b_len, int64_t *out, size_t out_len);
/* The quotient a / b, at the smaller order. */
uint8_t sugamdely_exact_curve_quotient(size_t a_order, const int64_t *a, size_t a_len, size_t b_order, const int64_t *b, size_t b_len, int64_t *out, size_t out_len);

/* ---- Exact jets of surfaces. The same, and the carry along a parameter curve. */

uint8_t sugamdely_exact_surface_sum(size_t a_order, const int64_t *a, size_t a_len, size_t b_order, const int64_t *b, size_t b_len, int64_t *out, size_t out_len);
uint8_t sugamdely_exact_surface_difference(size_t a_order, const int64_t *a, size_t a_len, size_t b_order, const int64_t *b, size_t b_len, int64_t *out, size_t out_len);
uint8_t sugamdely_exact_surface_derivative_u(size_t a_order, const int64_t *a, size_t a_len, int64_t *out, size_t out_len);
uint8_t sugamdely_exact_surface_derivative_v(size_t a_order, const int64_t *a, size_t a_len, int64_t *out, size_t out_len);
/* Entry [m][n] of the product: out of 1. m + n must not exceed either order. */
uint8_t sugamdely_exact_surface_combinatorial_derivative(size_t a_order, const int64_t *a, size_t a_len, size_t b_order, const int64_t *b, size_t b_len, size_t m, size_t n, int64_t *out, size_t out_len);
uint8_t sugamdely_exact_surface_combinatorial_derivatives(size_t a_order, const int64_t *a, size_t a_len, size_t b_order, const int64_t *b, size_t b_len, int64_t *out, size_t out_len);
uint8_t sugamdely_exact_surface_quotient(size_t a_order, const int64_t *a, size_t a_len, size_t b_order, const int64_t *b, size_t b_len, int64_t *out, size_t out_len);
/* The surface a along the parameter curve c (Faa di Bruno): entry n, out of 1; zero at n = 0. n must not exceed either order. */
uint8_t sugamdely_exact_composite_derivative(size_t a_order, const int64_t *a, size_t a_len, size_t c_order, const int64_t *c, size_t c_len, size_t n, int64_t *out, size_t out_len);
/* Entries 0 to n: out of n + 1. Entry 0 is [0][0]. */
uint8_t sugamdely_exact_composite_derivatives(size_t a_order, const int64_t *a, size_t a_len, size_t c_order, const int64_t *c, size_t c_len, size_t n, int64_t *out, size_t out_len);

/* ---- Recipes: 1 to 4 exact jets, numbered from 0, then 1 to 12 steps, numbered on from them. orders has the order of each jet, entries
   their lists one after the other, steps three numbers a step: what it does (0 sum, 1 difference, 2 product, 3 quotient), and the numbers of
   its left and its right jet. The last step is the answer. Every step works at the smallest order among the jets, which is the answer's;
   without a jet no length is due of out. Refusals 4, 7, 8, 9. */

uint8_t sugamdely_recipe_surfaces(const size_t *orders, size_t orders_len, const int64_t *entries, size_t entries_len, const size_t *steps, size_t steps_len, int64_t *out, size_t out_len);
uint8_t sugamdely_recipe_curves(const size_t *orders, size_t orders_len, const int64_t *entries, size_t entries_len, const size_t *steps, size_t steps_len, int64_t *out, size_t out_len);
/* The two roads. The recipe of surfaces is built and then carried along the parameter curve c to order n; or every surface is carried, and
   the recipe is built of the curves. n must not exceed any order. Out of n + 1. Where the first is answered, the second has the same answer
   or is refused 9.
   First it is tested whether the lists are jets (1 of each jet's order, 2 of each length). Then a road refuses as its calls do, in their
   order: the first tests the recipe (4) and works its steps before it carries; the second carries each surface, of more than 4 the first 4,
   before it tests the recipe. So n above 20 (1), or above a jet's order (2), is met where the road comes to its carry; with n above 20 no
   length is due of out. */
uint8_t sugamdely_build_then_carry(const size_t *orders, size_t orders_len, const int64_t *entries, size_t entries_len, const size_t *steps, size_t steps_len, size_t c_order, const int64_t *c, size_t c_len, size_t n, int64_t *out, size_t out_len);
uint8_t sugamdely_carry_then_build(const size_t *orders, size_t orders_len, const int64_t *entries, size_t entries_len, const size_t *steps, size_t steps_len, size_t c_order, const int64_t *c, size_t c_len, size_t n, int64_t *out, size_t out_len);

/* ---- Jets of floats: curves. Refusals 5, 10, for a quotient 7 too. */

/* Entry by entry, at the smaller order. */
uint8_t sugamdely_curve_sum(size_t a_order, const double *a, size_t a_len, size_t b_order, const double *b, size_t b_len, double *out, size_t out_len);
uint8_t sugamdely_curve_difference(size_t a_order, const double *a, size_t a_len, size_t b_order, const double *b, size_t b_len, double *out, size_t out_len);
/* Order a_order - 1. */
uint8_t sugamdely_curve_derivative(size_t a_order, const double *a, size_t a_len, double *out, size_t out_len);
/* Entry m of the product (Leibniz): out of 1. m must not exceed either order. */
uint8_t sugamdely_curve_combinatorial_derivative(size_t a_order, const double *a, size_t a_len, size_t b_order, const double *b, size_t b_len, size_t m, double *out, size_t out_len);
/* The product, at the smaller order. */
uint8_t sugamdely_curve_combinatorial_derivatives(size_t a_order, const double *a, size_t a_len, size_t b_order, const double *b, size_t b_len, double *out, size_t out_len);
/* The quotient a / w, at the smaller order. */
uint8_t sugamdely_curve_rational_derivatives(size_t a_order, const double *a, size_t a_len, size_t w_order, const double *w, size_t w_len, double *out, size_t out_len);

/* ---- Jets of floats: surfaces. The same, and the carry along a parameter curve. */

uint8_t sugamdely_surface_sum(size_t a_order, const double *a, size_t a_len, size_t b_order, const double *b, size_t b_len, double *out, size_t out_len);
uint8_t sugamdely_surface_difference(size_t a_order, const double *a, size_t a_len, size_t b_order, const double *b, size_t b_len, double *out, size_t out_len);
uint8_t sugamdely_surface_derivative_u(size_t a_order, const double *a, size_t a_len, double *out, size_t out_len);
uint8_t sugamdely_surface_derivative_v(size_t a_order, const double *a, size_t a_len, double *out, size_t out_len);
/* Entry [m][n] of the product: out of 1. m + n must not exceed either order. */
uint8_t sugamdely_surface_combinatorial_derivative(size_t a_order, const double *a, size_t a_len, size_t b_order, const double *b, size_t b_len, size_t m, size_t n, double *out, size_t out_len);
uint8_t sugamdely_surface_combinatorial_derivatives(size_t a_order, const double *a, size_t a_len, size_t b_order, const double *b, size_t b_len, double *out, size_t out_len);
uint8_t sugamdely_surface_rational_derivatives(size_t a_order, const double *a, size_t a_len, size_t w_order, const double *w, size_t w_len, double *out, size_t out_len);
/* The surface a along the parameter curve c (Faa di Bruno): entry n, out of 1; zero at n = 0. n must not exceed either order. */
uint8_t sugamdely_composite_derivative(size_t a_order, const double *a, size_t a_len, size_t c_order, const double *c, size_t c_len, size_t n, double *out, size_t out_len);
/* Entries 0 to n: out of n + 1. Entry 0 is [0][0]. */
uint8_t sugamdely_composite_derivatives(size_t a_order, const double *a, size_t a_len, size_t c_order, const double *c, size_t c_len, size_t n, double *out, size_t out_len);

/* ---- Jets of vectors: curves. Refusals 5, 10; 7 for a quotient, and for a norm of order 1 or more whose entry 0 is zero. */

uint8_t sugamdely_vector_curve_sum(size_t a_order, const double *a, size_t a_len, size_t b_order, const double *b, size_t b_len, double *out, size_t out_len);
uint8_t sugamdely_vector_curve_difference(size_t a_order, const double *a, size_t a_len, size_t b_order, const double *b, size_t b_len, double *out, size_t out_len);
uint8_t sugamdely_vector_curve_derivative(size_t a_order, const double *a, size_t a_len, double *out, size_t out_len);
/* Vectors a over floats w. */
uint8_t sugamdely_vector_curve_rational_derivatives(size_t a_order, const double *a, size_t a_len, size_t w_order, const double *w, size_t w_len, double *out, size_t out_len);
/* Entry m of a product: of vectors and floats (out of 3), of vectors by dot (out of 1), of vectors by cross (out of 3). */
uint8_t sugamdely_curve_combinatorial_derivative_scaled(size_t a_order, const double *a, size_t a_len, size_t b_order, const double *b, size_t b_len, size_t m, double *out, size_t out_len);
uint8_t sugamdely_curve_combinatorial_derivative_dot(size_t a_order, const double *a, size_t a_len, size_t b_order, const double *b, size_t b_len, size_t m, double *out, size_t out_len);
uint8_t sugamdely_curve_combinatorial_derivative_cross(size_t a_order, const double *a, size_t a_len, size_t b_order, const double *b, size_t b_len, size_t m, double *out, size_t out_len);
/* The whole products: vectors, floats, vectors. */
uint8_t sugamdely_curve_combinatorial_derivatives_scaled(size_t a_order, const double *a, size_t a_len, size_t b_order, const double *b, size_t b_len, double *out, size_t out_len);
uint8_t sugamdely_curve_combinatorial_derivatives_dot(size_t a_order, const double *a, size_t a_len, size_t b_order, const double *b, size_t b_len, double *out, size_t out_len);
uint8_t sugamdely_curve_combinatorial_derivatives_cross(size_t a_order, const double *a, size_t a_len, size_t b_order, const double *b, size_t b_len, double *out, size_t out_len);
/* The norm: floats, of order a_order. */
uint8_t sugamdely_curve_absolute_derivatives(size_t a_order, const double *a, size_t a_len, double *out, size_t out_len);

/* ---- Jets of vectors: surfaces. */

uint8_t sugamdely_vector_surface_sum(size_t a_order, const double *a, size_t a_len, size_t b_order, const double *b, size_t b_len, double *out, size_t out_len);
uint8_t sugamdely_vector_surface_difference(size_t a_order, const double *a, size_t a_len, size_t b_order, const double *b, size_t b_len, double *out, size_t out_len);
uint8_t sugamdely_vector_surface_derivative_u(size_t a_order, const double *a, size_t a_len, double *out, size_t out_len);
uint8_t sugamdely_vector_surface_derivative_v(size_t a_order, const double *a, size_t a_len, double *out, size_t out_len);
uint8_t sugamdely_vector_surface_rational_derivatives(size_t a_order, const double *a, size_t a_len, size_t w_order, const double *w, size_t w_len, double *out, size_t out_len);
uint8_t sugamdely_surface_combinatorial_derivative_scaled(size_t a_order, const double *a, size_t a_len, size_t b_order, const double *b, size_t b_len, size_t m, size_t n, double *out, size_t out_len);
uint8_t sugamdely_surface_combinatorial_derivative_dot(size_t a_order, const double *a, size_t a_len, size_t b_order, const double *b, size_t b_len, size_t m, size_t n, double *out, size_t out_len);
uint8_t sugamdely_surface_combinatorial_derivative_cross(size_t a_order, const double *a, size_t a_len, size_t b_order, const double *b, size_t b_len, size_t m, size_t n, double *out, size_t out_len);
uint8_t sugamdely_surface_combinatorial_derivatives_scaled(size_t a_order, const double *a, size_t a_len, size_t b_order, const double *b, size_t b_len, double *out, size_t out_len);
uint8_t sugamdely_surface_combinatorial_derivatives_dot(size_t a_order, const double *a, size_t a_len, size_t b_order, const double *b, size_t b_len, double *out, size_t out_len);
uint8_t sugamdely_surface_combinatorial_derivatives_cross(size_t a_order, const double *a, size_t a_len, size_t b_order, const double *b, size_t b_len, double *out, size_t out_len);
uint8_t sugamdely_surface_absolute_derivatives(size_t a_order, const double *a, size_t a_len, double *out, size_t out_len);
/* The surface of vectors a along the parameter curve c: entry n, out of 3; zero at n = 0. */
uint8_t sugamdely_vector_composite_derivative(size_t a_order, const double *a, size_t a_len, size_t c_order, const double *c, size_t c_len, size_t n, double *out, size_t out_len);
/* Entries 0 to n: out of 3(n + 1). */
uint8_t sugamdely_vector_composite_derivatives(size_t a_order, const double *a, size_t a_len, size_t c_order, const double *c, size_t c_len, size_t n, double *out, size_t out_len);

/* ---- Vectors and matrices. A vector is 3 floats, and out of 3 where nothing else is said. Refusals 5, 10; 7 for a quotient, 6 for an inverse. */

/* The root of IEEE 754, rounded to nearest: out of 1. A number below zero has none: 10. */
uint8_t sugamdely_square_root(double x, double *out, size_t out_len);
uint8_t sugamdely_vector_sum(const double *a, size_t a_len, const double *b, size_t b_len, double *out, size_t out_len);
uint8_t sugamdely_vector_difference(const double *a, size_t a_len, const double *b, size_t b_len, double *out, size_t out_len);
uint8_t sugamdely_vector_multiple(const double *a, size_t a_len, double s, double *out, size_t out_len);
uint8_t sugamdely_vector_quotient(const double *a, size_t a_len, double s, double *out, size_t out_len);
uint8_t sugamdely_vector_cross(const double *a, size_t a_len, const double *b, size_t b_len, double *out, size_t out_len);
/* out of 1 */
uint8_t sugamdely_vector_dot(const double *a, size_t a_len, const double *b, size_t b_len, double *out, size_t out_len);
uint8_t sugamdely_vector_magnitude(const double *a, size_t a_len, double *out, size_t out_len);
uint8_t sugamdely_matrix2_determinant(const double *m, size_t m_len, double *out, size_t out_len);
/* out of 4 */
uint8_t sugamdely_matrix2_inverse(const double *m, size_t m_len, double *out, size_t out_len);
/* m times v, a list of 2: out of 2 */
uint8_t sugamdely_matrix2_image(const double *m, size_t m_len, const double *v, size_t v_len, double *out, size_t out_len);
/* out of 1 */
uint8_t sugamdely_matrix3_determinant(const double *m, size_t m_len, double *out, size_t out_len);
/* out of 9 */
uint8_t sugamdely_matrix3_inverse(const double *m, size_t m_len, double *out, size_t out_len);
/* m times v: out of 3 */
uint8_t sugamdely_matrix3_image(const double *m, size_t m_len, const double *v, size_t v_len, double *out, size_t out_len);

/* ---- The fillet. s and c are the sine and cosine of angle times u, from the caller. Refusals 5, 10 and those named.
   Presumed, and not checked: the normals are S_u x S_v, normalised; the centre is each contact point plus the radius times the normal there; s and c belong
   to one angle; the jets belong to one place of the edge, and the feet are the parameters of the contact points. Where one of these does not hold the numbers
   are the formulas' still, but no fillet's. */

/* Rodrigues' rotation, derived x, y, z times by the components of the axis and n times by the angle: out of 9. */
uint8_t sugamdely_rot_der_n(size_t x, size_t y, size_t z, size_t n, const double *axis, size_t axis_len, double s, double c, double *out, size_t out_len);
/* The rotation itself: out of 9. */
uint8_t sugamdely_from_axis_angle(const double *axis, size_t axis_len, double s, double c, double *out, size_t out_len);
/* Derivative n of the contact circle by the share u of the arc: out of 3. */
uint8_t sugamdely_contact_circle_derivative_n(size_t n, const double *circle, size_t circle_len, double s, double c, double *out, size_t out_len);
/* How centre, contact points and their parameters move along the edge, n 0 to 19. The jets of the edge (vectors), the radius (floats) and
   both surfaces (vectors) have order n + 1 or more; what is above is cut off. The centre comes out at order n: 3(n + 1) floats. The contacts
   (vectors) and the parameters (u v) come out at order n + 1, the last entry zero: 3(n + 2) and 2(n + 2) floats. Refusals 6 and 7. */
uint8_t sugamdely_sub_center_contacts_ders(
    size_t n, const double *circle, size_t circle_len, const double *feet, size_t feet_len, const double *normals, size_t normals_len,
    size_t edge_order, const double *edge, size_t edge_len, size_t radius_order, const double *radius, size_t radius_len,
    size_t surface0_order, const double *surface0, size_t surface0_len, size_t surface1_order, const double *surface1, size_t surface1_len,
    double *center, size_t center_len, double *contact0, size_t contact0_len, double *contact1, size_t contact1_len,
    double *uv0, size_t uv0_len, double *uv1, size_t uv1_len);
/* How the axis (vectors) and the angle (floats) move along the edge, from the five jets above. The centre has order n, 0 to 19, the others
   and the radius order n + 1 or more. Both come out at order n: 3(n + 1) and n + 1 floats. angle is the angle's entry 0, from the caller; the
   cosine that it should have, clamped from above, goes to cosine_out (1). Refusal 7. */
uint8_t sugamdely_vder_info(
    size_t center_order, const double *center, size_t center_len, size_t contact0_order, const double *contact0, size_t contact0_len,
    size_t contact1_order, const double *contact1, size_t contact1_len, size_t uv0_order, const double *uv0, size_t uv0_len,
    size_t uv1_order, const double *uv1, size_t uv1_len, size_t radius_order, const double *radius, size_t radius_len, double angle,
    double *axis_out, size_t axis_out_len, double *angle_out, size_t angle_out_len, double *cosine_out, size_t cosine_out_len);
/* The partials (0,1), (1,1) and (0,2) of the fillet from those jets, at the share u of the arc: out of 3. The first two need order 1 of the
   centre, axis and angle, the last order 2; the contacts and their parameters one more. The centre's order is 19 or less. */
uint8_t sugamdely_derivative_v(
    size_t center_order, const double *center, size_t center_len, size_t contact0_order, const double *contact0, size_t contact0_len,
    size_t contact1_order, const double *contact1, size_t contact1_len, size_t uv0_order, const double *uv0, size_t uv0_len,
    size_t uv1_order, const double *uv1, size_t uv1_len, size_t axis_order, const double *axis, size_t axis_len,
    size_t angle_order, const double *angle, size_t angle_len, double u, double s, double c, double *out, size_t out_len);
uint8_t sugamdely_derivative_uv(
    size_t center_order, const double *center, size_t center_len, size_t contact0_order, const double *contact0, size_t contact0_len,
    size_t contact1_order, const double *contact1, size_t contact1_len, size_t uv0_order, const double *uv0, size_t uv0_len,
    size_t uv1_order, const double *uv1, size_t uv1_len, size_t axis_order, const double *axis, size_t axis_len,
    size_t angle_order, const double *angle, size_t angle_len, double u, double s, double c, double *out, size_t out_len);
uint8_t sugamdely_derivative_vv(
    size_t center_order, const double *center, size_t center_len, size_t contact0_order, const double *contact0, size_t contact0_len,
    size_t contact1_order, const double *contact1, size_t contact1_len, size_t uv0_order, const double *uv0, size_t uv0_len,
    size_t uv1_order, const double *uv1, size_t uv1_len, size_t axis_order, const double *axis, size_t axis_len,
    size_t angle_order, const double *angle, size_t angle_len, double u, double s, double c, double *out, size_t out_len);
/* The partial of the fillet, m times by u and n times by v: out of 3. Served are (m, 0) with m up to 20, (0,1), (1,1) and (0,2); others
   are refused 11. (0,1) and (1,1) need jets of order 2, (0,2) of order 3, and what is above is cut off and does not count for 5. (m,0) needs none, yet
   cuts nothing: every float handed in counts for 5, up to each jet's own order. angle is the angle's entry 0 for the last three; (m,0) takes the
   circle's. Refusals 6 and 7. */
uint8_t sugamdely_sub_der_mn(
    size_t m, size_t n, const double *circle, size_t circle_len, const double *feet, size_t feet_len, const double *normals, size_t normals_len,
    size_t edge_order, const double *edge, size_t edge_len, size_t radius_order, const double *radius, size_t radius_len,
    size_t surface0_order, const double *surface0, size_t surface0_len, size_t surface1_order, const double *surface1, size_t surface1_len,
    double angle, double u, double s, double c, double *out, size_t out_len);

#ifdef __cplusplus
}
#endif

#endif
