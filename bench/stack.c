/* How much stack a call takes: a family's calls run on a stack of their own that was painted before, and what is no longer painted counts. Exit code 1 if a
   family takes more than the header says.

   tools/staticlib
   cc -O2 -Iinclude -o target/stack bench/stack.c target/staticlib/libcapi_*.a && target/stack */
#define _DEFAULT_SOURCE
#include "sugamdely.h"
#include <stdio.h>
#include <string.h>
#include <ucontext.h>

enum { SIZE = 1 << 20, PAINT = 0xA5, ORDER = 20 };

/* Lists of any order up to 20: entry 0 is one, and the others are small. */
static double curve[21], vectors[63], surface[231], vector_surface[693], parameters[42], out[700], outs[5][80];
static double circle[13] = {0, 1, 1, 1, 0, 0, 1.5, 0, 1, 0, 0, 0, 1}, feet[4] = {0, 1, 1, 0}, normals[6] = {0, 0, 1, 0, 1, 0};
static double edge[63], plane0[693], plane1[693], long_plane0[693], long_plane1[693], radius[21];
static int64_t exact_curve[21], exact_surface[231], exact_parameters[42], exact_out[231], four_surfaces[924], four_curves[84];
static size_t walk[23], parts[20], four_orders[4] = {ORDER, ORDER, ORDER, ORDER};
static const size_t steps[36] = {2, 0, 1, 0, 2, 4, 2, 3, 5, 0, 3, 6, 1, 6, 7, 3, 7, 0, 0, 8, 9, 1, 9, 10, 2, 0, 0, 0, 11, 12, 1, 12, 13, 0, 13, 14};

static int failures = 0;

/* What is refused may take less. */
static void must(unsigned refusal) {
    if (refusal != 0) printf("refused %u\n", refusal), failures = 1;
}

/* Each family: its calls, one after the other. */
static void nothing(void) {}

static void whole_numbers(void) {
    must(sugamdely_whole_sum(1, 2, exact_out, 1));
    must(sugamdely_whole_product(3, 4, exact_out, 1));
    must(sugamdely_whole_quotient(12, 4, exact_out, 1));
}

static void part_lists(void) {
    uint64_t count;
    must(sugamdely_walk_start(20, 7, walk, 23));
    must(sugamdely_walk_next(walk, 23, parts, 20));
    must(sugamdely_multiplicity(parts, 7, &count, 1));
    must(sugamdely_stirling_number(20, 7, &count, 1));
}

static void exact_jets(void) {
    must(sugamdely_exact_surface_sum(ORDER, exact_surface, 231, ORDER, exact_surface, 231, exact_out, 231));
    must(sugamdely_exact_surface_combinatorial_derivatives(ORDER, exact_surface, 231, ORDER, exact_surface, 231, exact_out, 231));
    must(sugamdely_exact_surface_quotient(ORDER, exact_surface, 231, ORDER, exact_surface, 231, exact_out, 231));
    must(sugamdely_exact_composite_derivatives(ORDER, exact_surface, 231, ORDER, exact_parameters, 42, ORDER, exact_out, 21));
}

static void recipes(void) {
    must(sugamdely_recipe_surfaces(four_orders, 4, four_surfaces, 924, steps, 36, exact_out, 231));
    must(sugamdely_recipe_curves(four_orders, 4, four_curves, 84, steps, 36, exact_out, 21));
}

static void roads(void) {
    must(sugamdely_build_then_carry(four_orders, 4, four_surfaces, 924, steps, 36, ORDER, exact_parameters, 42, ORDER, exact_out, 21));
    must(sugamdely_carry_then_build(four_orders, 4, four_surfaces, 924, steps, 36, ORDER, exact_parameters, 42, ORDER, exact_out, 21));
}

static void float_curves(void) {
    must(sugamdely_curve_sum(ORDER, curve, 21, ORDER, curve, 21, out, 21));
    must(sugamdely_curve_combinatorial_derivatives(ORDER, curve, 21, ORDER, curve, 21, out, 21));
    must(sugamdely_curve_rational_derivatives(ORDER, curve, 21, ORDER, curve, 21, out, 21));
}

static void float_surfaces(void) {
    must(sugamdely_surface_sum(ORDER, surface, 231, ORDER, surface, 231, out, 231));
    must(sugamdely_surface_combinatorial_derivatives(ORDER, surface, 231, ORDER, surface, 231, out, 231));
    must(sugamdely_surface_rational_derivatives(ORDER, surface, 231, ORDER, surface, 231, out, 231));
    must(sugamdely_composite_derivatives(ORDER, surface, 231, ORDER, parameters, 42, ORDER, out, 21));
}

static void vector_curves(void) {
    must(sugamdely_vector_curve_sum(ORDER, vectors, 63, ORDER, vectors, 63, out, 63));
    must(sugamdely_curve_combinatorial_derivatives_cross(ORDER, vectors, 63, ORDER, vectors, 63, out, 63));
    must(sugamdely_vector_curve_rational_derivatives(ORDER, vectors, 63, ORDER, curve, 21, out, 63));
    must(sugamdely_curve_absolute_derivatives(ORDER, vectors, 63, out, 21));
}

static void vector_surfaces(void) {
    must(sugamdely_vector_surface_sum(ORDER, vector_surface, 693, ORDER, vector_surface, 693, out, 693));
    must(sugamdely_surface_combinatorial_derivatives_cross(ORDER, vector_surface, 693, ORDER, vector_surface, 693, out, 693));
    must(sugamdely_vector_surface_rational_derivatives(ORDER, vector_surface, 693, ORDER, surface, 231, out, 693));
    must(sugamdely_surface_absolute_derivatives(ORDER, vector_surface, 693, out, 231));
    must(sugamdely_vector_composite_derivatives(ORDER, vector_surface, 693, ORDER, parameters, 42, ORDER, out, 63));
}

static void single_values(void) {
    must(sugamdely_square_root(2, out, 1));
    must(sugamdely_vector_cross(vectors, 3, vectors, 3, out, 3));
    must(sugamdely_matrix3_inverse((double[]){2, 0, 0, 0, 3, 0, 0, 0, 4}, 9, out, 9));
}

static void rotations(void) {
    must(sugamdely_rot_der_n(1, 0, 0, 1, vectors, 3, 0.6, 0.8, out, 9));
    must(sugamdely_contact_circle_derivative_n(4, circle, 13, 0.6, 0.8, out, 3));
}

static unsigned contacts(size_t n, const double *surface0, const double *surface1) {
    size_t order = n + 1, count = 3 * (order + 1) * (order + 2) / 2;
    return sugamdely_sub_center_contacts_ders(n, circle, 13, feet, 4, normals, 6, order, edge, 3 * (order + 1), order, radius, order + 1, order, surface0, count,
        order, surface1, count, outs[0], 3 * (n + 1), outs[1], 3 * (n + 2), outs[2], 3 * (n + 2), outs[3], 2 * (n + 2), outs[4], 2 * (n + 2));
}

static void centre(void) {
    must(contacts(19, long_plane0, long_plane1));
    must(contacts(2, plane0, plane1));
}

/* These read the jets that the centre at order 2 left. */
static void axis_and_angle(void) {
    static double axis[9], angle[3], cosine[1];
    must(sugamdely_vder_info(2, outs[0], 9, 3, outs[1], 12, 3, outs[2], 12, 3, outs[3], 8, 3, outs[4], 8, 3, radius, 4, 1.5, axis, 9, angle, 3,
        cosine, 1));
}

static void partial_of_jets(void) {
    static const double axis[9] = {1, 0, 0}, angle[3] = {1.5, 0, 0};
    must(sugamdely_derivative_vv(2, outs[0], 9, 3, outs[1], 12, 3, outs[2], 12, 3, outs[3], 8, 3, outs[4], 8, 2, axis, 9, 2, angle, 3, 0.5, 0.6,
        0.8, out, 3));
}

static void partial_of_the_fillet(void) {
    for (size_t n = 0; n < 3; n++) {
        must(sugamdely_sub_der_mn(0, n, circle, 13, feet, 4, normals, 6, 3, edge, 12, 3, radius, 4, 3, plane0, 30, 3, plane1, 30, 1.5, 0.5, 0.6, 0.8, out, 3));
    }
}

/* With what the header says that a family takes at most: of the archives as the kit before built them, and as rattle-kit-13f does. */
static const struct {
    const char *name;
    void (*calls)(void);
    size_t before, said;
} families[] = {
    {"whole numbers", whole_numbers, 4000, 4000},
    {"part lists", part_lists, 4000, 4000},
    {"exact jets", exact_jets, 24000, 24000},
    {"recipes", recipes, 92000, 102000},
    {"roads", roads, 92000, 102000},
    {"single floats, vectors, matrices", single_values, 4000, 4000},
    {"jets of floats, curves", float_curves, 22000, 26000},
    {"jets of floats, surfaces", float_surfaces, 22000, 26000},
    {"jets of vectors, curves", vector_curves, 70000, 82000},
    {"jets of vectors, surfaces", vector_surfaces, 70000, 82000},
    {"rotations, circle", rotations, 4000, 4000},
    {"centre and contacts", centre, 120000, 120000},
    {"axis and angle", axis_and_angle, 20000, 20000},
    {"partials of given jets", partial_of_jets, 20000, 20000},
    {"partials of the fillet", partial_of_the_fillet, 130000, 130000},
};

static size_t taken(void (*calls)(void)) {
    static unsigned char stack[SIZE];
    memset(stack, PAINT, SIZE);
    ucontext_t here, there;
    getcontext(&there);
    there.uc_stack.ss_sp = stack;
    there.uc_stack.ss_size = SIZE;
    there.uc_link = &here;
    makecontext(&there, calls, 0);
    swapcontext(&here, &there);
    size_t free = 0;
    while (free < SIZE && stack[free] == PAINT) free++;
    return SIZE - free;
}

/* A plane at p, spanned by two axes. */
static void plane(double *list, size_t order, const double p[3], int u, int v) {
    memset(list, 0, sizeof plane0);
    memcpy(list, p, 3 * sizeof *p);
    list[3 + v] = 1;
    list[3 * (order + 1) + u] = 1;
}

int main(void) {
    curve[0] = surface[0] = vectors[0] = vectors[1] = vector_surface[0] = vector_surface[2] = radius[0] = edge[3] = 1;
    for (int k = 1; k < 21; k++) curve[k] = 0.001 * k, vectors[3 * k] = 0.001 * k, parameters[2 * k] = parameters[2 * k + 1] = 0.01;
    for (int k = 1; k < 231; k++) surface[k] = 0.001, vector_surface[3 * k] = 0.001;
    exact_curve[0] = exact_surface[0] = exact_parameters[2] = exact_parameters[3] = 1;
    for (int k = 0; k < 4; k++) four_surfaces[231 * k] = four_curves[21 * k] = 1;
    const double p0[] = {0, 1, 0}, p1[] = {0, 0, 1};
    plane(plane0, 3, p0, 0, 1);
    plane(plane1, 3, p1, 2, 0);
    plane(long_plane0, ORDER, p0, 0, 1);
    plane(long_plane1, ORDER, p1, 2, 0);
    size_t least = taken(nothing);
    for (size_t k = 0; k < sizeof families / sizeof *families; k++) {
        size_t bytes = taken(families[k].calls) - least;
        printf("%-34s %7zu bytes%s\n", families[k].name, bytes,
            bytes > families[k].said ? ", more than the header says" : bytes > families[k].before ? ", more than with the kit before" : "");
        failures |= bytes > families[k].said;
    }
    return failures;
}
