/* Document 01's figures through the C interface. Writes what is not met; exit code 1 if there is any.

   tools/staticlib
   cc -std=c11 -Iinclude -o target/figures rust/tests/figures.c target/staticlib/libcapi_*.a && target/figures */
#include "sugamdely.h"
#include <stdio.h>
#include <string.h>

static int failures = 0;

static void expect(int met, const char *what) {
    if (!met) {
        printf("not met: %s\n", what);
        failures = 1;
    }
}

#define SAME(a, ...) (memcmp(a, (__VA_ARGS__), sizeof(a)) == 0)

static void part_lists(void) {
    size_t walk[23], parts[20], lists = 0, total = 0;
    expect(sugamdely_walk_start(4, 2, walk, 23) == 0, "a walk of order 4 and len 2");
    while (sugamdely_walk_next(walk, 23, parts, 20) == 0 && parts[0] != 0) {
        uint64_t count;
        expect(sugamdely_multiplicity(parts, 2, &count, 1) == 0, "a part list has a multiplicity");
        lists++, total += count;
    }
    expect(lists == 2 && total == 7, "(3,1) and (2,2), in total 7");
    uint64_t unwalked;
    expect(sugamdely_total_multiplicity(4, 2, &unwalked, 1) == 0 && unwalked == total, "the same total without the walk");
    expect(sugamdely_walk_start(20, 21, walk, 23) == 3, "order 20, len 21 is refused 3");
    uint64_t stirling;
    expect(sugamdely_stirling_number(20, 2, &stirling, 1) == 0 && stirling == 524287, "S(20,2) is 524287");
}

static void exact(void) {
    const int64_t surface[] = {5, 3, 6, 2, 4, 1}, curve[] = {0, 0, 1, 2, 2, 1}, a[] = {1, 2, 3}, b[] = {4, 5, 6};
    int64_t product[3], quotient[3], along[3], whole = 7;
    expect(sugamdely_exact_curve_combinatorial_derivatives(2, a, 3, 2, b, 3, product, 3) == 0 && SAME(product, (int64_t[]){4, 13, 38}), "(1,2,3) times (4,5,6)");
    expect(sugamdely_exact_curve_quotient(2, product, 3, 2, a, 3, quotient, 3) == 0 && SAME(quotient, b), "(4,13,38) over (1,2,3)");
    expect(sugamdely_exact_composite_derivatives(2, surface, 6, 2, curve, 6, 2, along, 3) == 0 && SAME(along, (int64_t[]){5, 8, 48}), "carried (5,8,48)");
    const size_t order[] = {2}, square[] = {2, 0, 0};
    expect(sugamdely_build_then_carry(order, 1, surface, 6, square, 3, 2, curve, 6, 2, along, 3) == 0 && SAME(along, (int64_t[]){25, 80, 608}), "the first road");
    expect(sugamdely_carry_then_build(order, 1, surface, 6, square, 3, 2, curve, 6, 2, along, 3) == 0 && SAME(along, (int64_t[]){25, 80, 608}), "the second road");
    expect(sugamdely_whole_product((int64_t)1 << 62, 2, &whole, 1) == 9 && whole == 7, "2^62 times 2 is refused 9 and writes nothing");
    expect(sugamdely_exact_composite_derivatives(2, surface, 6, 2, curve, 6, 3, along, 4) == 2, "order 3 on a curve of order 2 is refused 2");
}

static void floats(void) {
    const double surface[] = {5, 3, 6, 2, 4, 1}, curve[] = {0, 0, 1, 2, 2, 1}, vectors[] = {3, 4, 0, 5, 5, 0}, axis[] = {0, 0, 1}, huge = 1e308;
    double along[3], norm[2], columns[9], root;
    expect(sugamdely_composite_derivatives(2, surface, 6, 2, curve, 6, 2, along, 3) == 0 && SAME(along, (double[]){5, 8, 48}), "floats carried (5,8,48)");
    expect(sugamdely_curve_absolute_derivatives(1, vectors, 6, norm, 2) == 0 && SAME(norm, (double[]){5, 7}), "the norm (5,7)");
    expect(sugamdely_from_axis_angle(axis, 3, 1, 0, columns, 9) == 0, "a rotation");
    for (int k = 0; k < 9; k++) expect(columns[k] == (double[]){0, 1, 0, -1, 0, 0, 0, 0, 1}[k], "its columns");
    expect(sugamdely_square_root(2, &root, 1) == 0 && root == 0x1.6A09E667F3BCDp0, "the root of 2");
    expect(sugamdely_curve_combinatorial_derivatives(0, &huge, 1, 0, &huge, 1, &root, 1) == 10, "1e308 times 1e308 is refused 10");
}

int main(void) {
    part_lists();
    exact();
    floats();
    return failures;
}
