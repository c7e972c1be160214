/* Times the carries of two states of the library in one run: processor nanoseconds a call, the least of 15, the two in turn.

   The same code can take a sixth longer where it stands 16 bytes further on, so each function is placed at a multiple of 64.

   In a clone of each state:
   tools/staticlib capi_exact capi_vectors
   for name in exact vectors; do objcopy -w --set-section-alignment '.text.*=64' target/staticlib/libcapi_$name.a target/libplaced_$name.a; done
   cc -shared -o target/state.so -Wl,--whole-archive target/libplaced_exact.a target/libplaced_vectors.a -Wl,--no-whole-archive
   Then:
   cc -O2 -Iinclude -o target/before_after bench/before_after.c -ldl && target/before_after BEFORE/target/state.so AFTER/target/state.so */
#include "sugamdely.h"
#include <dlfcn.h>
#include <stdio.h>
#include <stdlib.h>
#include <string.h>
#include <time.h>

enum { RUNS = 15, TOP = 20, RUN_NANOSECONDS = 20000000 };

typedef struct {
    __typeof__(sugamdely_exact_composite_derivatives) *exact;
    __typeof__(sugamdely_vector_composite_derivatives) *vectors;
} state;

static int64_t surface[231], curve[42], answer[TOP + 1];
static double vector_surface[693], vector_curve[42], vector_answer[3 * (TOP + 1)];

static size_t count(size_t order) { return (order + 1) * (order + 2) / 2; }

static unsigned carry_exact(const state *s, size_t order) {
    return s->exact(order, surface, count(order), order, curve, 2 * (order + 1), order, answer, order + 1);
}

static unsigned carry_vectors(const state *s, size_t order) {
    return s->vectors(order, vector_surface, 3 * count(order), order, vector_curve, 2 * (order + 1), order, vector_answer, 3 * (order + 1));
}

typedef unsigned carry(const state *, size_t);

static double nanoseconds(carry *call, const state *s, size_t order, unsigned calls) {
    struct timespec start, end;
    clock_gettime(CLOCK_PROCESS_CPUTIME_ID, &start);
    for (unsigned k = 0; k < calls; k++) call(s, order);
    clock_gettime(CLOCK_PROCESS_CPUTIME_ID, &end);
    return (1e9 * (double)(end.tv_sec - start.tv_sec) + (double)(end.tv_nsec - start.tv_nsec)) / calls;
}

static void *found(void *library, const char *name) {
    void *symbol = library ? dlsym(library, name) : NULL;
    if (!symbol) fprintf(stderr, "%s\n", dlerror()), exit(2);
    return symbol;
}

static state loaded(const char *path) {
    void *library = dlopen(path, RTLD_NOW | RTLD_LOCAL);
    return (state){found(library, "sugamdely_exact_composite_derivatives"), found(library, "sugamdely_vector_composite_derivatives")};
}

/* Both must give the same answer, which stands at out. */
static void time_both(const char *name, carry *call, const state states[2], size_t order, const void *out, size_t size) {
    char first[sizeof vector_answer];
    unsigned refusals = call(&states[0], order);
    memcpy(first, out, size);
    refusals |= call(&states[1], order);
    if (refusals || memcmp(first, out, size)) printf("%s, order %zu: refused, or not alike\n", name, order), exit(1);
    unsigned calls = 1 + (unsigned)(RUN_NANOSECONDS / nanoseconds(call, &states[0], order, 1));
    double least[2] = {1e300, 1e300};
    for (int run = 0; run < RUNS; run++)
        for (int k = 0; k < 2; k++) {
            double t = nanoseconds(call, &states[k], order, calls);
            if (t < least[k]) least[k] = t;
        }
    printf("%-8s %5zu %14.0f %14.0f %7.3f\n", name, order, least[0], least[1], least[1] / least[0]);
}

int main(int words, char **word) {
    static const size_t orders[] = {2, 4, 8, 12, 16, 20};
    if (words != 3) return fprintf(stderr, "usage: before_after BEFORE.so AFTER.so\n"), 2;
    state states[2] = {loaded(word[1]), loaded(word[2])};
    for (int k = 0; k < 231; k++) surface[k] = k % 3 - 1;
    for (int m = 0; m <= TOP; m++) curve[2 * m] = m % 2, curve[2 * m + 1] = 1 - m % 2;
    for (int k = 0; k < 693; k++) vector_surface[k] = (k * 37 % 101 - 50) / 64.0;
    for (int k = 0; k < 42; k++) vector_curve[k] = (k * 29 % 67 - 33) / 64.0;
    printf("%-8s %5s %14s %14s %7s\n", "carry", "order", "before", "after", "ratio");
    for (int i = 0; i < 6; i++) time_both("exact", carry_exact, states, orders[i], answer, sizeof answer);
    for (int i = 0; i < 4; i++) time_both("vectors", carry_vectors, states, orders[i], vector_answer, sizeof vector_answer);
    return 0;
}
