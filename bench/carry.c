/* Times the exact carry of a surface with small entries.
   tools/staticlib bench_carry && cc -O2 -o target/carry bench/carry.c target/staticlib/libbench_carry.a && target/carry */
#include <stdint.h>
#include <stdio.h>
#include <time.h>

uint8_t exact_composite_derivatives(const int64_t entries[231], const int64_t u[21], const int64_t v[21], size_t order, int64_t out[21]);

/* processor time */
static double seconds(void) {
    struct timespec t;
    clock_gettime(CLOCK_PROCESS_CPUTIME_ID, &t);
    return (double)t.tv_sec + 1e-9 * (double)t.tv_nsec;
}

int main(void) {
    static const size_t orders[] = {2, 8, 12, 16, 20};
    int64_t entries[231] = {5, 3, 2, 6, 4, 1}, u[21] = {0, 1, 2}, v[21] = {0, 2, 1}, out[21];
    for (int k = 6; k < 231; k++) entries[k] = k % 3 - 1;
    for (int k = 3; k < 21; k++) u[k] = k % 2, v[k] = 1 - k % 2;
    for (unsigned i = 0; i < sizeof orders / sizeof *orders; i++) {
        size_t order = orders[i];
        double start = seconds();
        unsigned refusal = exact_composite_derivatives(entries, u, v, order, out);
        double end = seconds();
        printf("order %2zu: refusal %u, last entry %lld, %.6f s\n", order, refusal, (long long)out[order], end - start);
    }
}
