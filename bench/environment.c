/* What goes wrong under another float environment than the one that the header asks for.

   tools/staticlib capi_floats
   cc -frounding-math -Iinclude -o target/environment bench/environment.c target/staticlib/libcapi_floats.a -lm && target/environment */
#include "sugamdely.h"
#include <fenv.h>
#include <pmmintrin.h>
#include <stdio.h>

typedef uint8_t of_two(size_t, const double *, size_t, size_t, const double *, size_t, double *, size_t);

static void work(const char *what, of_two *call, double a, double b) {
    double out;
    unsigned refusal = call(0, &a, 1, 0, &b, 1, &out, 1);
    if (refusal != 0) {
        printf("  %s refused %u", what, refusal);
    } else {
        printf("  %s %a", what, out);
    }
}

static void environment(const char *name) {
    double root;
    unsigned refusal = sugamdely_square_root(1e-310, &root, 1);
    printf("%-30s", name);
    work("1e-310/1e-310:", sugamdely_curve_rational_derivatives, 1e-310, 1e-310);
    work("2^1023 times 2:", sugamdely_curve_combinatorial_derivatives, 0x1p1023, 2);
    work("1 + 2^-53:", sugamdely_curve_sum, 1, 0x1p-53);
    printf("  root of 1e-310: %a%s\n", root, refusal ? ", refused" : "");
}

int main(void) {
    environment("as a program starts");
    _MM_SET_FLUSH_ZERO_MODE(_MM_FLUSH_ZERO_ON);
    environment("results flushed");
    _MM_SET_DENORMALS_ZERO_MODE(_MM_DENORMALS_ZERO_ON);
    environment("both flags, as by -ffast-math");
    _MM_SET_FLUSH_ZERO_MODE(_MM_FLUSH_ZERO_OFF);
    _MM_SET_DENORMALS_ZERO_MODE(_MM_DENORMALS_ZERO_OFF);
    fesetround(FE_UPWARD);
    environment("rounding up");
    fesetround(FE_TOWARDZERO);
    environment("rounding to zero");
}
