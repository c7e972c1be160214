/* Under -ffast-math subnormal numbers count as zero, and a division by one is refused. */
#include "sugamdely.h"
#include <stdio.h>

int main(void) {
    const double x = 1e-310;
    double out = 0;
    printf("1e-310/1e-310: refused %u\n", sugamdely_curve_rational_derivatives(0, &x, 1, 0, &x, 1, &out, 1));
}
