/* A surface of vectors carried along a curve at order 2, as often as is asked, for counting instructions: those of 2,000 calls less those of 1,000, over
   1,000, are a call's.

   tools/staticlib capi_vectors && cc -O2 -Iinclude -o target/instructions bench/instructions.c target/staticlib/libcapi_vectors.a
   for n in 1000 2000; do valgrind --tool=callgrind --callgrind-out-file=target/calls.$n target/instructions $n; done
   callgrind_annotate target/calls.2000 */
#include "sugamdely.h"
#include <stdlib.h>

int main(int count, char **words) {
    double surface[18], curve[6], out[9];
    unsigned refusal = 0;
    for (int k = 0; k < 18; k++) surface[k] = 0.3 + 0.1 * k;
    for (int k = 0; k < 6; k++) curve[k] = 0.1 + 0.2 * k;
    for (int k = count > 1 ? atoi(words[1]) : 1; k > 0; k--) refusal |= sugamdely_vector_composite_derivatives(2, surface, 18, 2, curve, 6, 2, out, 9);
    return (int)refusal;
}
