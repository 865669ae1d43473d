/* A quotient without a desktop, (3 - x)/(2 + x): h and w are made on the mill, and the ordinary
   test vouches for them.

   Build and run it in the repository root:

     scripts/build_library
     cc -std=c99 -Iinclude examples/make_proposal.c target/staticlib/libferruntzo.a -o make_proposal
     ./make_proposal

   It prints how the rounds ended with the last change, the radius that the test gives, and the
   value of the polynomial at x = 1 beside 2/3, in units.  Exit status: 0 within the radius, 1
   refused or beyond. */
#include "ferruntzo.h"

#include <stdio.h>

int main(void)
{
    const int32_t s = FERRUNTZO_S;
    /* f = 3 - x and g = 2 + x, both exact, for x from -1 to 1: degree, coefficients, radius 0, ends. */
    const int32_t f[FERRUNTZO_MODEL_SIZE] = {1, 3 * s, -s, [FERRUNTZO_PLACE_LOWER] = -s, s};
    const int32_t g[FERRUNTZO_MODEL_SIZE] = {1, 2 * s, s, [FERRUNTZO_PLACE_LOWER] = -s, s};
    double record[FERRUNTZO_QUOTIENT_RECORD_SIZE];
    int32_t h[FERRUNTZO_CANDIDATE_SIZE], w[FERRUNTZO_CANDIDATE_SIZE];
    uint32_t outcome[FERRUNTZO_OUTCOME_SIZE];
    int64_t scratch[FERRUNTZO_SCRATCH_SIZE];
    int32_t out[FERRUNTZO_MODEL_SIZE];
    uint64_t numbers[FERRUNTZO_NUMBERS_SIZE];

    uint32_t refusal = ferruntzo_make_quotient(f, FERRUNTZO_MODEL_SIZE, g, FERRUNTZO_MODEL_SIZE,
                                               record, FERRUNTZO_QUOTIENT_RECORD_SIZE,
                                               h, FERRUNTZO_CANDIDATE_SIZE,
                                               w, FERRUNTZO_CANDIDATE_SIZE,
                                               outcome, FERRUNTZO_OUTCOME_SIZE);
    if (refusal != FERRUNTZO_ACCEPTED) {
        printf("nothing made, refused %u\n", (unsigned)refusal);
        return 1;
    }
    printf("%s, last change %.3g\n", outcome[0] == FERRUNTZO_SETTLED ? "settled" : "given up",
           record[FERRUNTZO_QUOTIENT_RECORD_SIZE - 1]);

    /* Settled or not: nothing is known of h before this. */
    refusal = ferruntzo_quotient(f, FERRUNTZO_MODEL_SIZE, g, FERRUNTZO_MODEL_SIZE,
                                 h, FERRUNTZO_CANDIDATE_SIZE, w, FERRUNTZO_CANDIDATE_SIZE,
                                 scratch, FERRUNTZO_SCRATCH_SIZE, out, FERRUNTZO_MODEL_SIZE,
                                 numbers, FERRUNTZO_NUMBERS_SIZE);
    if (refusal != FERRUNTZO_ACCEPTED) {
        printf("test failed, refused %u\n", (unsigned)refusal);
        return 1;
    }
    double radius = out[FERRUNTZO_PLACE_RADIUS], value = 0, exact = 2 * s / 3.0;
    for (int k = 0; k < FERRUNTZO_COEFFICIENTS; k++)
        value += out[FERRUNTZO_PLACE_COEFFICIENTS + k];     /* every T_k is 1 at x = 1 */
    printf("test passed, degree %d, radius %.0f\n", (int)out[FERRUNTZO_PLACE_DEGREE], radius);
    printf("at x = 1: %.0f, exactly %.1f\n", value, exact);
    return value < exact - radius || value > exact + radius;
}
