/* Two proposals of a solver for one quotient, 1/(2 + x): the tighter one is chosen, and its
   coefficients are read where they stand, in the caller's own array.

   Build and run it in the repository root:

     scripts/build_library
     cc -std=c99 -Iinclude examples/two_proposals.c target/staticlib/libferruntzo.a -o two_proposals
     ./two_proposals

   It prints which proposal is chosen, its degree and its radius, and the value of its
   polynomial at x = 1 beside 1/3, in units.  Exit status: 0 within the radius, 1 refused or
   beyond. */
#include "ferruntzo.h"

#include <stdio.h>

int main(void)
{
    enum { W = FERRUNTZO_CANDIDATE_SIZE };          /* where w stands in a proposal */
    const int32_t s = FERRUNTZO_S;
    /* f = 1 and g = 2 + x, both exact, for x from -1 to 1: degree, coefficients, radius 0, ends. */
    const int32_t f[FERRUNTZO_MODEL_SIZE] = {0, s, [FERRUNTZO_PLACE_LOWER] = -s, s};
    const int32_t g[FERRUNTZO_MODEL_SIZE] = {1, 2 * s, s, [FERRUNTZO_PLACE_LOWER] = -s, s};
    /* Degree and coefficients of h, then of w; here both are near 1/g. */
    const int32_t first[FERRUNTZO_PROPOSAL_SIZE] = {
        7, 605396, -324431, 86931, -23293, 6241, -1672, 448, -120,
        [W] = 7, 605396, -324431, 86931, -23293, 6241, -1672, 448, -120};
    const int32_t second[FERRUNTZO_PROPOSAL_SIZE] = {
        11, 605396, -324431, 86931, -23293, 6241, -1672, 448, -120, 32, -9, 2, -1,
        [W] = 11, 605396, -324431, 86931, -23293, 6241, -1672, 448, -120, 32, -9, 2, -1};
    int64_t scratch[FERRUNTZO_SCRATCH_SIZE];
    uint32_t answer[FERRUNTZO_SELECTION_SIZE];

    uint32_t refusal = ferruntzo_quotient_of_two(f, FERRUNTZO_MODEL_SIZE, g, FERRUNTZO_MODEL_SIZE,
                                                 first, FERRUNTZO_PROPOSAL_SIZE,
                                                 second, FERRUNTZO_PROPOSAL_SIZE,
                                                 scratch, FERRUNTZO_SCRATCH_SIZE,
                                                 answer, FERRUNTZO_SELECTION_SIZE);
    if (refusal != FERRUNTZO_ACCEPTED) {
        printf("refused %u\n", (unsigned)refusal);
        return 1;
    }
    const int32_t *chosen = answer[0] == FERRUNTZO_CHOSEN_FIRST ? first : second;
    const int32_t *coefficients = chosen + FERRUNTZO_PLACE_COEFFICIENTS;   /* 33 numbers, not copied */
    double radius = answer[1], value = 0, third = s / 3.0;
    for (int k = 0; k < FERRUNTZO_COEFFICIENTS; k++)
        value += coefficients[k];                   /* every T_k is 1 at x = 1 */
    printf("chosen %u, degree %d, radius %.0f\n", (unsigned)answer[0],
           (int)chosen[FERRUNTZO_PLACE_DEGREE], radius);
    printf("at x = 1: %.0f, exactly %.1f\n", value, third);
    return value < third - radius || value > third + radius;
}
