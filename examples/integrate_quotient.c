/* Integrates a feed that is itself a certified quotient, so that no list of
   coefficients describes it: 1/(2 + y) over two intervals, of which y goes from -1
   to 1.  With the ends -S and S y is x, and the integral is the logarithm of 3; with
   the ends 0 and 10 S, ten seconds of machine time, it is 5 times that.

   Build and run it in the repository root:

     scripts/build_library
     cc -std=c99 -Iinclude examples/integrate_quotient.c target/staticlib/libferruntzo.a -o integrate_quotient
     ./integrate_quotient

   For each interval it prints the ends, the radii of the quotient and of its integral,
   then for some numbers k of strips how far the sum of the quotient itself, left-end
   value times width, lies from the integral's polynomial at the upper end, and how
   far it may: the radius plus L (u - l)/(S k) units, where L is the sum of |a_k| k^2 of
   the quotient's model.  Exit status: 0 all within, 1 refused or beyond. */
#include "ferruntzo.h"

#include <stdio.h>

/* The polynomial at the upper end, where y and every T_k is 1, in units. */
static double value_at_upper_end(const int32_t *model)
{
    double sum = 0;
    for (int k = 0; k < FERRUNTZO_COEFFICIENTS; k++)
        sum += model[FERRUNTZO_PLACE_COEFFICIENTS + k];
    return sum;
}

/* L of the integrand, in units. */
static double lipschitz(const int32_t *model)
{
    double sum = 0;
    for (int k = 0; k < FERRUNTZO_COEFFICIENTS; k++) {
        double a = model[FERRUNTZO_PLACE_COEFFICIENTS + k];
        sum += (a < 0 ? -a : a) * k * k;
    }
    return sum;
}

/* From l/S to u/S, that is y from -1 to 1, in k equal strips: 1/(2 + y) at each left end times
   the width in x. */
static double strip_sum(double length, int k)
{
    double width = 2.0 / k, sum = 0;
    for (int i = 0; i < k; i++)
        sum += 1 / (2 + (-1 + i * width)) * (length / k);
    return sum;
}

/* Whether all is accepted on the interval with these ends, and every sum within its bound. */
static int integrate_on(int32_t lower, int32_t upper)
{
    const int32_t s = FERRUNTZO_S;
    /* f = 1 and g = 2 + y, both exact: degree, coefficients, radius 0, ends. */
    const int32_t f[FERRUNTZO_MODEL_SIZE] = {0, s, [FERRUNTZO_PLACE_LOWER] = lower, upper};
    const int32_t g[FERRUNTZO_MODEL_SIZE] = {1, 2 * s, s, [FERRUNTZO_PLACE_LOWER] = lower, upper};
    /* A solver's proposal for f/g, which is near 1/g too. */
    const int32_t h[FERRUNTZO_CANDIDATE_SIZE] = {
        11, 605396, -324431, 86931, -23293, 6241, -1672, 448, -120, 32, -9, 2, -1};
    int32_t quotient[FERRUNTZO_MODEL_SIZE], integral[FERRUNTZO_MODEL_SIZE];
    uint64_t numbers[FERRUNTZO_NUMBERS_SIZE];
    int64_t scratch[FERRUNTZO_SCRATCH_SIZE];

    uint32_t refusal = ferruntzo_quotient(f, FERRUNTZO_MODEL_SIZE, g, FERRUNTZO_MODEL_SIZE,
                                          h, FERRUNTZO_CANDIDATE_SIZE, h, FERRUNTZO_CANDIDATE_SIZE,
                                          scratch, FERRUNTZO_SCRATCH_SIZE,
                                          quotient, FERRUNTZO_MODEL_SIZE,
                                          numbers, FERRUNTZO_NUMBERS_SIZE);
    if (refusal == 0)
        refusal = ferruntzo_integrate(quotient, FERRUNTZO_MODEL_SIZE, integral, FERRUNTZO_MODEL_SIZE);
    if (refusal != 0) {
        printf("refused %u\n", (unsigned)refusal);
        return 0;
    }
    const int32_t radius = integral[FERRUNTZO_PLACE_RADIUS];
    const double length = ((double)integral[FERRUNTZO_PLACE_UPPER] - integral[FERRUNTZO_PLACE_LOWER]) / s;
    printf("from %d to %d: quotient %d, integral %d\n", (int)lower, (int)upper,
           (int)quotient[FERRUNTZO_PLACE_RADIUS], (int)radius);
    int within = 1;
    for (int k = 1; k <= 1000000; k *= 100) {
        double far = strip_sum(length, k) * s - value_at_upper_end(integral);
        double most = radius + lipschitz(quotient) * length / k;
        printf("k = %d: %.0f of at most %.0f\n", k, far, most);
        within &= far <= most && -far <= most;
    }
    return within;
}

int main(void)
{
    const int standard = integrate_on(-FERRUNTZO_S, FERRUNTZO_S), timed = integrate_on(0, 10 * FERRUNTZO_S);
    return !(standard && timed);
}
