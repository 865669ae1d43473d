/* Plain C99 version of the makers of proposals of document 02 (S-19), by two nested loops in the
   request's own order.  Compile with -ffp-contract=off, so that each operation is rounded by itself.

   -DTHREE_PASSES takes each row of a product in three passes, for the benchmark: places get the same
   numbers in the same order. */
#include "plain.h"

#include "models.h"

#include <float.h>

#define RECIPROCAL_RECORD_SIZE 34    /* w, the change */
#define QUOTIENT_RECORD_SIZE 67      /* f times w, then the record of the reciprocal */
#define VALUES_SIZE 33
#define OUTCOME_SIZE 1
#define ROUNDS 12

enum { NOT_FINITE = 15, LARGE_PROPOSAL = 16 };

enum { GIVEN_UP = 0, SETTLED = 1 };

static const double small = 1.0 / 16777216.0;    /* 2^-24 */

/* ---- Values ---- */

static int all_finite(const double *list, int size)
{
    for (int k = 0; k < size; k++)
        if (!(list[k] >= -DBL_MAX && list[k] <= DBL_MAX))
            return 0;
    return 1;
}

/* The coefficients of a model as values. */
static void to_values(const int32_t *model, double *values)
{
    for (int k = 0; k < COEFFICIENTS; k++)
        values[k] = model[1 + k] / 1048576.0;
}

/* The nearest whole number to value times S, a tie to the even one; 2^29 for every size from 2^29 on,
   whose weight is too large whatever it is.  No step rounds: powers of two, and parts below 1. */
static int64_t to_unit(double value)
{
    double scaled = value * 1048576.0;
    if (!(scaled > -536870912.0 && scaled < 536870912.0))
        return 536870912;
    int64_t whole = (int64_t)scaled;             /* towards zero */
    double rest = scaled - (double)whole;
    if (rest > 0.5 || (rest == 0.5 && whole % 2 != 0))
        whole++;
    if (rest < -0.5 || (rest == -0.5 && whole % 2 != 0))
        whole--;
    return whole;
}

/* The candidate of degree 32 with these values, which are finite; or 16. */
static uint32_t to_candidate(const double *values, int32_t *candidate)
{
    int64_t sum = 0;
    candidate[0] = MAX_DEGREE;
    for (int k = 0; k < COEFFICIENTS; k++) {
        int64_t unit = to_unit(values[k]);
        sum += magnitude(unit);
        candidate[1 + k] = (int32_t)unit;
    }
    return sum > LIMIT ? LARGE_PROPOSAL : 0;
}

/* ---- Products and rounds ---- */

#ifndef THREE_PASSES
static void add_pairs(const double *a, const double *b, double *c)
{
    for (int i = 0; i < COEFFICIENTS; i++) {
        for (int j = 0; j < COEFFICIENTS; j++) {
            double v = a[i] * b[j];
            if (i + j < COEFFICIENTS)
                c[i + j] += v;
            c[i > j ? i - j : j - i] += v;
        }
    }
}
#else
static void add_pairs(const double *a, const double *b, double *c)
{
    for (int i = 0; i < COEFFICIENTS; i++) {
        for (int j = 0; i + j < COEFFICIENTS; j++)
            c[i + j] += a[i] * b[j];
        for (int j = 0; j <= i; j++)
            c[i - j] += a[i] * b[j];
        for (int j = i + 1; j < COEFFICIENTS; j++)
            c[j - i] += a[i] * b[j];
    }
}
#endif

/* a times b, of degree 32. */
static void product(const double *a, const double *b, double *c)
{
    for (int k = 0; k < COEFFICIENTS; k++)
        c[k] = 0.0;
    add_pairs(a, b, c);
    for (int k = 0; k < COEFFICIENTS; k++)
        c[k] = c[k] / 2.0;
}

/* A round: w becomes w times (2 - g times w).  Gives the change. */
static double improve(const double *g, double *w)
{
    double p[COEFFICIENTS], v[COEFFICIENTS], change = 0.0;
    product(g, w, p);
    for (int k = 0; k < COEFFICIENTS; k++)
        p[k] = (k == 0 ? 2.0 : 0.0) - p[k];
    product(w, p, v);
    for (int k = 0; k < COEFFICIENTS; k++) {
        double x = v[k] - w[k];
        if (x < 0.0)
            x = -x;
        if (change < x)
            change = x;
        w[k] = v[k];
    }
    return change;
}

/* The record of 1/g, w and the last change; or 15. */
static uint32_t reciprocal(const int32_t *model, double *record, uint32_t *outcome)
{
    double g[COEFFICIENTS];
    if (model[1] == 0)
        return NOT_FINITE;
    to_values(model, g);
    record[0] = 1.0 / g[0];
    for (int k = 1; k < COEFFICIENTS; k++)
        record[k] = 0.0;
    *outcome = GIVEN_UP;
    for (int round = 0; round < ROUNDS && *outcome == GIVEN_UP; round++) {
        record[COEFFICIENTS] = improve(g, record);
        if (!all_finite(record, RECIPROCAL_RECORD_SIZE))
            return NOT_FINITE;
        if (record[COEFFICIENTS] <= small)
            *outcome = SETTLED;
    }
    return 0;
}

/* ---- The library's entries ---- */

uint32_t plain_make_reciprocal(const int32_t *g, size_t g_len, double *record, size_t record_len,
                               int32_t *w, size_t w_len, uint32_t *outcome, size_t outcome_len)
{
    double made[RECIPROCAL_RECORD_SIZE];
    int32_t units[CANDIDATE_SIZE];
    uint32_t ended;
    /* & and not &&: each area is cleared whatever the others have. */
    int fit = CLEAR(record, RECIPROCAL_RECORD_SIZE) & CLEAR(w, CANDIDATE_SIZE)
              & CLEAR(outcome, OUTCOME_SIZE);
    if (!fit || g_len < MODEL_SIZE)
        return SHORT_AREA;
    uint32_t number = model_fault(g);
    if (number == 0)
        number = reciprocal(g, made, &ended);
    if (number == 0)
        number = to_candidate(made, units);
    if (number != 0)
        return number;
    memcpy(record, made, sizeof made);
    memcpy(w, units, sizeof units);
    *outcome = ended;
    return 0;
}

uint32_t plain_make_quotient(const int32_t *f, size_t f_len, const int32_t *g, size_t g_len,
                             double *record, size_t record_len, int32_t *h, size_t h_len,
                             int32_t *w, size_t w_len, uint32_t *outcome, size_t outcome_len)
{
    double made[QUOTIENT_RECORD_SIZE], a[COEFFICIENTS], *last = made + COEFFICIENTS;
    int32_t answer[CANDIDATE_SIZE], helper[CANDIDATE_SIZE];
    uint32_t ended;
    int fit = CLEAR(record, QUOTIENT_RECORD_SIZE) & CLEAR(h, CANDIDATE_SIZE)
              & CLEAR(w, CANDIDATE_SIZE) & CLEAR(outcome, OUTCOME_SIZE);
    if (!fit || f_len < MODEL_SIZE || g_len < MODEL_SIZE)
        return SHORT_AREA;
    uint32_t number = operands_fault(f, g);
    if (number == 0)
        number = reciprocal(g, last, &ended);
    if (number != 0)
        return number;
    to_values(f, a);
    product(a, last, made);
    if (!all_finite(made, COEFFICIENTS))
        return NOT_FINITE;
    if (to_candidate(made, answer) != 0 || to_candidate(last, helper) != 0)
        return LARGE_PROPOSAL;
    memcpy(record, made, sizeof made);
    memcpy(h, answer, sizeof answer);
    memcpy(w, helper, sizeof helper);
    *outcome = ended;
    return 0;
}

uint32_t plain_to_units(const double *values, size_t values_len, int32_t *units, size_t units_len)
{
    int32_t made[CANDIDATE_SIZE];
    if (!CLEAR(units, CANDIDATE_SIZE) || values_len < VALUES_SIZE)
        return SHORT_AREA;
    if (!all_finite(values, VALUES_SIZE))
        return NOT_FINITE;
    uint32_t number = to_candidate(values, made);
    if (number == 0)
        memcpy(units, made, sizeof made);
    return number;
}
