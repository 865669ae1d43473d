/* What plain.c and proposals.c share: which models are good. */
#ifndef MODELS_H
#define MODELS_H

#include "areas.h"

static int64_t magnitude(int64_t n) { return n < 0 ? -n : n; }

/* The weight of a model or candidate area. */
static int64_t model_weight(const int32_t *a)
{
    int64_t sum = 0;
    for (int k = 1; k <= COEFFICIENTS; k++)
        sum += magnitude(a[k]);
    return sum;
}

/* inline: also -O2 puts it, and model_fault, into their callers. */
static inline int good_candidate(const int32_t *a)
{
    if (a[0] < 0 || a[0] > MAX_DEGREE)
        return 0;
    for (int k = a[0] + 1; k < COEFFICIENTS; k++)
        if (a[1 + k] != 0)
            return 0;
    return model_weight(a) <= LIMIT;
}

/* The refusal that a model gives, 0 if it is good. */
static inline uint32_t model_fault(const int32_t *a)
{
    if (!good_candidate(a) || a[RADIUS] < 0 || a[RADIUS] > LIMIT)
        return BAD_MODEL;
    if (a[LOWER] >= a[UPPER] || a[LOWER] < -LIMIT || a[UPPER] > LIMIT)
        return BAD_ENDS;
    return 0;
}

/* The refusal that two models give, each by itself. */
static uint32_t models_fault(const int32_t *a, const int32_t *b)
{
    uint32_t number = model_fault(a);
    return number != 0 ? number : model_fault(b);
}

static int same_interval(const int32_t *a, const int32_t *b)
{
    return a[LOWER] == b[LOWER] && a[UPPER] == b[UPPER];
}

/* The refusal that two operands give, which are to be on one interval. */
static uint32_t operands_fault(const int32_t *a, const int32_t *b)
{
    uint32_t number = models_fault(a, b);
    return number == 0 && !same_interval(a, b) ? DIFFERENT_INTERVALS : number;
}

#endif
