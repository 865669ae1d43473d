/* What the header promises of null pointers, of areas that are too short, of scratches longer
   than needed, of inputs that are the same area, of series, of the tighter root test, of two
   proposals, of made ones, and of areas that need no alignment beyond their type's; all on the
   standard interval.  Exit status 0 when all holds. */
#include "expect.h"

#include <string.h>

static int32_t one[FERRUNTZO_MODEL_SIZE] = {0, S, STANDARD}, half[FERRUNTZO_MODEL_SIZE] = {0, S / 2, STANDARD};
static int32_t curve[FERRUNTZO_SERIES_SIZE] = {2, S, 0, 2 * S};      /* 1 + 2 x^2 */
static int32_t out[FERRUNTZO_MODEL_SIZE], work[FERRUNTZO_WORK_SIZE];
static int64_t scratch[FERRUNTZO_SCRATCH_SIZE], bounds[FERRUNTZO_BOUNDS_SIZE];
static uint64_t numbers[FERRUNTZO_NUMBERS_SIZE];
static uint32_t answer[FERRUNTZO_ANSWER_SIZE], selected[FERRUNTZO_SELECTION_SIZE];
/* h = w = 1, and h two units off. */
static int32_t exact[FERRUNTZO_PROPOSAL_SIZE] = {0, S, [FERRUNTZO_CANDIDATE_SIZE] = 0, S};
static int32_t rough[FERRUNTZO_PROPOSAL_SIZE] = {0, S + 2, [FERRUNTZO_CANDIDATE_SIZE] = 0, S};
static double record[FERRUNTZO_RECIPROCAL_RECORD_SIZE], records[FERRUNTZO_QUOTIENT_RECORD_SIZE];
static double values[FERRUNTZO_VALUES_SIZE];
static int32_t h[FERRUNTZO_CANDIDATE_SIZE], w[FERRUNTZO_CANDIDATE_SIZE];
static uint32_t outcome[FERRUNTZO_OUTCOME_SIZE];

/* A null pointer with length 0 is an empty area. */
static void null_pointers(void)
{
    EXPECT(ferruntzo_add(NONE, WHOLE(one), WHOLE(out)) == FERRUNTZO_SHORT_AREA);
    EXPECT(ferruntzo_add(WHOLE(one), NONE, WHOLE(out)) == FERRUNTZO_SHORT_AREA);
    EXPECT(ferruntzo_add(WHOLE(one), WHOLE(one), NONE) == FERRUNTZO_SHORT_AREA);
    EXPECT(ferruntzo_subtract(NONE, NONE, NONE) == FERRUNTZO_SHORT_AREA);
    EXPECT(ferruntzo_multiply(NONE, NONE, FERRUNTZO_MAX_DEGREE, NONE) == FERRUNTZO_SHORT_AREA);
    EXPECT(ferruntzo_integrate(NONE, NONE) == FERRUNTZO_SHORT_AREA);
    EXPECT(ferruntzo_integrate(WHOLE(one), NONE) == FERRUNTZO_SHORT_AREA);
    EXPECT(ferruntzo_from_series(NONE, NONE) == FERRUNTZO_SHORT_AREA);
    EXPECT(ferruntzo_from_series(WHOLE(curve), NONE) == FERRUNTZO_SHORT_AREA);
    EXPECT(ferruntzo_evaluate(NONE, 0, NONE) == FERRUNTZO_SHORT_AREA);
    EXPECT(ferruntzo_evaluate(WHOLE(one), 0, NONE) == FERRUNTZO_SHORT_AREA);
    EXPECT(ferruntzo_quotient(NONE, NONE, NONE, NONE, NONE, NONE, NONE) == FERRUNTZO_SHORT_AREA);
    EXPECT(ferruntzo_quotient(WHOLE(one), WHOLE(one), CANDIDATE(one), CANDIDATE(one), WHOLE(scratch),
                              WHOLE(out), NONE) == FERRUNTZO_SHORT_AREA);
    EXPECT(ferruntzo_quotient_of_two(NONE, NONE, NONE, NONE, NONE, NONE) == FERRUNTZO_SHORT_AREA);
    EXPECT(ferruntzo_quotient_of_two(WHOLE(one), WHOLE(one), NONE, NONE, WHOLE(scratch), WHOLE(selected))
           == FERRUNTZO_SHORT_AREA);
    EXPECT(ferruntzo_quotient_of_two(WHOLE(one), WHOLE(one), NONE, WHOLE(exact), WHOLE(scratch),
                                     WHOLE(selected)) == FERRUNTZO_ACCEPTED);
    EXPECT(selected[0] == FERRUNTZO_CHOSEN_SECOND && selected[1] == 0);
    EXPECT(ferruntzo_root(NONE, NONE, NONE, NONE, NONE, NONE) == FERRUNTZO_SHORT_AREA);
    EXPECT(ferruntzo_tight_root(NONE, NONE, NONE, NONE, NONE, NONE) == FERRUNTZO_SHORT_AREA);
    EXPECT(ferruntzo_tight_root(WHOLE(one), CANDIDATE(one), CANDIDATE(one), NONE, WHOLE(out), WHOLE(numbers))
           == FERRUNTZO_SHORT_AREA);
    EXPECT(ferruntzo_make_reciprocal(NONE, NONE, NONE, NONE) == FERRUNTZO_SHORT_AREA);
    EXPECT(ferruntzo_make_reciprocal(WHOLE(one), NONE, WHOLE(w), WHOLE(outcome)) == FERRUNTZO_SHORT_AREA);
    EXPECT(ferruntzo_make_quotient(NONE, NONE, NONE, NONE, NONE, NONE) == FERRUNTZO_SHORT_AREA);
    EXPECT(ferruntzo_make_quotient(WHOLE(one), WHOLE(one), WHOLE(records), WHOLE(h), WHOLE(w), NONE)
           == FERRUNTZO_SHORT_AREA);
    EXPECT(ferruntzo_to_units(NONE, NONE) == FERRUNTZO_SHORT_AREA);
    EXPECT(ferruntzo_to_units(WHOLE(values), NONE) == FERRUNTZO_SHORT_AREA);
    EXPECT(ferruntzo_check(NONE, NONE, NONE, NONE) == FERRUNTZO_SHORT_AREA);
    answer[0] = answer[1] = 9;
    EXPECT(ferruntzo_check(NONE, NONE, NONE, WHOLE(answer)) == FERRUNTZO_SHORT_AREA);
    EXPECT(answer[0] == 0 && answer[1] == 0);
    EXPECT(ferruntzo_check(NONE, WHOLE(work), WHOLE(scratch), WHOLE(answer)) == FERRUNTZO_JOB_ENDS);
}

/* Refusal 1 leaves zeros in every answer and in a test's scratch, where they are long enough. */
static void short_areas(void)
{
    bounds[0] = bounds[1] = 5;
    EXPECT(ferruntzo_evaluate(SHORT(one), 0, WHOLE(bounds)) == FERRUNTZO_SHORT_AREA);
    EXPECT(bounds[0] == 0 && bounds[1] == 0);
    bounds[0] = 5;
    EXPECT(ferruntzo_evaluate(WHOLE(one), 0, SHORT(bounds)) == FERRUNTZO_SHORT_AREA);
    EXPECT(bounds[0] == 5);
    out[1] = 7;
    EXPECT(ferruntzo_add(WHOLE(one), SHORT(one), WHOLE(out)) == FERRUNTZO_SHORT_AREA);
    EXPECT(out[1] == 0);
    out[1] = 7;
    EXPECT(ferruntzo_from_series(SHORT(curve), WHOLE(out)) == FERRUNTZO_SHORT_AREA && out[1] == 0);
    out[1] = 7;
    EXPECT(ferruntzo_from_series(WHOLE(curve), SHORT(out)) == FERRUNTZO_SHORT_AREA && out[1] == 7);
    scratch[FERRUNTZO_SCRATCH_SIZE - 1] = 7;
    numbers[2] = 7;
    out[1] = 7;
    EXPECT(ferruntzo_root(WHOLE(one), CANDIDATE(one), CANDIDATE(one), WHOLE(scratch), SHORT(out),
                          WHOLE(numbers)) == FERRUNTZO_SHORT_AREA);
    EXPECT(scratch[FERRUNTZO_SCRATCH_SIZE - 1] == 0 && numbers[2] == 0 && out[1] == 7);
    scratch[FERRUNTZO_SCRATCH_SIZE - 1] = 7;
    numbers[2] = 7;
    EXPECT(ferruntzo_tight_root(WHOLE(one), CANDIDATE(one), CANDIDATE(one), WHOLE(scratch), WHOLE(out),
                                SHORT(numbers)) == FERRUNTZO_SHORT_AREA);
    EXPECT(scratch[FERRUNTZO_SCRATCH_SIZE - 1] == 0 && numbers[2] == 7 && out[1] == 0);
    work[0] = 7;
    scratch[0] = 7;
    EXPECT(ferruntzo_check(NONE, WHOLE(work), SHORT(scratch), WHOLE(answer)) == FERRUNTZO_SHORT_AREA);
    EXPECT(work[0] == 7 && scratch[0] == 7);
}

/* Whether a scratch that held 1, 2, 3 .. has so many zeros and the rest as it was; fills it again. */
static int cleared(int64_t *held, size_t length, size_t zeros)
{
    int same = 1;
    for (size_t i = 0; i < length; i++) {
        same = same && held[i] == (i < zeros ? 0 : (int64_t)i + 1);
        held[i] = (int64_t)i + 1;
    }
    return same;
}

/* A scratch is long enough from 16 numbers on, and those behind the 16 stay. */
static void scratches(void)
{
    static int64_t held[66];
    cleared(WHOLE(held), 0);
    for (size_t length = 0; length <= COUNT(held); length++) {
        int fits = length >= 16;
        size_t zeros = fits ? 16 : 0;
        EXPECT(ferruntzo_quotient(WHOLE(one), WHOLE(one), CANDIDATE(one), CANDIDATE(one), held, length,
                                  WHOLE(out), WHOLE(numbers)) == (fits ? 0 : FERRUNTZO_SHORT_AREA));
        EXPECT(out[1] == (fits ? S : 0) && cleared(WHOLE(held), zeros));
        EXPECT(ferruntzo_root(WHOLE(one), CANDIDATE(one), CANDIDATE(one), held, length, WHOLE(out),
                              WHOLE(numbers)) == (fits ? FERRUNTZO_NOT_CONTRACTING : FERRUNTZO_SHORT_AREA));
        EXPECT(cleared(WHOLE(held), zeros));
        EXPECT(ferruntzo_tight_root(WHOLE(one), CANDIDATE(one), CANDIDATE(half), held, length, WHOLE(out),
                                    WHOLE(numbers)) == (fits ? 0 : FERRUNTZO_SHORT_AREA));
        EXPECT(out[1] == (fits ? S : 0) && cleared(WHOLE(held), zeros));
        EXPECT(ferruntzo_quotient_of_two(WHOLE(one), WHOLE(one), WHOLE(rough), WHOLE(exact), held, length,
                                         WHOLE(selected)) == (fits ? 0 : FERRUNTZO_SHORT_AREA));
        EXPECT(selected[0] == (fits ? FERRUNTZO_CHOSEN_SECOND : FERRUNTZO_CHOSEN_NONE));
        EXPECT(cleared(WHOLE(held), zeros));
        EXPECT(ferruntzo_check(NONE, WHOLE(work), held, length, WHOLE(answer))
               == (fits ? FERRUNTZO_JOB_ENDS : FERRUNTZO_SHORT_AREA));
        EXPECT(cleared(WHOLE(held), zeros));
    }
}

/* Areas that are only read may be the same. */
static void same_inputs(void)
{
    EXPECT(ferruntzo_add(WHOLE(one), WHOLE(one), WHOLE(out)) == 0 && out[1] == 2 * S);
    EXPECT(ferruntzo_subtract(WHOLE(one), WHOLE(one), WHOLE(out)) == 0 && out[1] == 0);
    EXPECT(ferruntzo_multiply(WHOLE(one), WHOLE(one), FERRUNTZO_MAX_DEGREE, WHOLE(out)) == 0);
    EXPECT(out[1] == S);
    EXPECT(ferruntzo_quotient(WHOLE(one), WHOLE(one), CANDIDATE(one), CANDIDATE(one), WHOLE(scratch),
                              WHOLE(out), WHOLE(numbers)) == 0);
    EXPECT(out[1] == S && out[FERRUNTZO_PLACE_RADIUS] == 0 && numbers[0] == 0 && numbers[1] == 0);
}

/* What the tighter root test answers for constants: the radius, or minus the refusal. */
static int32_t tighter(int32_t f, int32_t e, int32_t h, int32_t w)
{
    int32_t under[FERRUNTZO_MODEL_SIZE] = {0, f, [FERRUNTZO_PLACE_RADIUS] = e, STANDARD};
    int32_t candidate[FERRUNTZO_CANDIDATE_SIZE] = {0, h}, helper[FERRUNTZO_CANDIDATE_SIZE] = {0, w};
    uint32_t number = ferruntzo_tight_root(WHOLE(under), WHOLE(candidate), WHOLE(helper), WHOLE(scratch), WHOLE(out),
                                           WHOLE(numbers));
    EXPECT(out[1] == (number == 0 ? h : 0) && scratch[0] == 0);
    return number == 0 ? out[FERRUNTZO_PLACE_RADIUS] : -(int32_t)number;
}

/* The least radius: 0, a small one, that behind the last which the search looks at, S; and none, each refusal. */
static void tighter_roots(void)
{
    const int32_t most = FERRUNTZO_MAX_WEIGHT;
    EXPECT(tighter(4 * S, 0, 2 * S, S / 4) == 0);
    EXPECT(tighter(4 * S, 0, 2 * S + 100, S / 4) == 102);
    EXPECT(tighter(15783, 0, 133844, 5908123) == 26129);
    EXPECT(numbers[0] == 459693 && numbers[1] == 1302 && numbers[2] == 7337);
    EXPECT(tighter(6366, 3182, 81708, 716408) == 40854);
    EXPECT(tighter(6553600, 3 * S, 5 * S / 2, 1) == S);
    EXPECT(tighter(6553600, 3 * S + 1, 5 * S / 2, 1) == -FERRUNTZO_NO_RADIUS);
    EXPECT(tighter(4, 1 << 16, 2048, most) == -FERRUNTZO_NO_RADIUS);
    EXPECT(tighter(224 * S, 0, 16 * S, S / 32) == -FERRUNTZO_NO_RADIUS && numbers[2] == 0);
    EXPECT(tighter(4 * S, -1, 2 * S, S / 4) == -FERRUNTZO_BAD_MODEL);
    EXPECT(tighter(4 * S, 0, -2 * S, -S / 4) == -FERRUNTZO_HELPER_NOT_POSITIVE);
    EXPECT(tighter(4 * S, 0, 2 * S, S) == -FERRUNTZO_NOT_CONTRACTING);
    EXPECT(tighter(-most, 0, 2 * S, S / 4) == -FERRUNTZO_LARGE_RESIDUAL);
    EXPECT(ferruntzo_tight_root(WHOLE(one), CANDIDATE(one), CANDIDATE(half), WHOLE(scratch), WHOLE(out), WHOLE(numbers)) == 0);
    EXPECT(out[1] == S && out[FERRUNTZO_PLACE_RADIUS] == 0);
}

/* A series: accepted, 14 by each of its grounds, 3 by rounding alone. */
static void power_series(void)
{
    int32_t grown[FERRUNTZO_SERIES_SIZE] = {29, 199};
    int32_t bad[FERRUNTZO_SERIES_SIZE] = {FERRUNTZO_MAX_DEGREE + 1};
    EXPECT(ferruntzo_from_series(WHOLE(curve), WHOLE(out)) == 0);
    EXPECT(out[0] == 2 && out[1] == 2 * S && out[2] == 0 && out[3] == S);
    EXPECT(out[FERRUNTZO_PLACE_RADIUS] == 0);
    EXPECT(ferruntzo_from_series(WHOLE(bad), WHOLE(out)) == FERRUNTZO_BAD_SERIES && out[0] == 0);
    bad[0] = -1;
    EXPECT(ferruntzo_from_series(WHOLE(bad), WHOLE(out)) == FERRUNTZO_BAD_SERIES);
    bad[0] = 0;
    EXPECT(ferruntzo_from_series(WHOLE(bad), WHOLE(out)) == FERRUNTZO_ACCEPTED);
    bad[FERRUNTZO_SERIES_SIZE - 1] = 1;
    EXPECT(ferruntzo_from_series(WHOLE(bad), WHOLE(out)) == FERRUNTZO_BAD_SERIES);
    grown[1 + 29] = FERRUNTZO_MAX_WEIGHT - 199;
    out[1] = 7;
    EXPECT(ferruntzo_from_series(WHOLE(grown), WHOLE(out)) == FERRUNTZO_LARGE_RESULT && out[1] == 0);
    grown[1] = 200;
    EXPECT(ferruntzo_from_series(WHOLE(grown), WHOLE(out)) == FERRUNTZO_BAD_SERIES);
    grown[1] = 197;
    EXPECT(ferruntzo_from_series(WHOLE(grown), WHOLE(out)) == FERRUNTZO_ACCEPTED && out[0] == 29);
}

/* Whether a call with f = g = 1 answers this and leaves scratch at zero, and 9 behind answer. */
static int selects(const int32_t *first, size_t first_len, const int32_t *second, size_t second_len,
                   uint32_t number, uint32_t chosen, uint32_t radius)
{
    uint32_t given[FERRUNTZO_SELECTION_SIZE + 1] = {9, 9, 9};
    for (size_t i = 0; i < COUNT(scratch); i++)
        scratch[i] = 7;
    if (ferruntzo_quotient_of_two(WHOLE(one), WHOLE(one), first, first_len, second, second_len,
                                  WHOLE(scratch), WHOLE(given)) != number)
        return 0;
    for (size_t i = 0; i < COUNT(scratch); i++)
        if (scratch[i] != 0)
            return 0;
    return given[0] == chosen && given[1] == radius && given[FERRUNTZO_SELECTION_SIZE] == 9;
}

/* Each proposal is tested by itself; both may be one area, or overlap. */
static void two_proposals(void)
{
    enum { NEITHER = FERRUNTZO_CHOSEN_NONE, FIRST = FERRUNTZO_CHOSEN_FIRST, SECOND = FERRUNTZO_CHOSEN_SECOND };
    static int32_t bad[FERRUNTZO_PROPOSAL_SIZE] = {-1};
    static int32_t room[FERRUNTZO_PROPOSAL_SIZE + FERRUNTZO_CANDIDATE_SIZE];
    EXPECT(selects(WHOLE(exact), WHOLE(rough), 0, FIRST, 0));
    EXPECT(selects(WHOLE(rough), WHOLE(exact), 0, SECOND, 0));
    EXPECT(selects(WHOLE(rough), WHOLE(rough), 0, FIRST, 2));
    EXPECT(selects(WHOLE(bad), WHOLE(rough), 0, SECOND, 2));
    EXPECT(selects(WHOLE(rough), WHOLE(bad), 0, FIRST, 2));
    EXPECT(selects(SHORT(exact), WHOLE(rough), 0, SECOND, 2));
    EXPECT(selects(WHOLE(rough), SHORT(exact), 0, FIRST, 2));
    EXPECT(selects(WHOLE(rough), NONE, 0, FIRST, 2));
    EXPECT(selects(SHORT(exact), SHORT(exact), FERRUNTZO_SHORT_AREA, NEITHER, 0));
    EXPECT(selects(NONE, WHOLE(bad), FERRUNTZO_SHORT_AREA, NEITHER, 0));
    EXPECT(selects(WHOLE(bad), NONE, FERRUNTZO_BAD_MODEL, NEITHER, 0));
    EXPECT(exact[1] == S && rough[1] == S + 2 && rough[FERRUNTZO_CANDIDATE_SIZE + 1] == S);

    /* Three candidates in a row: the middle one is w of the first proposal and h of the second. */
    for (int i = 0; i < 3; i++)
        memcpy(room + FERRUNTZO_CANDIDATE_SIZE * i, exact, FERRUNTZO_CANDIDATE_SIZE * sizeof *room);
    room[1] = S + 3;
    EXPECT(selects(room, FERRUNTZO_PROPOSAL_SIZE, room + FERRUNTZO_CANDIDATE_SIZE, FERRUNTZO_PROPOSAL_SIZE,
                   0, SECOND, 0));
    EXPECT(selects(WHOLE(room), room + FERRUNTZO_CANDIDATE_SIZE, FERRUNTZO_PROPOSAL_SIZE - 1, 0, FIRST, 3));

    /* 1 of the call itself. */
    selected[0] = selected[1] = 9;
    scratch[0] = 7;
    EXPECT(ferruntzo_quotient_of_two(WHOLE(one), SHORT(one), WHOLE(exact), WHOLE(exact), WHOLE(scratch),
                                     WHOLE(selected)) == FERRUNTZO_SHORT_AREA);
    EXPECT(selected[0] == 0 && selected[1] == 0 && scratch[0] == 0);
    selected[0] = 9;
    scratch[0] = 7;
    EXPECT(ferruntzo_quotient_of_two(WHOLE(one), WHOLE(one), WHOLE(exact), WHOLE(exact), WHOLE(scratch),
                                     SHORT(selected)) == FERRUNTZO_SHORT_AREA);
    EXPECT(selected[0] == 9 && scratch[0] == 0);
    scratch[0] = 7;
    EXPECT(ferruntzo_quotient_of_two(WHOLE(one), WHOLE(one), WHOLE(exact), WHOLE(exact), SHORT(scratch),
                                     WHOLE(selected)) == FERRUNTZO_SHORT_AREA);
    EXPECT(selected[0] == 0 && scratch[0] == 7);
}

/* Whether so many numbers are +0.0: every bit of them is 0. */
static int zeros(const double *list, size_t length)
{
    static const double zero[FERRUNTZO_QUOTIENT_RECORD_SIZE];
    return memcmp(list, zero, length * sizeof *list) == 0;
}

/* Puts something into every area of the makers. */
static void fill(void)
{
    memset(record, 0xFF, sizeof record);        /* NaNs */
    memset(records, 0xFF, sizeof records);
    memset(h, 0x77, sizeof h);
    memset(w, 0x77, sizeof w);
    outcome[0] = 9;
}

/* Whether 1/g is refused with this number and all areas are zero. */
static int refuses(const int32_t *g, uint32_t number)
{
    fill();
    return ferruntzo_make_reciprocal(g, FERRUNTZO_MODEL_SIZE, WHOLE(record), WHOLE(w), WHOLE(outcome)) == number
           && zeros(record, COUNT(record)) && w[0] == 0 && w[1] == 0 && outcome[0] == FERRUNTZO_GIVEN_UP;
}

/* Reciprocals: settled, given up, and each refusal; settled, but refused by the test. */
static void made_reciprocals(void)
{
    int32_t g[FERRUNTZO_MODEL_SIZE] = {0, 2 * S, STANDARD};
    fill();
    EXPECT(ferruntzo_make_reciprocal(WHOLE(g), WHOLE(record), WHOLE(w), WHOLE(outcome)) == 0);
    EXPECT(record[0] == 0.5 && zeros(record + 1, COUNT(record) - 1) && outcome[0] == FERRUNTZO_SETTLED);
    EXPECT(w[0] == FERRUNTZO_MAX_DEGREE && w[1] == S / 2 && w[2] == 0 && w[FERRUNTZO_COEFFICIENTS] == 0);
    g[1] = 4095;
    EXPECT(refuses(g, FERRUNTZO_LARGE_PROPOSAL));
    g[1] = 0;
    EXPECT(refuses(g, FERRUNTZO_NOT_FINITE));
    g[0] = 1, g[1] = 1, g[2] = S;
    EXPECT(refuses(g, FERRUNTZO_NOT_FINITE));
    g[0] = -1;
    EXPECT(refuses(g, FERRUNTZO_BAD_MODEL));
    g[0] = 1, g[1] = S, g[2] = 15 * S / 16;     /* 12 rounds are not enough */
    EXPECT(ferruntzo_make_reciprocal(WHOLE(g), WHOLE(record), WHOLE(w), WHOLE(outcome)) == 0);
    EXPECT(outcome[0] == FERRUNTZO_GIVEN_UP && record[FERRUNTZO_COEFFICIENTS] > 0 && w[0] == FERRUNTZO_MAX_DEGREE);
    EXPECT(w[1] > S);
    g[0] = 31, g[2] = 0, g[32] = S;             /* 1 + T_31 vanishes at -1 */
    EXPECT(ferruntzo_make_reciprocal(WHOLE(g), WHOLE(record), WHOLE(w), WHOLE(outcome)) == 0);
    EXPECT(outcome[0] == FERRUNTZO_SETTLED && record[FERRUNTZO_COEFFICIENTS] == 1 / 2147483648.0);
    EXPECT(ferruntzo_quotient(WHOLE(one), WHOLE(g), WHOLE(w), WHOLE(w), WHOLE(scratch), WHOLE(out), WHOLE(numbers))
           == FERRUNTZO_NOT_CONTRACTING);
}

/* Quotients: what is made passes the test; f may be g; refusals 2, 15 and 16; short areas. */
static void made_quotients(void)
{
    int32_t f[FERRUNTZO_MODEL_SIZE] = {1, 3 * S, S, STANDARD}, g[FERRUNTZO_MODEL_SIZE] = {1, 2 * S, S, STANDARD};
    fill();
    EXPECT(ferruntzo_make_quotient(WHOLE(f), WHOLE(g), WHOLE(records), WHOLE(h), WHOLE(w), WHOLE(outcome)) == 0);
    EXPECT(outcome[0] == FERRUNTZO_SETTLED && records[COUNT(records) - 1] < 1 / 16777216.0);
    EXPECT(ferruntzo_to_units(records, FERRUNTZO_VALUES_SIZE, WHOLE(out)) == 0 && memcmp(out, h, sizeof h) == 0);
    EXPECT(ferruntzo_to_units(records + FERRUNTZO_VALUES_SIZE, FERRUNTZO_VALUES_SIZE, WHOLE(out)) == 0);
    EXPECT(memcmp(out, w, sizeof w) == 0);
    EXPECT(ferruntzo_quotient(WHOLE(f), WHOLE(g), WHOLE(h), WHOLE(w), WHOLE(scratch), WHOLE(out), WHOLE(numbers)) == 0);
    EXPECT(out[FERRUNTZO_PLACE_RADIUS] < 100);
    EXPECT(ferruntzo_make_quotient(WHOLE(g), WHOLE(g), WHOLE(records), WHOLE(h), WHOLE(w), WHOLE(outcome)) == 0);
    EXPECT(h[1] == S && h[2] == 0);
    f[0] = FERRUNTZO_MAX_DEGREE + 1;
    fill();
    EXPECT(ferruntzo_make_quotient(WHOLE(f), WHOLE(g), WHOLE(records), WHOLE(h), WHOLE(w), WHOLE(outcome))
           == FERRUNTZO_BAD_MODEL);
    EXPECT(zeros(WHOLE(records)) && h[0] == 0 && w[0] == 0 && outcome[0] == FERRUNTZO_GIVEN_UP);
    f[0] = 1, f[1] = FERRUNTZO_MAX_WEIGHT, f[2] = 0, g[1] = S, g[2] = 1248179;
    EXPECT(ferruntzo_make_quotient(WHOLE(f), WHOLE(g), WHOLE(records), WHOLE(h), WHOLE(w), WHOLE(outcome))
           == FERRUNTZO_NOT_FINITE);            /* f times w, before 16 of w */
    f[1] = S;
    EXPECT(ferruntzo_make_quotient(WHOLE(f), WHOLE(g), WHOLE(records), WHOLE(h), WHOLE(w), WHOLE(outcome))
           == FERRUNTZO_LARGE_PROPOSAL);
    fill();
    EXPECT(ferruntzo_make_quotient(WHOLE(f), WHOLE(g), WHOLE(records), SHORT(h), WHOLE(w), WHOLE(outcome))
           == FERRUNTZO_SHORT_AREA);
    EXPECT(zeros(WHOLE(records)) && h[0] != 0 && w[0] == 0 && w[33] == 0 && outcome[0] == FERRUNTZO_GIVEN_UP);
    fill();
    EXPECT(ferruntzo_make_quotient(SHORT(f), WHOLE(g), SHORT(records), WHOLE(h), WHOLE(w), outcome, 0)
           == FERRUNTZO_SHORT_AREA);
    EXPECT(!zeros(records, 1) && h[0] == 0 && w[0] == 0 && outcome[0] == 9);
    fill();
    EXPECT(ferruntzo_make_reciprocal(WHOLE(g), SHORT(record), SHORT(w), WHOLE(outcome)) == FERRUNTZO_SHORT_AREA);
    EXPECT(!zeros(record, 1) && w[0] != 0 && outcome[0] == FERRUNTZO_GIVEN_UP);
}

/* Values in units: ties to the even number, the limit, 15 and 16. */
static void values_in_units(void)
{
    const double unit = 1.0 / S;
    values[0] = 2.5 * unit, values[1] = -3.5 * unit, values[2] = -0.5 * unit, values[32] = 0.75 * unit;
    EXPECT(ferruntzo_to_units(WHOLE(values), WHOLE(h)) == 0);
    EXPECT(h[0] == FERRUNTZO_MAX_DEGREE && h[1] == 2 && h[2] == -4 && h[3] == 0 && h[33] == 1);
    values[0] = 256 - 5 * unit;
    EXPECT(ferruntzo_to_units(WHOLE(values), WHOLE(h)) == 0 && h[1] == FERRUNTZO_MAX_WEIGHT - 5);
    values[0] = 256 - 4 * unit;
    EXPECT(ferruntzo_to_units(WHOLE(values), WHOLE(h)) == FERRUNTZO_LARGE_PROPOSAL && h[0] == 0 && h[1] == 0);
    values[32] = values[0] / values[3];         /* infinite */
    EXPECT(ferruntzo_to_units(WHOLE(values), WHOLE(h)) == FERRUNTZO_NOT_FINITE && h[0] == 0);
    values[32] = values[32] - values[32];       /* a NaN */
    EXPECT(ferruntzo_to_units(WHOLE(values), WHOLE(h)) == FERRUNTZO_NOT_FINITE);
    h[0] = 7;
    EXPECT(ferruntzo_to_units(SHORT(values), WHOLE(h)) == FERRUNTZO_SHORT_AREA && h[0] == 0);
    h[0] = 7;
    EXPECT(ferruntzo_to_units(WHOLE(values), SHORT(h)) == FERRUNTZO_SHORT_AREA && h[0] == 7);
}

/* Models and candidates may stand at any multiple of 4, long numbers and doubles at any multiple of 8. */
static void alignment(void)
{
    static int32_t room[2 * FERRUNTZO_MODEL_SIZE + 3];
    static int64_t wide[FERRUNTZO_SCRATCH_SIZE + 3];
    static int32_t pair[FERRUNTZO_PROPOSAL_SIZE + 3];
    static uint32_t given[FERRUNTZO_SELECTION_SIZE + 3];
    static double made[FERRUNTZO_QUOTIENT_RECORD_SIZE + 3];
    const size_t size = FERRUNTZO_MODEL_SIZE;
    for (int shift = 0; shift < 4; shift++) {
        int32_t *a = room + shift, *b = a + size;
        memcpy(a, one, sizeof one);
        EXPECT(ferruntzo_multiply(a, size, a, size, FERRUNTZO_MAX_DEGREE, b, size) == 0 && b[1] == S);
        EXPECT(ferruntzo_from_series(CANDIDATE(a), b, size) == 0 && b[1] == S);
        EXPECT(ferruntzo_evaluate(a, size, S, wide + shift, FERRUNTZO_BOUNDS_SIZE) == 0);
        EXPECT(wide[shift] == S);
        EXPECT(ferruntzo_root(a, size, CANDIDATE(a), CANDIDATE(out), wide + shift,
                              FERRUNTZO_SCRATCH_SIZE, b, size, WHOLE(numbers))
               != FERRUNTZO_SHORT_AREA);
        EXPECT(ferruntzo_tight_root(a, size, CANDIDATE(a), CANDIDATE(half), wide + shift, FERRUNTZO_SCRATCH_SIZE, b, size,
                                    WHOLE(numbers)) == 0);
        EXPECT(b[1] == S && b[FERRUNTZO_PLACE_RADIUS] == 0);
        memcpy(pair + shift, exact, sizeof exact);
        EXPECT(ferruntzo_quotient_of_two(a, size, a, size, WHOLE(rough), pair + shift, COUNT(exact),
                                         wide + shift, FERRUNTZO_SCRATCH_SIZE, given + shift,
                                         FERRUNTZO_SELECTION_SIZE) == 0);
        EXPECT(given[shift] == FERRUNTZO_CHOSEN_SECOND && given[shift + 1] == 0);
        EXPECT(ferruntzo_make_quotient(a, size, a, size, made + shift, FERRUNTZO_QUOTIENT_RECORD_SIZE, CANDIDATE(b),
                                       pair + shift, FERRUNTZO_CANDIDATE_SIZE, given + shift, FERRUNTZO_OUTCOME_SIZE) == 0);
        EXPECT(made[shift] == 1 && b[1] == S && pair[shift + 1] == S && given[shift] == FERRUNTZO_SETTLED);
        EXPECT(ferruntzo_to_units(made + shift, FERRUNTZO_VALUES_SIZE, CANDIDATE(b)) == 0 && b[1] == S);
    }
}

int main(void)
{
    null_pointers();
    short_areas();
    scratches();
    same_inputs();
    tighter_roots();
    power_series();
    two_proposals();
    made_reciprocals();
    made_quotients();
    values_in_units();
    alignment();
    EXPECT(ferruntzo_evaluate(WHOLE(one), 0, WHOLE(bounds)) == 0 && bounds[0] == S && bounds[1] == S);
    return failures != 0;
}
