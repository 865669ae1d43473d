/* What the header promises of intervals: names and sizes, 18 and 19 at their places in every entry,
   the ends of every result, integrals and evaluations on an interval, command 0x14, and the
   zero model of a refusal as an operand.  Exit status 0 when all holds. */
#include "expect.h"

#include <string.h>

#define MOST FERRUNTZO_MAX_END
#define LOWER FERRUNTZO_PLACE_LOWER
#define UPPER FERRUNTZO_PLACE_UPPER

static int32_t out[FERRUNTZO_MODEL_SIZE], work[FERRUNTZO_WORK_SIZE];
static int64_t scratch[FERRUNTZO_SCRATCH_SIZE], bounds[FERRUNTZO_BOUNDS_SIZE];
static uint64_t numbers[FERRUNTZO_NUMBERS_SIZE];
static uint32_t answer[FERRUNTZO_ANSWER_SIZE], selected[FERRUNTZO_SELECTION_SIZE];
static double record[FERRUNTZO_RECIPROCAL_RECORD_SIZE], records[FERRUNTZO_QUOTIENT_RECORD_SIZE];
static int32_t h[FERRUNTZO_CANDIDATE_SIZE], w[FERRUNTZO_CANDIDATE_SIZE];
static uint32_t outcome[FERRUNTZO_OUTCOME_SIZE];
/* h = w = 1, for 1/1. */
static const int32_t unit[FERRUNTZO_CANDIDATE_SIZE] = {0, S};
static const int32_t proposal[FERRUNTZO_PROPOSAL_SIZE] = {0, S, [FERRUNTZO_CANDIDATE_SIZE] = 0, S};

static void names(void)
{
    /* The three numbers, the text, and what the library answers at run time are one version. */
    char version[32];
    sprintf(version, "%d.%d.%d", FERRUNTZO_VERSION_MAJOR, FERRUNTZO_VERSION_MINOR, FERRUNTZO_VERSION_PATCH);
    EXPECT(strcmp(FERRUNTZO_VERSION, version) == 0 && FERRUNTZO_VERSION_MAJOR == 5);
    EXPECT(ferruntzo_version() == FERRUNTZO_VERSION_NUMBER);
    EXPECT(FERRUNTZO_MODEL_SIZE == 37 && FERRUNTZO_WORK_SIZE == 37 * FERRUNTZO_MAX_RESULTS);
    EXPECT(FERRUNTZO_CANDIDATE_SIZE == 34 && FERRUNTZO_PROPOSAL_SIZE == 68 && FERRUNTZO_BLOCK_BYTES == 133);
    EXPECT(FERRUNTZO_PLACE_RADIUS == 34 && LOWER == 35 && UPPER == 36);
    EXPECT(MOST == 1 << 28 && FERRUNTZO_COMMAND_LOAD_ON == 0x14 && FERRUNTZO_MAX_JOB_BYTES == 8488);
    EXPECT(FERRUNTZO_BAD_ENDS == 18 && FERRUNTZO_DIFFERENT_INTERVALS == 19);
}

/* Whether every entry that takes models answers this for constants f and g, h and w being 1.  Where
   it is 0, whether each result has the ends of f; otherwise, whether out is zero. */
static int all_answer(const int32_t *f, const int32_t *g, uint32_t number)
{
    const size_t size = FERRUNTZO_MODEL_SIZE;
    const int32_t lower = number == 0 ? f[LOWER] : 0, upper = number == 0 ? f[UPPER] : 0;
    int same = 1;
#define ANSWERS(call) (memset(out, 0x77, sizeof out), (call) == number && out[LOWER] == lower && out[UPPER] == upper)
    same &= ANSWERS(ferruntzo_add(f, size, g, size, WHOLE(out)));
    same &= ANSWERS(ferruntzo_subtract(f, size, g, size, WHOLE(out)));
    same &= ANSWERS(ferruntzo_multiply(f, size, g, size, 0, WHOLE(out)));
    same &= ANSWERS(ferruntzo_quotient(f, size, g, size, WHOLE(unit), WHOLE(unit), WHOLE(scratch), WHOLE(out),
                                       WHOLE(numbers)));
    same &= ferruntzo_quotient_of_two(f, size, g, size, WHOLE(proposal), NONE, WHOLE(scratch), WHOLE(selected)) == number;
    same &= ferruntzo_make_quotient(f, size, g, size, WHOLE(records), WHOLE(h), WHOLE(w), WHOLE(outcome)) == number;
    return same;
}

/* The same of the entries that take one model, with the helper w = 1/2 of a root. */
static int each_answers(const int32_t *f, uint32_t number)
{
    const size_t size = FERRUNTZO_MODEL_SIZE;
    const int32_t lower = number == 0 ? f[LOWER] : 0, upper = number == 0 ? f[UPPER] : 0;
    static const int32_t half[FERRUNTZO_CANDIDATE_SIZE] = {0, S / 2};
    int same = 1;
    same &= ANSWERS(ferruntzo_integrate(f, size, WHOLE(out)));
    same &= ANSWERS(ferruntzo_root(f, size, WHOLE(unit), WHOLE(half), WHOLE(scratch), WHOLE(out), WHOLE(numbers)));
    same &= ANSWERS(ferruntzo_tight_root(f, size, WHOLE(unit), WHOLE(half), WHOLE(scratch), WHOLE(out), WHOLE(numbers)));
    same &= ferruntzo_evaluate(f, size, f[LOWER], WHOLE(bounds)) == number;
    same &= ferruntzo_make_reciprocal(f, size, WHOLE(record), WHOLE(w), WHOLE(outcome)) == number;
    return same;
}

/* 18: l = u, l > u, and an end beyond its limit; up to the limits all is accepted. */
static void ends(void)
{
    static const int32_t good[][2] = {{-S, S}, {0, 1}, {MOST - 1, MOST}, {-MOST, 1 - MOST}, {-3, -1}};
    static const int32_t bad[][2] = {{0, 0}, {S, S}, {1, 0}, {S, -S}, {-MOST - 1, 0}, {0, MOST + 1}, {-MOST - 1, MOST + 1},
                                     {INT32_MIN, INT32_MAX}, {INT32_MAX, INT32_MIN}, {INT32_MIN, INT32_MIN}};
    int32_t f[FERRUNTZO_MODEL_SIZE] = {0, S, STANDARD}, g[FERRUNTZO_MODEL_SIZE] = {0, S, STANDARD};
    for (size_t i = 0; i < COUNT(good); i++) {
        memcpy(f + LOWER, good[i], sizeof good[i]);
        EXPECT(all_answer(f, f, 0) && each_answers(f, 0));
    }
    for (size_t i = 0; i < COUNT(bad); i++) {
        memcpy(f + LOWER, bad[i], sizeof bad[i]);
        EXPECT(all_answer(f, g, FERRUNTZO_BAD_ENDS) && all_answer(g, f, FERRUNTZO_BAD_ENDS));
        EXPECT(all_answer(f, f, FERRUNTZO_BAD_ENDS) && each_answers(f, FERRUNTZO_BAD_ENDS));
    }
    g[0] = -1;                                  /* 18 of the first model, then 2 of the second */
    EXPECT(all_answer(f, g, FERRUNTZO_BAD_ENDS) && all_answer(g, f, FERRUNTZO_BAD_MODEL));
    f[0] = FERRUNTZO_MAX_DEGREE + 1;            /* 2, then 18 of the same model */
    EXPECT(all_answer(f, f, FERRUNTZO_BAD_MODEL) && each_answers(f, FERRUNTZO_BAD_MODEL));
}

/* 19: intervals that differ at one end, or have one extent; behind every 2 and 18, before all else. */
static void different_intervals(void)
{
    static const int32_t others[][2] = {{-S, S + 1}, {-S + 1, S}, {0, 2 * S}, {-MOST, MOST}, {0, 1}};
    static const int32_t bad[FERRUNTZO_CANDIDATE_SIZE] = {-1}, zero[FERRUNTZO_CANDIDATE_SIZE] = {0};
    int32_t f[FERRUNTZO_MODEL_SIZE] = {0, S, STANDARD}, g[FERRUNTZO_MODEL_SIZE] = {0, S, STANDARD};
    EXPECT(all_answer(f, g, 0));
    for (size_t i = 0; i < COUNT(others); i++) {
        memcpy(g + LOWER, others[i], sizeof others[i]);
        EXPECT(all_answer(f, g, FERRUNTZO_DIFFERENT_INTERVALS) && all_answer(g, f, FERRUNTZO_DIFFERENT_INTERVALS));
    }
    EXPECT(ferruntzo_multiply(WHOLE(f), WHOLE(g), 33, WHOLE(out)) == FERRUNTZO_DIFFERENT_INTERVALS);
    EXPECT(ferruntzo_quotient(WHOLE(f), WHOLE(g), WHOLE(unit), WHOLE(zero), WHOLE(scratch), WHOLE(out), WHOLE(numbers))
           == FERRUNTZO_DIFFERENT_INTERVALS);   /* before 5 */
    EXPECT(ferruntzo_quotient(WHOLE(f), WHOLE(g), WHOLE(bad), WHOLE(zero), WHOLE(scratch), WHOLE(out), WHOLE(numbers))
           == FERRUNTZO_BAD_MODEL);
    EXPECT(ferruntzo_quotient(WHOLE(f), WHOLE(g), WHOLE(zero), WHOLE(bad), WHOLE(scratch), WHOLE(out), WHOLE(numbers))
           == FERRUNTZO_BAD_MODEL);
    for (int place = 0; place <= FERRUNTZO_CANDIDATE_SIZE; place += FERRUNTZO_CANDIDATE_SIZE) {
        int32_t spoiled[FERRUNTZO_PROPOSAL_SIZE];
        memcpy(spoiled, proposal, sizeof spoiled);
        spoiled[place] = -1;                    /* h, then w */
        EXPECT(ferruntzo_quotient_of_two(WHOLE(f), WHOLE(g), WHOLE(spoiled), WHOLE(proposal), WHOLE(scratch), WHOLE(selected))
               == FERRUNTZO_BAD_MODEL);
    }
    g[1] = 0;
    EXPECT(ferruntzo_make_quotient(WHOLE(f), WHOLE(g), WHOLE(records), WHOLE(h), WHOLE(w), WHOLE(outcome))
           == FERRUNTZO_DIFFERENT_INTERVALS);   /* before 15 */
    EXPECT(ferruntzo_quotient_of_two(WHOLE(f), WHOLE(g), SHORT(proposal), WHOLE(proposal), WHOLE(scratch), WHOLE(selected))
           == FERRUNTZO_SHORT_AREA);            /* of the first proposal, by itself */
    g[UPPER] = g[LOWER];
    EXPECT(ferruntzo_quotient_of_two(WHOLE(f), WHOLE(g), SHORT(proposal), WHOLE(proposal), WHOLE(scratch), WHOLE(selected))
           == FERRUNTZO_SHORT_AREA);
    EXPECT(ferruntzo_quotient(WHOLE(f), WHOLE(g), WHOLE(bad), WHOLE(bad), WHOLE(scratch), WHOLE(out), WHOLE(numbers))
           == FERRUNTZO_BAD_ENDS);
}

/* The integral from the lower end: of 1 over 0..S it is x; the radius is rounded up; and 3 by a coefficient of 2^36. */
static void integrals(void)
{
    int32_t f[FERRUNTZO_MODEL_SIZE] = {0, S, ON(0, S)};
    EXPECT(ferruntzo_integrate(WHOLE(f), WHOLE(out)) == 0);
    EXPECT(out[0] == 1 && out[1] == S / 2 && out[2] == S / 2 && out[FERRUNTZO_PLACE_RADIUS] == 1);
    f[FERRUNTZO_PLACE_RADIUS] = 3;
    EXPECT(ferruntzo_integrate(WHOLE(f), WHOLE(out)) == 0 && out[FERRUNTZO_PLACE_RADIUS] == 4);
    f[UPPER] = 1;
    EXPECT(ferruntzo_integrate(WHOLE(f), WHOLE(out)) == 0 && out[FERRUNTZO_PLACE_RADIUS] == 2);
    EXPECT(out[1] == 0 && out[2] == 0 && out[LOWER] == 0 && out[UPPER] == 1);      /* 1/2 goes to the even number */
    f[1] = MOST, f[LOWER] = -MOST, f[UPPER] = MOST, f[FERRUNTZO_PLACE_RADIUS] = 0;
    EXPECT(ferruntzo_integrate(WHOLE(f), WHOLE(out)) == FERRUNTZO_LARGE_RESULT && out[1] == 0);
}

/* Whether these are the bounds at p. */
static int bounded(const int32_t *f, int32_t p, int64_t low, int64_t high)
{
    return ferruntzo_evaluate(f, FERRUNTZO_MODEL_SIZE, p, WHOLE(bounds)) == 0 && bounds[0] == low && bounds[1] == high;
}

/* T_1 at exact points, at rounded ones and their mirrors, at ties, and outside. */
static void evaluations(void)
{
    int32_t f[FERRUNTZO_MODEL_SIZE] = {1, 0, S, ON(0, 3)}, mirrored[FERRUNTZO_MODEL_SIZE] = {1, 0, -S, ON(0, 3)};
    EXPECT(bounded(f, 0, -S, -S) && bounded(f, 3, S, S));
    EXPECT(bounded(f, 1, -349526, -349524) && bounded(f, 2, 349524, 349526));
    EXPECT(bounded(mirrored, 2, -349526, -349524) && bounded(mirrored, 1, 349524, 349526));
    EXPECT(ferruntzo_evaluate(WHOLE(f), -1, WHOLE(bounds)) == FERRUNTZO_POINT_OUTSIDE && bounds[1] == 0);
    EXPECT(ferruntzo_evaluate(WHOLE(f), 4, WHOLE(bounds)) == FERRUNTZO_POINT_OUTSIDE);
    f[LOWER] = -MOST, f[UPPER] = MOST;          /* p/256 is rounded */
    EXPECT(bounded(f, 256, 1, 1) && bounded(f, 128, -1, 1) && bounded(f, 384, 1, 3) && bounded(f, -384, -3, -1));
    EXPECT(bounded(f, MOST, S, S) && bounded(f, -MOST, -S, -S));
    EXPECT(ferruntzo_evaluate(WHOLE(f), MOST + 1, WHOLE(bounds)) == FERRUNTZO_POINT_OUTSIDE);
}

/* A series has the ends -S and S. */
static void series(void)
{
    static const int32_t line[FERRUNTZO_SERIES_SIZE] = {1, 0, S};
    EXPECT(ferruntzo_from_series(WHOLE(line), WHOLE(out)) == 0);
    EXPECT(out[2] == S && out[LOWER] == -S && out[UPPER] == S);
}

/* What a refused call leaves in out is refused as an operand. */
static void zero_models(void)
{
    static const int32_t f[FERRUNTZO_MODEL_SIZE] = {0, MOST, STANDARD};
    int32_t left[FERRUNTZO_MODEL_SIZE];
    EXPECT(ferruntzo_add(WHOLE(f), WHOLE(f), WHOLE(left)) == FERRUNTZO_LARGE_RESULT);
    EXPECT(left[LOWER] == 0 && left[UPPER] == 0);
    EXPECT(all_answer(left, left, FERRUNTZO_BAD_ENDS) && each_answers(left, FERRUNTZO_BAD_ENDS));
}

/* ---- Jobs ---- */

static uint8_t job[FERRUNTZO_MAX_JOB_BYTES];
static size_t job_len;

static void put_number(int32_t number)
{
    for (int shift = 0; shift < 32; shift += 8)
        job[job_len++] = (uint8_t)((uint32_t)number >> shift);
}

/* The constant c. */
static void put_block(int32_t c)
{
    job[job_len++] = 0;
    put_number(c);
    for (int k = 1; k < FERRUNTZO_COEFFICIENTS; k++)
        put_number(0);
}

static void begin(void)
{
    job_len = 0;
    job[job_len++] = FERRUNTZO_COMMAND_EDITION;
    job[job_len++] = 1;
}

static void load_on(int32_t c, int32_t radius, int32_t lower, int32_t upper)
{
    job[job_len++] = FERRUNTZO_COMMAND_LOAD_ON;
    put_block(c);
    put_number(radius);
    put_number(lower);
    put_number(upper);
}

static void name_two(uint8_t command, uint8_t i, uint8_t j)
{
    job[job_len++] = command;
    job[job_len++] = i;
    job[job_len++] = j;
}

/* Whether the job, ended, has this refusal and answer[0], or the command in answer[1]. */
static int checked(uint32_t number, uint32_t told)
{
    job[job_len++] = FERRUNTZO_COMMAND_END;
    return ferruntzo_check(job, job_len, WHOLE(work), WHOLE(scratch), WHOLE(answer)) == number
           && answer[number != 0] == told && answer[number == 0] == 0;
}

/* Whether result i has these ends. */
static int stands_on(uint32_t i, int32_t lower, int32_t upper)
{
    const int32_t *result = work + FERRUNTZO_MODEL_SIZE * i;
    return result[LOWER] == lower && result[UPPER] == upper;
}

/* 0x14 beside 0x10, a root and a sum on the interval, and 2, 18, 19 and 10 at their commands. */
static void jobs(void)
{
    begin();
    load_on(4 * S, 5, -7, -2);
    job[job_len++] = FERRUNTZO_COMMAND_ROOT;
    job[job_len++] = 0;
    put_block(2 * S);
    put_block(S / 4);
    job[job_len++] = FERRUNTZO_COMMAND_LOAD;
    put_block(S);
    put_number(0);
    name_two(FERRUNTZO_COMMAND_ADD, 0, 1);
    const size_t before = job_len;
    EXPECT(checked(0, 4) && stands_on(0, -7, -2) && stands_on(1, -7, -2) && stands_on(2, -S, S) && stands_on(3, -7, -2));
    EXPECT(work[FERRUNTZO_PLACE_RADIUS] == 5 && work[3 * 37 + 1] == 6 * S && work[4 * 37] == 0 && stands_on(4, 0, 0));
    job_len = before;
    name_two(FERRUNTZO_COMMAND_SUBTRACT, 1, 2);
    EXPECT(checked(FERRUNTZO_DIFFERENT_INTERVALS, 5) && work[1] == 0 && stands_on(0, 0, 0));

    static const int32_t bad[][2] = {{0, 0}, {1, 0}, {-MOST - 1, 0}, {0, MOST + 1}, {INT32_MIN, INT32_MAX}};
    for (size_t i = 0; i < COUNT(bad); i++) {
        begin();
        load_on(S, 0, bad[i][0], bad[i][1]);
        EXPECT(checked(FERRUNTZO_BAD_ENDS, 1));
        begin();
        load_on(S, -1, bad[i][0], bad[i][1]);
        EXPECT(checked(FERRUNTZO_BAD_MODEL, 1));
    }
    begin();
    load_on(S, 0, -MOST, MOST);
    job_len--;
    EXPECT(ferruntzo_check(job, job_len, WHOLE(work), WHOLE(scratch), WHOLE(answer)) == FERRUNTZO_JOB_ENDS && answer[1] == 1);
}

/* The longest job that is accepted: a load with its ends and 31 quotients. */
static void longest_job(void)
{
    begin();
    load_on(S, 0, -MOST, MOST);
    for (int i = 1; i < FERRUNTZO_MAX_RESULTS; i++) {
        name_two(FERRUNTZO_COMMAND_QUOTIENT, 0, 0);
        put_block(S);
        put_block(S);
    }
    EXPECT(checked(0, FERRUNTZO_MAX_RESULTS) && job_len == FERRUNTZO_MAX_JOB_BYTES);
    EXPECT(work[31 * 37 + 1] == S && stands_on(31, -MOST, MOST));
}

int main(void)
{
    names();
    ends();
    different_intervals();
    integrals();
    evaluations();
    series();
    zero_models();
    jobs();
    longest_job();
    return failures != 0;
}
