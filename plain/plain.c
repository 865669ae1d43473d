/* Plain C99 version of the library and job checker of document 01. */
#include "plain.h"

#include "expansion_table.h"
#include "models.h"
#include "reports.h"

#define PROPOSAL_SIZE (2 * CANDIDATE_SIZE)
#define SERIES_SIZE 34
#define BOUNDS_SIZE 2
#define PRODUCT_SIZE 65          /* the list C */
#define SCRATCH_SIZE 16
#define WORK_SIZE (MAX_RESULTS * MODEL_SIZE)
#define SELECTION_SIZE 2
#define EXPANSION_UNIT ((int64_t)1 << 32)

enum {
    LARGE_RESULT = 3, POINT_OUTSIDE = 4, NOT_CONTRACTING = 5, LARGE_RESIDUAL = 6,
    HELPER_NOT_POSITIVE = 7, NEGATIVE_DISCRIMINANT = 8, BAD_SERIES = 14, NO_RADIUS = 17
};

enum { CHOSEN_FIRST = 1, CHOSEN_SECOND = 2 };

/* ---- Rounding and weights ---- */

/* The whole number at or below n/d, d > 0. */
static int64_t down(int64_t n, int64_t d)
{
    int64_t q = n / d;
    return n % d < 0 ? q - 1 : q;
}

/* The least whole number not below n/d, d > 0. */
static int64_t up(int64_t n, int64_t d)
{
    int64_t q = n / d;
    return n % d > 0 ? q + 1 : q;
}

/* The nearest whole number to n/d, d > 0, a tie going to the even one. */
static int64_t near(int64_t n, int64_t d)
{
    int64_t q = down(2 * n + d, 2 * d);
    if ((2 * n + d) % (2 * d) == 0 && q % 2 != 0)    /* a tie, and the upper number is odd */
        q--;
    return q;
}

static int64_t weight(const int64_t *list, int size)
{
    int64_t sum = 0;
    for (int k = 0; k < size; k++)
        sum += magnitude(list[k]);
    return sum;
}

/* The product list C(a, b): one walk over the pairs, 65 numbers. */
static void product_list(const int32_t *a, const int32_t *b, int64_t *c)
{
    memset(c, 0, PRODUCT_SIZE * sizeof *c);
    for (int i = 0; i <= a[0]; i++) {
        for (int j = 0; j <= b[0]; j++) {
            int64_t p = (int64_t)a[1 + i] * b[1 + j];
            c[i + j] += p;
            c[i > j ? i - j : j - i] += p;
        }
    }
}

/* The place 'result': 3, or the model itself, written into out, which is zero so far.
   row has degree + 1 coefficients. */
static uint32_t finish(int degree, const int64_t *row, int64_t radius, int32_t lower, int32_t upper,
                       int32_t *out)
{
    if (degree > MAX_DEGREE || radius > LIMIT || weight(row, degree + 1) > LIMIT)
        return LARGE_RESULT;
    out[0] = degree;
    for (int k = 0; k <= degree; k++)
        out[1 + k] = (int32_t)row[k];
    out[RADIUS] = (int32_t)radius;
    out[LOWER] = lower;
    out[UPPER] = upper;
    return 0;
}

/* ---- Plain operations, on areas that are long enough; out is zero so far ---- */

static uint32_t termwise(const int32_t *a, const int32_t *b, int sign, int32_t *out)
{
    int64_t row[COEFFICIENTS];
    uint32_t number = operands_fault(a, b);
    if (number != 0)
        return number;
    int degree = a[0] > b[0] ? a[0] : b[0];
    for (int k = 0; k <= degree; k++)
        row[k] = (int64_t)a[1 + k] + sign * (int64_t)b[1 + k];
    return finish(degree, row, (int64_t)a[RADIUS] + b[RADIUS], a[LOWER], a[UPPER], out);
}

static uint32_t multiply(const int32_t *a, const int32_t *b, uint32_t kept, int32_t *out)
{
    int64_t c[PRODUCT_SIZE], row[COEFFICIENTS], error = 0;
    uint32_t number = operands_fault(a, b);
    if (number != 0)
        return number;
    if (kept == DEFAULT_KEPT)
        kept = (uint32_t)(a[0] > b[0] ? a[0] : b[0]);
    if (kept > MAX_DEGREE)
        return BAD_VALUE;
    product_list(a, b, c);
    int degree = a[0] + b[0];
    if (degree > (int)kept)
        degree = (int)kept;
    for (int k = 0; k <= degree; k++) {
        row[k] = near(c[k], 2 * UNIT);
        error += magnitude(c[k] - 2 * UNIT * row[k]);
    }
    error += weight(c + degree + 1, PRODUCT_SIZE - degree - 1);
    int64_t e_a = a[RADIUS], e_b = b[RADIUS];
    error += 2 * (model_weight(a) * e_b + model_weight(b) * e_a + e_a * e_b);
    return finish(degree, row, up(error, 2 * UNIT), a[LOWER], a[UPPER], out);
}

static uint32_t integrate(const int32_t *a, int32_t *out)
{
    int64_t row[COEFFICIENTS];
    uint32_t number = model_fault(a);
    if (number != 0)
        return number;
    int degree = a[0] + 1;
    if (degree > MAX_DEGREE)
        return LARGE_RESULT;
    int64_t extent = (int64_t)a[UPPER] - a[LOWER];
    row[0] = 0;
    for (int k = 1; k <= degree; k++) {
        int64_t lower = k == 1 ? 2 * (int64_t)a[1] : a[k];
        int64_t upper = k + 1 <= a[0] ? a[k + 2] : 0;
        row[k] = near((lower - upper) * extent, 4 * UNIT * k);
        row[0] += k % 2 == 1 ? row[k] : -row[k];
    }
    return finish(degree, row, up(a[RADIUS] * extent, UNIT) + degree, a[LOWER], a[UPPER], out);
}

static uint32_t evaluate(const int32_t *a, int32_t p, int64_t *bounds)
{
    uint32_t number = model_fault(a);
    if (number != 0)
        return number;
    if (p < a[LOWER] || p > a[UPPER])
        return POINT_OUTSIDE;
    int64_t extent = (int64_t)a[UPPER] - a[LOWER];
    int64_t numerator = UNIT * (2 * (int64_t)p - a[LOWER] - a[UPPER]);
    int64_t point = near(numerator, extent);
    /* k (k - 1) of W, and 2^11 k^2 more if the point was rounded, is k (squares k - 1). */
    int64_t squares = point * extent == numerator ? 1 : 1 + 2048;
    int64_t t = (int64_t)1 << 30, next = 1024 * point, v = 0, w = 0;
    for (int k = 0; k <= a[0]; k++) {
        v += a[1 + k] * t;
        w += magnitude(a[1 + k]) * k * (squares * k - 1);
        int64_t after = near(2 * point * next, UNIT) - t;
        t = next;
        next = after;
    }
    bounds[0] = down(4 * v - w, (int64_t)1 << 32) - a[RADIUS];
    bounds[1] = up(4 * v + w, (int64_t)1 << 32) + a[RADIUS];
    return 0;
}

/* A series has the limits of a candidate, and its model the ends -S and S. */
static uint32_t from_series(const int32_t *series, int32_t *out)
{
    int64_t sums[COEFFICIENTS] = {0}, row[COEFFICIENTS], error = 0;
    if (!good_candidate(series))
        return BAD_SERIES;
    int degree = series[0];
    for (int k = 0; k <= degree; k++)
        for (int j = 0; j <= k; j++)
            sums[j] += series[1 + k] * expansion_table[k][j];
    for (int j = 0; j <= degree; j++) {
        row[j] = near(sums[j], EXPANSION_UNIT);
        error += magnitude(sums[j] - EXPANSION_UNIT * row[j]);
    }
    return finish(degree, row, up(error, EXPANSION_UNIT), -UNIT, UNIT, out);
}

/* ---- The tests ----

   The list C stands on the stack, all 65 numbers at once; a lent scratch is only measured and
   cleared, as include/ferruntzo.h says. */

/* c := c - 2S f, over f's coefficients; c is zero above C's own degree. */
static void take_residual(int64_t *c, const int32_t *f)
{
    for (int k = 0; k <= f[0]; k++)
        c[k] -= 2 * (int64_t)UNIT * f[1 + k];
}

/* h on the interval of f. */
static void accept_candidate(const int32_t *f, const int32_t *h, int64_t radius, int64_t m, int64_t n,
                             int64_t b, int32_t *out, uint64_t *numbers)
{
    memcpy(out, h, CANDIDATE_SIZE * sizeof *out);
    out[RADIUS] = (int32_t)radius;
    out[LOWER] = f[LOWER];
    out[UPPER] = f[UPPER];
    numbers[0] = (uint64_t)m;
    numbers[1] = (uint64_t)n;
    numbers[2] = (uint64_t)b;
}

/* What a quotient test gives that passes. */
struct passed {
    int64_t radius, m, n, b;
};

/* The quotient test; f and g are good.  inline: -O3 puts it into both of its callers. */
static inline uint32_t judge_quotient(const int32_t *f, const int32_t *g, const int32_t *h,
                                      const int32_t *w, int64_t *c, struct passed *passed)
{
    if (!good_candidate(h) || !good_candidate(w))
        return BAD_MODEL;
    if (!same_interval(f, g))
        return DIFFERENT_INTERVALS;
    int64_t m_weight = model_weight(w), h_weight = model_weight(h), e_g = g[RADIUS];
    product_list(w, g, c);
    c[0] -= 2 * (int64_t)UNIT * UNIT;
    int64_t m = up(weight(c, PRODUCT_SIZE) + 2 * m_weight * e_g, 2 * UNIT);
    if (m >= UNIT)
        return NOT_CONTRACTING;
    product_list(g, h, c);
    take_residual(c, f);
    int64_t n = up(weight(c, PRODUCT_SIZE) + 2 * (int64_t)UNIT * f[RADIUS] + 2 * h_weight * e_g,
                   2 * UNIT);
    if (n > LIMIT)
        return LARGE_RESIDUAL;
    int64_t b = up(m_weight * n, UNIT);
    int64_t radius = up(b * UNIT, UNIT - m);
    if (radius > LIMIT)
        return LARGE_RESULT;
    *passed = (struct passed){radius, m, n, b};
    return 0;
}

static uint32_t test_quotient(const int32_t *f, const int32_t *g, const int32_t *h,
                              const int32_t *w, int32_t *out, uint64_t *numbers)
{
    struct passed p;
    int64_t c[PRODUCT_SIZE];
    uint32_t number = models_fault(f, g);
    if (number == 0)
        number = judge_quotient(f, g, h, w, c, &p);
    if (number == 0)
        accept_candidate(f, h, p.radius, p.m, p.n, p.b, out, numbers);
    return number;
}

/* The test of one proposal, h and then w; fault is the refusal that f and g give. */
static uint32_t test_proposal(uint32_t fault, const int32_t *f, const int32_t *g,
                              const int32_t *proposal, size_t length, int64_t *c,
                              struct passed *passed)
{
    if (length < PROPOSAL_SIZE)
        return SHORT_AREA;
    if (fault != 0)
        return fault;
    return judge_quotient(f, g, proposal, proposal + CANDIDATE_SIZE, c, passed);
}

/* The tighter of two proposals; answer is zero so far. */
static uint32_t select_proposal(const int32_t *f, const int32_t *g,
                                const int32_t *first, size_t first_len,
                                const int32_t *second, size_t second_len, uint32_t *answer)
{
    struct passed one, two;
    int64_t c[PRODUCT_SIZE];
    uint32_t fault = models_fault(f, g);
    uint32_t number = test_proposal(fault, f, g, first, first_len, c, &one);
    uint32_t other = test_proposal(fault, f, g, second, second_len, c, &two);
    if (other == 0 && (number != 0 || two.radius < one.radius)) {
        answer[0] = CHOSEN_SECOND;
        answer[1] = (uint32_t)two.radius;
        return 0;
    }
    if (number == 0) {
        answer[0] = CHOSEN_FIRST;
        answer[1] = (uint32_t)one.radius;
    }
    return number;
}

/* What the two root tests share. */
struct root_numbers {
    int64_t m_weight, m, n, b;
};

/* Everything up to N and b. */
static uint32_t form_root_numbers(const int32_t *f, const int32_t *h, const int32_t *w,
                                  struct root_numbers *formed)
{
    int64_t c[PRODUCT_SIZE];
    uint32_t number = model_fault(f);
    if (number != 0)
        return number;
    if (!good_candidate(h) || !good_candidate(w))
        return BAD_MODEL;
    int64_t sum = 0, m_weight = model_weight(w);
    for (int k = 0; k < COEFFICIENTS; k++)
        sum += w[1 + k];
    if (sum <= 0)
        return HELPER_NOT_POSITIVE;
    product_list(w, h, c);
    c[0] -= (int64_t)UNIT * UNIT;
    int64_t m = up(weight(c, PRODUCT_SIZE), UNIT);
    if (m >= UNIT)
        return NOT_CONTRACTING;
    product_list(h, h, c);
    take_residual(c, f);
    int64_t n = up(weight(c, PRODUCT_SIZE) + 2 * (int64_t)UNIT * f[RADIUS], 2 * UNIT);
    if (n > LIMIT)
        return LARGE_RESIDUAL;
    *formed = (struct root_numbers){m_weight, m, n, up(m_weight * n, UNIT)};
    return 0;
}

static uint32_t test_root(const int32_t *f, const int32_t *h, const int32_t *w,
                          int32_t *out, uint64_t *numbers)
{
    struct root_numbers p;
    uint32_t number = form_root_numbers(f, h, w, &p);
    if (number != 0)
        return number;
    /* 8 b M can pass 64 bits, so b is compared with the quotient; M >= 1 here. */
    if (p.b > (UNIT - p.m) * (UNIT - p.m) / (8 * p.m_weight))
        return NEGATIVE_DISCRIMINANT;
    int64_t radius = up(2 * p.b * UNIT, UNIT - p.m);
    if (radius > LIMIT)
        return LARGE_RESULT;
    accept_candidate(f, h, radius, p.m, p.n, p.b, out, numbers);
    return 0;
}

#define NO_SUCH_RADIUS (UNIT + 1)

/* The least whole r from 0 to S with 2 M r^2 + b S^2 <= c r, where c = (S - m) S; M >= 1.  Up to v,
   which is c/(4 M) rounded down, what satisfies still does as r grows, from v + 1 on as r falls; so
   if v does not satisfy, only v + 1 can.  No number passes 2^61. */
static uint64_t least_radius(uint64_t m_weight, uint64_t m, uint64_t b)
{
    if (b > UNIT)
        return NO_SUCH_RADIUS;
    if (b == 0)
        return 0;
    uint64_t c = (UNIT - m) * UNIT, twice = 2 * m_weight, scaled = b * UNIT * UNIT;
    uint64_t v = c / (4 * m_weight);
    uint64_t low = 0, high = v < UNIT ? v : UNIT;
    if (twice * high * high + scaled > c * high) {
        uint64_t next = v + 1;
        return next <= UNIT && twice * next * next + scaled <= c * next ? next : NO_SUCH_RADIUS;
    }
    while (high - low > 1) {        /* low does not satisfy, high does */
        uint64_t middle = (low + high) / 2;
        if (twice * middle * middle + scaled <= c * middle)
            high = middle;
        else
            low = middle;
    }
    return high;
}

static uint32_t test_tight_root(const int32_t *f, const int32_t *h, const int32_t *w,
                                int32_t *out, uint64_t *numbers)
{
    struct root_numbers p;
    uint32_t number = form_root_numbers(f, h, w, &p);
    if (number != 0)
        return number;
    uint64_t radius = least_radius((uint64_t)p.m_weight, (uint64_t)p.m, (uint64_t)p.b);
    if (radius == NO_SUCH_RADIUS)
        return NO_RADIUS;
    accept_candidate(f, h, (int64_t)radius, p.m, p.n, p.b, out, numbers);
    return 0;
}

/* ---- The library's entries ---- */

uint32_t plain_add(const int32_t *a, size_t a_len, const int32_t *b, size_t b_len,
                   int32_t *out, size_t out_len)
{
    if (!CLEAR(out, MODEL_SIZE) || a_len < MODEL_SIZE || b_len < MODEL_SIZE)
        return SHORT_AREA;
    return termwise(a, b, 1, out);
}

uint32_t plain_subtract(const int32_t *a, size_t a_len, const int32_t *b, size_t b_len,
                        int32_t *out, size_t out_len)
{
    if (!CLEAR(out, MODEL_SIZE) || a_len < MODEL_SIZE || b_len < MODEL_SIZE)
        return SHORT_AREA;
    return termwise(a, b, -1, out);
}

uint32_t plain_multiply(const int32_t *a, size_t a_len, const int32_t *b, size_t b_len,
                        uint32_t kept, int32_t *out, size_t out_len)
{
    if (!CLEAR(out, MODEL_SIZE) || a_len < MODEL_SIZE || b_len < MODEL_SIZE)
        return SHORT_AREA;
    return multiply(a, b, kept, out);
}

uint32_t plain_integrate(const int32_t *a, size_t a_len, int32_t *out, size_t out_len)
{
    if (!CLEAR(out, MODEL_SIZE) || a_len < MODEL_SIZE)
        return SHORT_AREA;
    return integrate(a, out);
}

uint32_t plain_evaluate(const int32_t *a, size_t a_len, int32_t p,
                        int64_t *bounds, size_t bounds_len)
{
    if (!CLEAR(bounds, BOUNDS_SIZE) || a_len < MODEL_SIZE)
        return SHORT_AREA;
    return evaluate(a, p, bounds);
}

uint32_t plain_from_series(const int32_t *series, size_t series_len,
                           int32_t *out, size_t out_len)
{
    if (!CLEAR(out, MODEL_SIZE) || series_len < SERIES_SIZE)
        return SHORT_AREA;
    return from_series(series, out);
}

uint32_t plain_quotient(const int32_t *f, size_t f_len, const int32_t *g, size_t g_len,
                        const int32_t *h, size_t h_len, const int32_t *w, size_t w_len,
                        int64_t *scratch, size_t scratch_len, int32_t *out, size_t out_len,
                        uint64_t *numbers, size_t numbers_len)
{
    uint32_t number = SHORT_AREA;
    /* & and not &&: each area is cleared whatever the others have. */
    int fit = CLEAR(out, MODEL_SIZE) & CLEAR(numbers, NUMBERS_SIZE);
    if (fit && f_len >= MODEL_SIZE && g_len >= MODEL_SIZE && h_len >= CANDIDATE_SIZE
        && w_len >= CANDIDATE_SIZE && scratch_len >= SCRATCH_SIZE)
        number = test_quotient(f, g, h, w, out, numbers);
    CLEAR(scratch, SCRATCH_SIZE);
    return number;
}

uint32_t plain_root(const int32_t *f, size_t f_len, const int32_t *h, size_t h_len,
                    const int32_t *w, size_t w_len, int64_t *scratch, size_t scratch_len,
                    int32_t *out, size_t out_len, uint64_t *numbers, size_t numbers_len)
{
    uint32_t number = SHORT_AREA;
    int fit = CLEAR(out, MODEL_SIZE) & CLEAR(numbers, NUMBERS_SIZE);
    if (fit && f_len >= MODEL_SIZE && h_len >= CANDIDATE_SIZE && w_len >= CANDIDATE_SIZE
        && scratch_len >= SCRATCH_SIZE)
        number = test_root(f, h, w, out, numbers);
    CLEAR(scratch, SCRATCH_SIZE);
    return number;
}

uint32_t plain_tight_root(const int32_t *f, size_t f_len, const int32_t *h, size_t h_len,
                          const int32_t *w, size_t w_len, int64_t *scratch, size_t scratch_len,
                          int32_t *out, size_t out_len, uint64_t *numbers, size_t numbers_len)
{
    uint32_t number = SHORT_AREA;
    int fit = CLEAR(out, MODEL_SIZE) & CLEAR(numbers, NUMBERS_SIZE);
    if (fit && f_len >= MODEL_SIZE && h_len >= CANDIDATE_SIZE && w_len >= CANDIDATE_SIZE
        && scratch_len >= SCRATCH_SIZE)
        number = test_tight_root(f, h, w, out, numbers);
    CLEAR(scratch, SCRATCH_SIZE);
    return number;
}

uint32_t plain_quotient_of_two(const int32_t *f, size_t f_len, const int32_t *g, size_t g_len,
                               const int32_t *first, size_t first_len,
                               const int32_t *second, size_t second_len,
                               int64_t *scratch, size_t scratch_len,
                               uint32_t *answer, size_t answer_len)
{
    uint32_t number = SHORT_AREA;
    if (CLEAR(answer, SELECTION_SIZE) && f_len >= MODEL_SIZE && g_len >= MODEL_SIZE
        && scratch_len >= SCRATCH_SIZE)
        number = select_proposal(f, g, first, first_len, second, second_len, answer);
    CLEAR(scratch, SCRATCH_SIZE);
    return number;
}

/* ---- Jobs ---- */

static uint32_t read_u32(const uint8_t *p)
{
    return p[0] | (uint32_t)p[1] << 8 | (uint32_t)p[2] << 16 | (uint32_t)p[3] << 24;
}

static int32_t read_i32(const uint8_t *p)
{
    uint32_t bits = read_u32(p);
    int32_t number;
    memcpy(&number, &bits, sizeof bits);
    return number;
}

static void read_block(const uint8_t *p, int32_t *candidate)
{
    candidate[0] = p[0];
    for (int k = 0; k < COEFFICIENTS; k++)
        candidate[1 + k] = read_i32(p + 1 + 4 * k);
}

/* One command that makes a result; out is its own 37 numbers of the work area, zero so far, as are
   numbers: m, N and b. */
static uint32_t operate(uint8_t edition, uint8_t byte, const uint8_t *operands, size_t names,
                        const int32_t *work, int32_t *out, uint64_t *numbers)
{
    int32_t h[CANDIDATE_SIZE], w[CANDIDATE_SIZE];
    const int32_t *a = names > 0 ? work + MODEL_SIZE * operands[0] : NULL;
    const int32_t *b = names > 1 ? work + MODEL_SIZE * operands[1] : NULL;
    if (byte == 0x10 || byte == 0x14) {
        read_block(operands, out);
        out[RADIUS] = read_i32(operands + BLOCK_BYTES);    /* below 0 from 2^31 on, and refused */
        out[LOWER] = byte == 0x14 ? read_i32(operands + BLOCK_BYTES + 4) : -UNIT;
        out[UPPER] = byte == 0x14 ? read_i32(operands + BLOCK_BYTES + 8) : UNIT;
        return model_fault(out);
    }
    if (byte == 0x11 || byte == 0x12)
        return termwise(a, b, byte == 0x11 ? 1 : -1, out);
    if (byte == 0x13)
        return multiply(a, b, edition == 1 && operands[2] == DEFAULT_KEPT ? MAX_DEGREE : operands[2], out);
    read_block(operands + names, h);
    read_block(operands + names + BLOCK_BYTES, w);
    if (byte == 0x20)
        return test_quotient(a, b, h, w, out, numbers);
    if (byte == 0x21)
        return test_root(a, h, w, out, numbers);
    return test_tight_root(a, h, w, out, numbers);
}

/* Checks the commands in turn, and reports each result; leaves the last command's number in *command. */
static uint32_t run(const uint8_t *job, size_t job_len, int32_t *work, enum report report, uint8_t *room,
                    uint32_t *count, uint32_t *command)
{
    size_t position = 0;
    struct command read;
    for (*count = 0, *command = 0;; ++*command) {
        uint32_t number = read_command(job, job_len, &position, *command, *count, &read);
        if (number != 0 || read.byte == 0x00)
            return number;
        if (read.byte == 0x01)
            continue;
        int32_t *result = work + MODEL_SIZE * *count;
        uint64_t numbers[NUMBERS_SIZE] = {0};
        number = operate(job[1], read.byte, read.operands, read.names, work, result, numbers);
        if (number != 0)
            return number;
        write_record(report, room, *count, result, numbers);
        ++*count;
    }
}

/* Checks a job, with the report that is wanted. */
static uint32_t check_job(const uint8_t *job, size_t job_len, int32_t *work, size_t work_len,
                          int64_t *scratch, size_t scratch_len, enum report report, uint8_t *room,
                          size_t room_len, uint32_t *answer, size_t answer_len)
{
    uint32_t count, command;
    if (!CLEAR(answer, ANSWER_SIZE) || work_len < WORK_SIZE || scratch_len < SCRATCH_SIZE
        || room_len < room_size(report))
        return SHORT_AREA;
    memset(work, 0, WORK_SIZE * sizeof *work);
    clear_room(report, room);
    uint32_t number = run(job, job_len, work, report, room, &count, &command);
    memset(scratch, 0, SCRATCH_SIZE * sizeof *scratch);
    if (number != 0) {
        memset(work, 0, WORK_SIZE * sizeof *work);
        clear_room(report, room);
        answer[1] = command;
    } else {
        answer[0] = count;
    }
    return number;
}

uint32_t plain_check(const uint8_t *job, size_t job_len, int32_t *work, size_t work_len,
                     int64_t *scratch, size_t scratch_len, uint32_t *answer, size_t answer_len)
{
    return check_job(job, job_len, work, work_len, scratch, scratch_len, NO_REPORT, NULL, 0, answer, answer_len);
}

uint32_t plain_check_workshop(const uint8_t *job, size_t job_len, int32_t *work, size_t work_len,
                              int64_t *scratch, size_t scratch_len, uint8_t *room, size_t room_len,
                              uint32_t *answer, size_t answer_len)
{
    return check_job(job, job_len, work, work_len, scratch, scratch_len, WORKSHOP, room, room_len, answer,
                     answer_len);
}

uint32_t plain_check_service(const uint8_t *job, size_t job_len, int32_t *work, size_t work_len,
                             int64_t *scratch, size_t scratch_len, uint8_t *room, size_t room_len,
                             uint32_t *answer, size_t answer_len)
{
    return check_job(job, job_len, work, work_len, scratch, scratch_len, SERVICE, room, room_len, answer,
                     answer_len);
}

/* ---- The version ---- */

uint32_t plain_version(void)
{
    return (5 << 16) + (1 << 8);
}
