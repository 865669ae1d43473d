/* Measures the library (ferruntzo_) beside the plain C version at -O2 (plain2_) and
   at -O3 (plain3_), its makers with three passes for each row at -O2 (passes_), and the
   former check (former_), in one program.  bench/run builds it, runs it and prints tables.

     bench count JOB..          calls each case with each version and writes down each
                                call (entry, case, version); for callgrind
     bench alone JOB..          the same with the library only, which may be an earlier one
                                with other answers: it is compared with nothing.  Built with
                                -DWITHOUT_QUOTIENT_OF_TWO, .. for one that has no such function;
                                one whose models have no ends takes the first 35 of their numbers,
                                and has no case on another interval than the standard one
     bench time MILLISECONDS JOB..   best time of a call, versions taken in turn
     bench stack JOB..          bytes of stack that a call writes to
     bench former JOB..         the largest deviation that the former check finds

   count, time and stack first compare all answers and areas of the versions.  count and
   alone have the tests of every degree from 4 to 32, time and stack of 4, 8, 16 and 32.
   The last JOB must hold a load and 31 roots; its first 1, 4 and 16 results are cases too, and
   so are the first JOB with its loads on another interval, and its conversion to the other edition.
   Each JOB is also checked with the reports of workshop and service. */
#define _POSIX_C_SOURCE 200809L
#include "ferruntzo.h"
#include "former.h"

#include <math.h>
#include <stdio.h>
#include <stdlib.h>
#include <string.h>
#include <time.h>
#include <ucontext.h>

typedef uint32_t multiply_entry(const int32_t *, size_t, const int32_t *, size_t, uint32_t,
                                int32_t *, size_t);
typedef uint32_t integrate_entry(const int32_t *, size_t, int32_t *, size_t);
typedef uint32_t evaluate_entry(const int32_t *, size_t, int32_t, int64_t *, size_t);
typedef uint32_t quotient_entry(const int32_t *, size_t, const int32_t *, size_t,
                                const int32_t *, size_t, const int32_t *, size_t,
                                int64_t *, size_t, int32_t *, size_t, uint64_t *, size_t);
typedef uint32_t root_entry(const int32_t *, size_t, const int32_t *, size_t,
                            const int32_t *, size_t,
                            int64_t *, size_t, int32_t *, size_t, uint64_t *, size_t);
typedef uint32_t check_entry(const uint8_t *, size_t, int32_t *, size_t, int64_t *, size_t,
                             uint32_t *, size_t);
typedef uint32_t from_series_entry(const int32_t *, size_t, int32_t *, size_t);
typedef uint32_t quotient_of_two_entry(const int32_t *, size_t, const int32_t *, size_t,
                                       const int32_t *, size_t, const int32_t *, size_t,
                                       int64_t *, size_t, uint32_t *, size_t);
typedef uint32_t make_reciprocal_entry(const int32_t *, size_t, double *, size_t, int32_t *, size_t,
                                       uint32_t *, size_t);
typedef uint32_t make_quotient_entry(const int32_t *, size_t, const int32_t *, size_t, double *, size_t,
                                     int32_t *, size_t, int32_t *, size_t, uint32_t *, size_t);
typedef uint32_t convert_edition_entry(const uint8_t *, size_t, uint8_t *, size_t, uint32_t *, size_t);
typedef uint32_t report_entry(const uint8_t *, size_t, int32_t *, size_t, int64_t *, size_t, uint8_t *, size_t,
                              uint32_t *, size_t);
multiply_entry plain2_multiply, plain3_multiply;
integrate_entry plain2_integrate, plain3_integrate;
evaluate_entry plain2_evaluate, plain3_evaluate;
quotient_entry plain2_quotient, plain3_quotient;
root_entry plain2_root, plain3_root, plain2_tight_root, plain3_tight_root;
check_entry plain2_check, plain3_check;
from_series_entry plain2_from_series, plain3_from_series;
quotient_of_two_entry plain2_quotient_of_two, plain3_quotient_of_two;
convert_edition_entry plain2_convert_edition, plain3_convert_edition;
report_entry plain2_check_workshop, plain3_check_workshop, plain2_check_service, plain3_check_service;
make_reciprocal_entry plain2_make_reciprocal, plain3_make_reciprocal, passes_make_reciprocal;
make_quotient_entry plain2_make_quotient, plain3_make_quotient, passes_make_quotient;

#ifdef WITHOUT_QUOTIENT_OF_TWO
#define ferruntzo_quotient_of_two NULL
#endif
#ifdef WITHOUT_TIGHT_ROOT
#define ferruntzo_tight_root NULL
#endif
#ifdef WITHOUT_MAKE_RECIPROCAL
#define ferruntzo_make_reciprocal NULL
#endif
#ifdef WITHOUT_MAKE_QUOTIENT
#define ferruntzo_make_quotient NULL
#endif
#ifdef WITHOUT_CONVERT_EDITION
#define ferruntzo_convert_edition NULL
#endif
#ifdef WITHOUT_CHECK_WORKSHOP
#define ferruntzo_check_workshop NULL
#endif
#ifdef WITHOUT_CHECK_SERVICE
#define ferruntzo_check_service NULL
#endif

struct version {
    const char *name;
    multiply_entry *multiply;
    integrate_entry *integrate;
    evaluate_entry *evaluate;
    quotient_entry *quotient;
    root_entry *root, *tight_root;
    check_entry *check;
    from_series_entry *from_series;
    quotient_of_two_entry *quotient_of_two;
    make_reciprocal_entry *make_reciprocal;
    make_quotient_entry *make_quotient;
    convert_edition_entry *convert_edition;
    report_entry *check_workshop, *check_service;
};

enum { LIBRARY, PLAIN_O2, PLAIN_O3, PASSES, FORMER, VERSIONS };

static const struct version versions[VERSIONS] = {
    {"library", ferruntzo_multiply, ferruntzo_integrate, ferruntzo_evaluate, ferruntzo_quotient,
     ferruntzo_root, ferruntzo_tight_root, ferruntzo_check, ferruntzo_from_series,
     ferruntzo_quotient_of_two, ferruntzo_make_reciprocal, ferruntzo_make_quotient, ferruntzo_convert_edition,
     ferruntzo_check_workshop, ferruntzo_check_service},
    {"O2", plain2_multiply, plain2_integrate, plain2_evaluate, plain2_quotient, plain2_root,
     plain2_tight_root, plain2_check, plain2_from_series, plain2_quotient_of_two,
     plain2_make_reciprocal, plain2_make_quotient, plain2_convert_edition, plain2_check_workshop,
     plain2_check_service},
    {"O3", plain3_multiply, plain3_integrate, plain3_evaluate, plain3_quotient, plain3_root,
     plain3_tight_root, plain3_check, plain3_from_series, plain3_quotient_of_two,
     plain3_make_reciprocal, plain3_make_quotient, plain3_convert_edition, plain3_check_workshop,
     plain3_check_service},
    {.name = "passes", .make_reciprocal = passes_make_reciprocal, .make_quotient = passes_make_quotient},
    {.name = "former"},
};

enum kind {
    MULTIPLY, INTEGRATE, EVALUATE, QUOTIENT, ROOT, TIGHT_ROOT, CHECK, FROM_SERIES, QUOTIENT_OF_TWO,
    MAKE_RECIPROCAL, MAKE_QUOTIENT, CONVERT_EDITION, CHECK_WORKSHOP, CHECK_SERVICE
};

static const char *const kind_names[] = {"multiply", "integrate", "evaluate", "quotient", "root", "tight_root",
                                         "check", "from_series", "quotient_of_two", "make_reciprocal",
                                         "make_quotient", "convert_edition", "check_workshop",
                                         "check_service"};

struct bench_case {
    enum kind kind;
    char name[48];
    uint32_t kept;
    int32_t f[FERRUNTZO_MODEL_SIZE], g[FERRUNTZO_MODEL_SIZE];
    int32_t h[FERRUNTZO_CANDIDATE_SIZE], w[FERRUNTZO_CANDIDATE_SIZE];
    int32_t series[FERRUNTZO_SERIES_SIZE];
    int32_t first[FERRUNTZO_PROPOSAL_SIZE], second[FERRUNTZO_PROPOSAL_SIZE];
    const uint8_t *job;
    size_t job_len;
    int with_former;
};

#define MAX_CASES 160
static struct bench_case cases[MAX_CASES];
static int case_count;

static void fail(const char *what, const char *name)
{
    fprintf(stderr, "bench: %s: %s\n", name, what);
    exit(1);
}

struct interval {
    int32_t lower, upper;
};

static const struct interval standard = {-FERRUNTZO_S, FERRUNTZO_S};
/* Seven seconds of machine time, on which the point of an evaluation is rounded. */
static const struct interval seconds = {0, 7 * FERRUNTZO_S};

static void put_ends(int32_t *model, const struct interval *interval)
{
    model[FERRUNTZO_PLACE_LOWER] = interval->lower;
    model[FERRUNTZO_PLACE_UPPER] = interval->upper;
}

static struct bench_case *new_case(enum kind kind, const char *name, int number)
{
    struct bench_case *one = &cases[case_count++];
    if (case_count == MAX_CASES)
        fail("too many cases", name);
    one->kind = kind;
    one->kept = FERRUNTZO_MAX_DEGREE;
    put_ends(one->f, &standard);
    put_ends(one->g, &standard);
    snprintf(one->name, sizeof one->name, number < 0 ? "%s" : "%s %d", name, number);
    return one;
}

/* ---- Inputs ---- */

#define NODES 64

static double node_value(const int32_t *area, int node)
{
    double sum = 0, pi = acos(-1.0);
    for (int k = 0; k <= area[0]; k++)
        sum += area[1 + k] * cos(k * pi * (node + 0.5) / NODES);
    return sum / FERRUNTZO_S;
}

/* The candidate of this degree through values at the nodes, no coefficient zero. */
static void project(const double *values, int degree, int32_t *candidate)
{
    double pi = acos(-1.0);
    candidate[0] = degree;
    for (int k = 0; k <= degree; k++) {
        double sum = 0;
        for (int i = 0; i < NODES; i++)
            sum += values[i] * cos(k * pi * (i + 0.5) / NODES);
        long c = lround(sum * FERRUNTZO_S * (k == 0 ? 1.0 : 2.0) / NODES);
        candidate[1 + k] = (int32_t)(c == 0 ? 1 : c);
    }
}

/* first, then ratio times the one before from the first term on. */
static void geometric(int32_t *model, int degree, double first, double term, double ratio)
{
    model[0] = degree;
    model[1] = (int32_t)lround(first * FERRUNTZO_S);
    for (int k = 1; k <= degree; k++)
        model[1 + k] = (int32_t)lround(term * FERRUNTZO_S * pow(ratio, k));
}

/* The quotient test f/g, every polynomial of one degree. */
static const struct bench_case *add_quotient(int degree)
{
    struct bench_case *quotient = new_case(QUOTIENT, "quotient", degree);
    double values[NODES], inverse[NODES];
    geometric(quotient->f, degree, 2.0, 0.5, 0.8);
    geometric(quotient->g, degree, 4.0, 0.8, -0.7);
    for (int i = 0; i < NODES; i++) {
        inverse[i] = 1 / node_value(quotient->g, i);
        values[i] = node_value(quotient->f, i) * inverse[i];
    }
    project(values, degree, quotient->h);
    project(inverse, degree, quotient->w);
    quotient->with_former = degree == FERRUNTZO_MAX_DEGREE;
    return quotient;
}

/* The two root tests of the same g. */
static void add_roots(int degree)
{
    struct bench_case *root = new_case(ROOT, "root", degree);
    double values[NODES], inverse[NODES];
    geometric(root->f, degree, 4.0, 0.8, -0.7);
    for (int i = 0; i < NODES; i++) {
        values[i] = sqrt(node_value(root->f, i));
        inverse[i] = 0.5 / values[i];
    }
    project(values, degree, root->h);
    project(inverse, degree, root->w);
    root->with_former = degree == FERRUNTZO_MAX_DEGREE;

    struct bench_case *tight = new_case(TIGHT_ROOT, "tight_root", degree);
    memcpy(tight->f, root->f, sizeof tight->f);
    memcpy(tight->h, root->h, sizeof tight->h);
    memcpy(tight->w, root->w, sizeof tight->w);
}

/* Constants, so that the search for the least radius is a large part: (S - m) S / (4 M) is above S,
   and 20 halvings of 0 .. S are needed. */
static void add_longest_search(void)
{
    struct bench_case *tight = new_case(TIGHT_ROOT, "tight_root longest", -1);
    tight->f[1] = 16 * FERRUNTZO_S;
    tight->h[1] = 4 * FERRUNTZO_S + FERRUNTZO_S / 100;
    tight->w[1] = FERRUNTZO_S / 8;
}

/* Multiply, integrate, evaluate, the tests, the conversion of a series and the selection of
   two proposals, every polynomial of one degree; the integrand has one less, so that its integral
   has that degree. */
static void add_degree(int degree)
{
    struct bench_case *product = new_case(MULTIPLY, "multiply", degree);
    geometric(product->f, degree, 2.0, 0.5, 0.8);
    geometric(product->g, degree, 4.0, 0.8, -0.7);
    geometric(new_case(INTEGRATE, "integrate", degree)->f, degree - 1, 4.0, 0.8, -0.7);
    geometric(new_case(EVALUATE, "evaluate", degree)->f, degree, 4.0, 0.8, -0.7);
    const struct bench_case *quotient = add_quotient(degree);

    /* Both pass; the second is the quotient's own proposal, the first is worse. */
    struct bench_case *two = new_case(QUOTIENT_OF_TWO, "quotient_of_two", degree);
    memcpy(two->f, quotient->f, sizeof two->f);
    memcpy(two->g, quotient->g, sizeof two->g);
    memcpy(two->second, quotient->h, sizeof quotient->h);
    memcpy(two->second + FERRUNTZO_CANDIDATE_SIZE, quotient->w, sizeof quotient->w);
    memcpy(two->first, two->second, sizeof two->first);
    two->first[1] += 1000;
    add_roots(degree);

    struct bench_case *series = new_case(FROM_SERIES, "from_series", degree);
    geometric(series->series, degree, 4.0, 0.8, -0.7);
}

/* Multiply with the kept degree left open. */
static void add_open(int degree)
{
    struct bench_case *product = new_case(MULTIPLY, "multiply_open", degree);
    geometric(product->f, degree, 2.0, 0.5, 0.8);
    geometric(product->g, degree, 4.0, 0.8, -0.7);
    product->kept = FERRUNTZO_DEFAULT_KEPT;
}

/* Integrate and evaluate on another interval. */
static void add_degree_on(int degree)
{
    struct bench_case *integral = new_case(INTEGRATE, "integrate_on", degree);
    geometric(integral->f, degree - 1, 4.0, 0.8, -0.7);
    put_ends(integral->f, &seconds);
    struct bench_case *value = new_case(EVALUATE, "evaluate_on", degree);
    geometric(value->f, degree, 4.0, 0.8, -0.7);
    put_ends(value->f, &seconds);
}

/* Both makers: a divisor of degree 32, a power of two, and one that is given up after 12 rounds. */
static void add_makers(void)
{
    static const int32_t divisors[][3] = {{0, 4 * FERRUNTZO_S}, {1, FERRUNTZO_S, 15 * FERRUNTZO_S / 16}};
    for (int i = -1; i < 2; i++) {
        for (enum kind kind = MAKE_RECIPROCAL; kind <= MAKE_QUOTIENT; kind++) {
            struct bench_case *made = new_case(kind, kind_names[kind], i < 0 ? FERRUNTZO_MAX_DEGREE : i);
            geometric(made->f, FERRUNTZO_MAX_DEGREE, 2.0, 0.5, 0.8);
            geometric(made->g, FERRUNTZO_MAX_DEGREE, 4.0, 0.8, -0.7);
            if (i >= 0) {
                memset(made->g, 0, sizeof made->g);
                memcpy(made->g, divisors[i], sizeof divisors[i]);
                put_ends(made->g, &standard);
            }
        }
    }
}

static struct bench_case *add_job(const char *path)
{
    FILE *file = fopen(path, "rb");
    uint8_t *bytes = malloc(FERRUNTZO_PROGRAM_JOB_BYTES);
    if (file == NULL || bytes == NULL)
        fail("cannot be read", path);
    const char *base = strrchr(path, '/');
    struct bench_case *job = new_case(CHECK, base != NULL ? base + 1 : path, -1);
    job->job_len = fread(bytes, 1, FERRUNTZO_PROGRAM_JOB_BYTES, file);
    job->job = bytes;
    job->with_former = 1;
    fclose(file);
    return job;
}

/* Bytes of a command that makes a result, its own byte included. */
static size_t command_bytes(uint8_t byte)
{
    switch (byte) {
    case FERRUNTZO_COMMAND_LOAD: return 1 + FERRUNTZO_BLOCK_BYTES + 4;
    case FERRUNTZO_COMMAND_ADD:
    case FERRUNTZO_COMMAND_SUBTRACT: return 3;
    case FERRUNTZO_COMMAND_MULTIPLY: return 4;
    case FERRUNTZO_COMMAND_QUOTIENT: return 3 + 2 * FERRUNTZO_BLOCK_BYTES;
    default: return 2 + 2 * FERRUNTZO_BLOCK_BYTES;
    }
}

/* The 4 bytes of an end. */
static uint8_t *put_end(uint8_t *to, int32_t end)
{
    for (int shift = 0; shift < 32; shift += 8)
        *to++ = (uint8_t)((uint32_t)end >> shift);
    return to;
}

/* A job with each load by 0x14, on another interval. */
static void add_job_on(const struct bench_case *job)
{
    uint8_t *bytes = malloc(job->job_len + 8 * FERRUNTZO_MAX_RESULTS), *to = bytes;
    if (bytes == NULL)
        fail("no memory", job->name);
    memcpy(to, job->job, 2);
    to += 2;
    for (size_t at = 2; at < job->job_len;) {
        uint8_t byte = job->job[at];
        size_t length = byte == FERRUNTZO_COMMAND_END ? 1 : command_bytes(byte);
        memcpy(to, job->job + at, length);
        if (byte == FERRUNTZO_COMMAND_LOAD)
            *to = FERRUNTZO_COMMAND_LOAD_ON;
        to += length;
        at += length;
        if (byte == FERRUNTZO_COMMAND_LOAD)
            to = put_end(put_end(to, seconds.lower), seconds.upper);
    }
    struct bench_case *changed = new_case(CHECK, "job_on", -1);
    changed->job = bytes;
    changed->job_len = (size_t)(to - bytes);
}

static uint8_t *new_bytes(size_t length)
{
    uint8_t *bytes = calloc(length, 1);
    if (bytes == NULL)
        fail("no memory", "a conversion");
    return bytes;
}

/* Conversions of a job, of the longest one that there is, and of one with as many open multiplies as there can be. */
static void add_conversions(const struct bench_case *job)
{
    struct bench_case *realistic = new_case(CONVERT_EDITION, "convert realistic", -1);
    realistic->job = job->job;
    realistic->job_len = job->job_len;

    struct bench_case *longest = new_case(CONVERT_EDITION, "convert longest", -1);
    uint8_t *bytes = new_bytes(FERRUNTZO_MAX_JOB_BYTES), *to = bytes;
    *to++ = FERRUNTZO_COMMAND_EDITION;
    *to++ = 2;
    *to = FERRUNTZO_COMMAND_LOAD_ON;
    to += 1 + FERRUNTZO_BLOCK_BYTES + 12;
    for (int i = 1; i < FERRUNTZO_MAX_RESULTS; i++) {
        *to = FERRUNTZO_COMMAND_QUOTIENT;
        to += command_bytes(FERRUNTZO_COMMAND_QUOTIENT);
    }
    longest->job = bytes;
    longest->job_len = FERRUNTZO_MAX_JOB_BYTES;

    struct bench_case *open = new_case(CONVERT_EDITION, "convert open", -1);
    size_t load = command_bytes(FERRUNTZO_COMMAND_LOAD);
    open->job_len = 2 + load + 4 * (FERRUNTZO_MAX_RESULTS - 1) + 1;
    open->job = bytes = new_bytes(open->job_len);
    bytes[0] = FERRUNTZO_COMMAND_EDITION;
    bytes[1] = 2;
    bytes[2] = FERRUNTZO_COMMAND_LOAD;
    bytes[3] = 7;
    to = bytes + 2 + load;
    for (uint8_t i = 0; i < FERRUNTZO_MAX_RESULTS - 1; i++) {
        *to++ = FERRUNTZO_COMMAND_MULTIPLY;
        *to++ = i;
        *to++ = 0;
        *to++ = 0xFF;
    }
}

/* The check of a job with each report. */
static void add_reports(const struct bench_case *job)
{
    for (enum kind kind = CHECK_WORKSHOP; kind <= CHECK_SERVICE; kind++) {
        char name[sizeof job->name];
        snprintf(name, sizeof name, "%s %.30s", kind == CHECK_WORKSHOP ? "workshop" : "service", job->name);
        struct bench_case *report = new_case(kind, name, -1);
        report->job = job->job;
        report->job_len = job->job_len;
    }
}

/* The first results of a job of a load and roots, and an end. */
static void add_prefix(const struct bench_case *job, int results)
{
    size_t load = 1 + FERRUNTZO_BLOCK_BYTES + 4, root = 2 + 2 * FERRUNTZO_BLOCK_BYTES;
    size_t length = 2 + load + (size_t)(results - 1) * root;
    uint8_t *bytes = calloc(length + 1, 1);
    if (bytes == NULL || length >= job->job_len)
        fail("not a load and 31 roots", job->name);
    memcpy(bytes, job->job, length);
    struct bench_case *prefix = new_case(CHECK, "results", results);
    prefix->job = bytes;
    prefix->job_len = length + 1;
}

/* ---- Calls ---- */

/* A library before version 3.0.0 needs so many. */
#define SCRATCH_LENT 65

/* All that a call writes. */
static struct areas {
    uint32_t number;
    int32_t out[FERRUNTZO_MODEL_SIZE];
    int64_t bounds[FERRUNTZO_BOUNDS_SIZE];
    int64_t scratch[SCRATCH_LENT];
    uint64_t numbers[FERRUNTZO_NUMBERS_SIZE];
    int32_t work[FERRUNTZO_WORK_SIZE];
    uint32_t answer[FERRUNTZO_ANSWER_SIZE];
    uint32_t selected[FERRUNTZO_SELECTION_SIZE];
    double record[FERRUNTZO_QUOTIENT_RECORD_SIZE];
    int32_t h[FERRUNTZO_CANDIDATE_SIZE], w[FERRUNTZO_CANDIDATE_SIZE];
    uint32_t outcome[FERRUNTZO_OUTCOME_SIZE];
    uint8_t output[FERRUNTZO_MAX_JOB_BYTES];
    uint8_t workshop[FERRUNTZO_WORKSHOP_ROOM], service[FERRUNTZO_SERVICE_ROOM];
} lent;
static volatile double deviation;
static int logged;              /* whether each call is written down, for mode count */

#define WHOLE(area) area, sizeof(area) / sizeof(area)[0]

static void call(int v, const struct bench_case *c)
{
    const struct version *version = &versions[v];
    if (logged)
        printf("%s|%s|%s\n", kind_names[c->kind], c->name, version->name);
    if (v == FORMER) {
        deviation = c->kind == QUOTIENT ? former_quotient(c->f, c->g, c->h)
                    : c->kind == ROOT   ? former_root(c->f, c->h)
                                        : former_job(c->job, c->job_len);
        return;
    }
    switch (c->kind) {
    case MULTIPLY:
        lent.number = version->multiply(WHOLE(c->f), WHOLE(c->g), c->kept, WHOLE(lent.out));
        break;
    case INTEGRATE:
        lent.number = version->integrate(WHOLE(c->f), WHOLE(lent.out));
        break;
    case EVALUATE:
        lent.number = version->evaluate(WHOLE(c->f), FERRUNTZO_S / 3, WHOLE(lent.bounds));
        break;
    case QUOTIENT:
        lent.number = version->quotient(WHOLE(c->f), WHOLE(c->g), WHOLE(c->h), WHOLE(c->w),
                                        WHOLE(lent.scratch), WHOLE(lent.out), WHOLE(lent.numbers));
        break;
    case ROOT:
        lent.number = version->root(WHOLE(c->f), WHOLE(c->h), WHOLE(c->w), WHOLE(lent.scratch),
                                    WHOLE(lent.out), WHOLE(lent.numbers));
        break;
    case TIGHT_ROOT:
        lent.number = version->tight_root(WHOLE(c->f), WHOLE(c->h), WHOLE(c->w), WHOLE(lent.scratch),
                                          WHOLE(lent.out), WHOLE(lent.numbers));
        break;
    case FROM_SERIES:
        lent.number = version->from_series(WHOLE(c->series), WHOLE(lent.out));
        break;
    case QUOTIENT_OF_TWO:
        lent.number = version->quotient_of_two(WHOLE(c->f), WHOLE(c->g), WHOLE(c->first),
                                               WHOLE(c->second), WHOLE(lent.scratch),
                                               WHOLE(lent.selected));
        break;
    case MAKE_RECIPROCAL:
        lent.number = version->make_reciprocal(WHOLE(c->g), WHOLE(lent.record), WHOLE(lent.w),
                                               WHOLE(lent.outcome));
        break;
    case MAKE_QUOTIENT:
        lent.number = version->make_quotient(WHOLE(c->f), WHOLE(c->g), WHOLE(lent.record), WHOLE(lent.h),
                                             WHOLE(lent.w), WHOLE(lent.outcome));
        break;
    case CHECK:
        lent.number = version->check(c->job, c->job_len, WHOLE(lent.work), WHOLE(lent.scratch),
                                     WHOLE(lent.answer));
        break;
    case CONVERT_EDITION:
        lent.number = version->convert_edition(c->job, c->job_len, WHOLE(lent.output), WHOLE(lent.answer));
        break;
    case CHECK_WORKSHOP:
        lent.number = version->check_workshop(c->job, c->job_len, WHOLE(lent.work), WHOLE(lent.scratch),
                                              WHOLE(lent.workshop), WHOLE(lent.answer));
        break;
    case CHECK_SERVICE:
        lent.number = version->check_service(c->job, c->job_len, WHOLE(lent.work), WHOLE(lent.scratch),
                                             WHOLE(lent.service), WHOLE(lent.answer));
        break;
    }
}

static int has_version(int v, const struct bench_case *c)
{
    if (v == FORMER)
        return c->with_former;
    switch (c->kind) {
    case TIGHT_ROOT: return versions[v].tight_root != NULL;
    case QUOTIENT_OF_TWO: return versions[v].quotient_of_two != NULL;
    case MAKE_RECIPROCAL: return versions[v].make_reciprocal != NULL;
    case MAKE_QUOTIENT: return versions[v].make_quotient != NULL;
    case CONVERT_EDITION: return versions[v].convert_edition != NULL;
    case CHECK_WORKSHOP: return versions[v].check_workshop != NULL;
    case CHECK_SERVICE: return versions[v].check_service != NULL;
    default: return v != PASSES;
    }
}

/* Every case must be accepted, and all versions must leave the same in every area. */
static void compare_versions(void)
{
    for (int i = 0; i < case_count; i++) {
        struct areas first;
        for (int v = LIBRARY; v <= PASSES; v++) {
            if (!has_version(v, &cases[i]))
                continue;
            memset(&lent, 0x55, sizeof lent);
            call(v, &cases[i]);
            if (lent.number != 0)
                fail("refused", cases[i].name);
            if (cases[i].kind == QUOTIENT_OF_TWO && lent.selected[0] != FERRUNTZO_CHOSEN_SECOND)
                fail("the first is chosen", cases[i].name);
            if (v == LIBRARY)
                first = lent;
            else if (memcmp(&first, &lent, sizeof lent) != 0)
                fail("the versions differ", cases[i].name);
        }
    }
}

/* Whether a model has ends: whether 36 numbers are too few for one. */
static int has_ends(void)
{
    const struct bench_case *c = &cases[0];
    return ferruntzo_add(c->f, FERRUNTZO_MODEL_SIZE - 1, WHOLE(c->g), WHOLE(lent.out)) == FERRUNTZO_SHORT_AREA;
}

/* ---- Modes ---- */

static void count(int versions_called)
{
    for (int i = 0; i < case_count; i++)
        for (int v = 0; v < versions_called; v++)
            if (has_version(v, &cases[i]))
                for (int turn = 0; turn < 2; turn++)
                    call(v, &cases[i]);
}

static double now(void)
{
    struct timespec t;
    clock_gettime(CLOCK_MONOTONIC, &t);
    return (double)t.tv_sec * 1e9 + (double)t.tv_nsec;
}

/* Nanoseconds of one call in a row of them. */
static double time_row(int v, const struct bench_case *c, int calls)
{
    double began = now();
    for (int i = 0; i < calls; i++)
        call(v, c);
    return (now() - began) / calls;
}

/* The best of many rows of about 30 microseconds, the versions taken in turn. */
static void measure(double milliseconds)
{
    for (int i = 0; i < case_count; i++) {
        double best[VERSIONS];
        int calls[VERSIONS];
        for (int v = 0; v < VERSIONS; v++) {
            if (!has_version(v, &cases[i]))
                continue;
            best[v] = time_row(v, &cases[i], 3);
            calls[v] = best[v] < 30000 ? (int)(30000 / best[v]) + 1 : 1;
        }
        double until = now() + milliseconds * 1e6;
        for (int rounds = 0; now() < until || rounds < 30; rounds++) {
            for (int v = 0; v < VERSIONS; v++) {
                if (!has_version(v, &cases[i]))
                    continue;
                double t = time_row(v, &cases[i], calls[v]);
                if (t < best[v])
                    best[v] = t;
            }
        }
        for (int v = 0; v < VERSIONS; v++)
            if (has_version(v, &cases[i]))
                printf("%s|%s|%.1f\n", cases[i].name, versions[v].name, best[v]);
    }
}

#define STACK_BYTES 262144
#define PAINT 0xA5

static union {
    unsigned char bytes[STACK_BYTES];
    long double aligned;
} painted;
static ucontext_t caller, callee;
static int stack_version;
static const struct bench_case *stack_case;

static void on_painted_stack(void)
{
    if (stack_case != NULL)
        call(stack_version, stack_case);
}

/* Bytes from the top of the stack down to the lowest one that was written. */
static size_t stack_of(int v, const struct bench_case *c)
{
    memset(painted.bytes, PAINT, sizeof painted.bytes);
    stack_version = v;
    stack_case = c;
    if (getcontext(&callee) != 0)
        fail("no context", "stack");
    callee.uc_stack.ss_sp = painted.bytes;
    callee.uc_stack.ss_size = sizeof painted.bytes;
    callee.uc_link = &caller;
    makecontext(&callee, on_painted_stack, 0);
    if (swapcontext(&caller, &callee) != 0)
        fail("no context", "stack");
    size_t lowest = 0;
    while (lowest < sizeof painted.bytes && painted.bytes[lowest] == PAINT)
        lowest++;
    return sizeof painted.bytes - lowest;
}

static void stack(void)
{
    size_t empty = stack_of(0, NULL);
    for (int i = 0; i < case_count; i++)
        for (int v = LIBRARY; v <= PASSES; v++)
            if (has_version(v, &cases[i]))
                printf("%s|%s|%zu\n", cases[i].name, versions[v].name,
                       stack_of(v, &cases[i]) - empty);
}

static void former(void)
{
    for (int i = 0; i < case_count; i++) {
        if (!cases[i].with_former)
            continue;
        int32_t radius = 0;
        call(LIBRARY, &cases[i]);
        if (cases[i].kind == CHECK) {
            const int32_t *result = lent.work;
            for (uint32_t r = 0; r < lent.answer[0]; r++, result += FERRUNTZO_MODEL_SIZE)
                if (result[FERRUNTZO_PLACE_RADIUS] > radius)
                    radius = result[FERRUNTZO_PLACE_RADIUS];
        } else {
            radius = lent.out[FERRUNTZO_PLACE_RADIUS];
        }
        call(FORMER, &cases[i]);
        printf("%s|%.1f|%u|%d\n", cases[i].name, deviation, (unsigned)lent.number, (int)radius);
    }
}

int main(int argc, char **argv)
{
    int first = 2;
    const char *mode = argc > 1 ? argv[1] : "";
    double milliseconds = 0;
    if (strcmp(mode, "time") == 0 && argc > 2)
        milliseconds = atof(argv[first++]);
    if (first >= argc) {
        fprintf(stderr, "usage: bench count|alone|time MILLISECONDS|stack|former JOB..\n");
        return 2;
    }
    if (strcmp(mode, "former") == 0) {
        add_degree(FERRUNTZO_MAX_DEGREE);
        for (int i = first; i < argc; i++)
            add_job(argv[i]);
        former();
        return 0;
    }
    int alone = strcmp(mode, "alone") == 0;
    logged = alone || strcmp(mode, "count") == 0;
    for (int degree = 4; degree <= FERRUNTZO_MAX_DEGREE; degree++) {
        if ((degree & (degree - 1)) == 0) {
            add_degree(degree);
        } else if (logged) {
            add_quotient(degree);
            add_roots(degree);
        }
    }
    add_longest_search();
    add_makers();
    const struct bench_case *job = &cases[case_count], *last = NULL;
    for (int i = first; i < argc; i++)
        last = add_job(argv[i]);
    for (int results = 1; results <= 16; results *= 4)
        add_prefix(last, results);
    if (has_ends()) {
        for (int degree = 4; degree <= FERRUNTZO_MAX_DEGREE; degree *= 2)
            add_degree_on(degree);
        add_job_on(job);
    }
    if (versions[LIBRARY].convert_edition != NULL) {        /* before it, 255 was another kept degree */
        for (int degree = 4; degree <= FERRUNTZO_MAX_DEGREE; degree *= 2)
            add_open(degree);
        add_conversions(job);
    }
    for (int i = first; i < argc; i++)
        add_reports(job + i - first);
    if (!alone)
        compare_versions();
    if (logged)
        count(alone ? LIBRARY + 1 : VERSIONS);
    else if (strcmp(mode, "time") == 0)
        measure(milliseconds);
    else if (strcmp(mode, "stack") == 0)
        stack();
    else
        fail("unknown mode", mode);
    return 0;
}
