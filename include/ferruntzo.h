/* ferruntzo.h: the Ferruntzo library for C99 and C++.

   The library checks Chebyshev certificates.  Polynomials in the Chebyshev
   basis, each on its own interval, are added, subtracted, multiplied, integrated
   and evaluated with a proved error radius; models are made of power series; a
   proposed quotient or square root is accepted with a proved radius or refused, a
   root by either of two tests; of two proposals for one quotient the tighter is
   chosen; proposals for reciprocals and quotients are made in double arithmetic, for
   these tests to judge; and a whole job of such commands is checked, with a report
   record of each result if one is wanted, or converted from one edition of the format
   to the other.

   Link with libferruntzo.a, which scripts/build_library makes (x86-64, System V
   calling convention), or with libferruntzo.so, which is linked from it:

     cc -Iinclude program.c target/staticlib/libferruntzo.a

   examples/check_job.c, examples/report_job.c, examples/two_proposals.c and
   examples/make_proposal.c are programs to copy, docs/FORMAT.md the format of jobs.
   "01" below is the scope document that fixes every number but those of power series,
   of ties, of two proposals, of the scratch, of made proposals, of the tighter root
   test, of intervals, of editions and of report records, which change requests S-3,
   S-11, S-14, S-17, S-19, S-22, S-24, S-27 and S-30 fix.

   NUMBERS

   S = 2^20.  Coefficients, radii, ends and bounds are whole numbers of units, one
   unit being 1/S.  T_0 = 1, T_1 = x, T_(k+2) = 2 x T_(k+1) - T_k.

   A model area holds 37 numbers: the degree n (0 to 32), 33 coefficients
   a_0 .. a_32, the radius e, and the ends of its interval, the lower l and the
   upper u.  Coefficients beyond the degree are zero.  The weight,
   |a_0| + .. + |a_32|, the radius, |l| and |u| are each at most 2^28, and l < u.
   The interval is every fraction x with l <= S x <= u; every x and every value below is
   a fraction.  At x the model allows the value v when, with
   y = (2 S x - l - u) / (u - l), which is from -1 to 1,

     | v - (a_0 T_0(y) + .. + a_n T_n(y)) / S |  <=  e / S.

   With the ends -S and S (the standard interval) y is x, from -1 to 1.  Two operands
   of one call must have the same ends, and a result has its operands' ends.

   A candidate area holds 34 numbers: a model without its radius and its ends.  It is
   on the interval of its operands.

   A proposal holds 68 numbers: a candidate h for a quotient and, from place
   FERRUNTZO_CANDIDATE_SIZE on, its helper w.

   A series area holds 34 numbers: the degree n (0 to 32) and 33 coefficients
   p_0 .. p_32, in units, of the power series (p_0 + p_1 x + .. + p_n x^n) / S.
   Coefficients beyond the degree are zero, the weight |p_0| + .. + |p_32| is at
   most 2^28.

   The coefficients of products, integrals and models of series, and inside an
   evaluation S y and the T_k(y), are rounded to the nearest whole number, a tie to
   the even one; bounds are rounded outwards.  So a mirrored curve has mirrored answers:
   negating every coefficient of one factor, of an integrand or of a series negates
   those of the result and keeps its radius, its degree, its ends and the number
   answered; negating the odd coefficients of both factors ((l + u)/S - x for x) or of
   a series (-x for x) negates the odd ones of the result; and with l + u - p for p and
   the odd coefficients negated an evaluation keeps both bounds.  (-2^31 has no
   negation; a model or series with it is refused.  A point outside l to u is refused,
   and l + u - p then is outside too.)

   AREAS

   Each pointer is followed by the length of its area, counted in numbers, not
   in bytes.  The caller sees to it that
   - the pointer is aligned for its type, and as many numbers as the length
     says can be read there, and written where the pointer is not const;
   - an area that is written overlaps no other area of the same call.  Areas
     that are only read may overlap or be the same: a may be b;
   - a pointer is null only if its length is 0;
   - no other thread uses a written area, or writes a read one, during the call.
   Every content of every area is then taken; nothing else is asked of it, and
   what a written area held before plays no part.

   An area may be longer than needed: the numbers behind the needed ones play
   no part and keep their values.  No function keeps a pointer, allocates
   memory, or has state between calls, so calls on different areas may run at
   the same time.

   ANSWERS

   Each function but ferruntzo_version returns FERRUNTZO_ACCEPTED (0) or the number of
   a refusal.  It lists its refusals in the order in which they are tested; the first
   that applies is returned.  FERRUNTZO_SHORT_AREA (1), an area shorter than needed,
   comes before everything else.  A short proposal is not such an area: it fails
   with 1 by itself, and the other proposal is tested nonetheless.  "2 or 18 (f, g)"
   is 2 of f, 18 of f, 2 of g and 18 of g, in this order.

   What an area that is written holds afterwards depends on its own length, not
   on that of any other area:
   - An area that is itself shorter than needed is not touched.
   - out, bounds and numbers, the answer of ferruntzo_quotient_of_two, and all that
     ferruntzo_make_reciprocal, ferruntzo_make_quotient and ferruntzo_to_units
     write, are zero after every refusal, 1 included.  A zero model is no good one:
     its ends are 0 and 0, and as an operand it is refused with 18.
   - The first 16 numbers of scratch are zero after every call of
     ferruntzo_quotient, ferruntzo_root, ferruntzo_tight_root and
     ferruntzo_quotient_of_two.
   ferruntzo_check says what holds of its work, scratch and answer,
   ferruntzo_check_workshop and ferruntzo_check_service, which are like it there, what
   holds of their room, and ferruntzo_convert_edition what of its out, which has no size,
   and its answer.

   FROM 5.0 TO 5.1: WHAT IS NEW

   - ferruntzo_check_workshop and ferruntzo_check_service check a job and write a report
     record of each result, with the constants of their rooms and records and
     FERRUNTZO_FIELD.
   - FERRUNTZO_REPORT_SIZE, the former name of FERRUNTZO_NUMBERS_SIZE, is gone: it had
     nothing to do with these records.  A source that used it says FERRUNTZO_NUMBERS_SIZE.
   - Nothing else changes: a program that was linked with 5.0 runs as it did.

   FROM 4.x TO 5.0.0: WHAT A CALLER CHANGES

   - ferruntzo_multiply with the kept degree 255 (FERRUNTZO_DEFAULT_KEPT) keeps the larger
     degree of a and b, where it kept 32: the same call can answer a smaller degree and a
     larger radius, and nothing in its answer says so.  A caller who left the choice open
     states 32 to get the former results.
   - Jobs of edition 2, which were refused with 9, are checked.  In them the multiply byte
     0xFF stands for the larger degree of the two factors.  Jobs of edition 1 stay as they
     are: there it stands for 32.
   - ferruntzo_convert_edition and refusal 20 are new.

   FROM 3.x TO 4.0.0: WHAT A CALLER CHANGES

   - A model area has 37 numbers, where it had 35, and a work area 1184, where it had
     1120: result i stands at 37 * i, before at 35 * i.
   - Each model that a caller writes needs its ends, at FERRUNTZO_PLACE_LOWER and
     FERRUNTZO_PLACE_UPPER.  With -FERRUNTZO_S and FERRUNTZO_S everywhere each number
     that was answered stays, and each result has these ends.
   - An area of zeros, such as out after a refusal, was the zero model and was computed
     with; it is now refused with 18.
   - Command byte 0x14, which was refused with 9, loads a model with its ends.  Jobs
     without it stay as they are; the longest job that can be accepted has 8488 bytes,
     where it had 8480.
   - Refusals 18 and 19 are new.
   - Candidates, proposals and series have no ends, and keep their sizes. */
#ifndef FERRUNTZO_H
#define FERRUNTZO_H

#include <stddef.h>
#include <stdint.h>

#ifdef __cplusplus
extern "C" {
#endif

/* ---- Version ---- */

#define FERRUNTZO_VERSION_MAJOR 5
#define FERRUNTZO_VERSION_MINOR 1
#define FERRUNTZO_VERSION_PATCH 0
#define FERRUNTZO_VERSION "5.1.0"
/* What ferruntzo_version of a library of this version answers. */
#define FERRUNTZO_VERSION_NUMBER \
    (65536 * FERRUNTZO_VERSION_MAJOR + 256 * FERRUNTZO_VERSION_MINOR + FERRUNTZO_VERSION_PATCH)

/* ---- Limits ---- */

#define FERRUNTZO_S 1048576               /* one unit is 1/S */
#define FERRUNTZO_MAX_DEGREE 32
#define FERRUNTZO_MAX_WEIGHT 268435456    /* 2^28 */
#define FERRUNTZO_MAX_RADIUS 268435456    /* 2^28 */
#define FERRUNTZO_MAX_END 268435456       /* 2^28, of |l| and |u| */
#define FERRUNTZO_MAX_RESIDUAL 268435456  /* 2^28, of N in the tests */
#define FERRUNTZO_MAX_RESULTS 32          /* of a job */

/* ---- Sizes of the areas, in numbers ---- */

#define FERRUNTZO_MODEL_SIZE 37       /* int32_t: degree, coefficients, radius, ends; 35 before version 4.0.0 */
#define FERRUNTZO_CANDIDATE_SIZE 34   /* int32_t: degree, coefficients */
#define FERRUNTZO_PROPOSAL_SIZE 68    /* int32_t: degree, coefficients of h, then of w */
#define FERRUNTZO_SERIES_SIZE 34      /* int32_t: degree, coefficients of x^0 .. x^32 */
#define FERRUNTZO_BOUNDS_SIZE 2       /* int64_t: low, high */
#define FERRUNTZO_SCRATCH_SIZE 16     /* int64_t; 65 before version 3.0.0 */
#define FERRUNTZO_NUMBERS_SIZE 3      /* uint64_t: m, N, b */
#define FERRUNTZO_WORK_SIZE 1184      /* int32_t: 32 models; 1120 before version 4.0.0 */
#define FERRUNTZO_ANSWER_SIZE 2       /* uint32_t: count (of a conversion the length), command */
#define FERRUNTZO_SELECTION_SIZE 2    /* uint32_t: chosen, radius */
#define FERRUNTZO_VALUES_SIZE 33             /* double: values, of T_0 .. T_32 */
#define FERRUNTZO_RECIPROCAL_RECORD_SIZE 34  /* double: w_0 .. w_32, the change */
#define FERRUNTZO_QUOTIENT_RECORD_SIZE 67    /* double: the 33 of f times w, then the 34 of the reciprocal's record */
#define FERRUNTZO_OUTCOME_SIZE 1             /* uint32_t: given up or settled */

/* ---- Places inside a model area (also of a candidate and a series, which have no radius and no ends) ---- */

#define FERRUNTZO_PLACE_DEGREE 0
#define FERRUNTZO_PLACE_COEFFICIENTS 1  /* of a_0; a_k stands at 1 + k */
#define FERRUNTZO_PLACE_RADIUS 34
#define FERRUNTZO_PLACE_LOWER 35        /* l */
#define FERRUNTZO_PLACE_UPPER 36        /* u */
#define FERRUNTZO_COEFFICIENTS 33       /* how many there are */

/* A kept degree of a product that leaves the choice open: the larger degree of the two
   factors; 32 before version 5.0.0, and in jobs of edition 1. */
#define FERRUNTZO_DEFAULT_KEPT 255

/* ---- Which of two proposals is chosen ---- */

#define FERRUNTZO_CHOSEN_NONE 0
#define FERRUNTZO_CHOSEN_FIRST 1
#define FERRUNTZO_CHOSEN_SECOND 2

/* ---- How the rounds of a maker ended ---- */

#define FERRUNTZO_GIVEN_UP 0
#define FERRUNTZO_SETTLED 1

/* ---- Bytes of a job (docs/FORMAT.md) ---- */

#define FERRUNTZO_COMMAND_END 0x00
#define FERRUNTZO_COMMAND_EDITION 0x01
#define FERRUNTZO_COMMAND_LOAD 0x10     /* with the ends -S and S */
#define FERRUNTZO_COMMAND_ADD 0x11
#define FERRUNTZO_COMMAND_SUBTRACT 0x12
#define FERRUNTZO_COMMAND_MULTIPLY 0x13
#define FERRUNTZO_COMMAND_LOAD_ON 0x14  /* with its ends */
#define FERRUNTZO_COMMAND_QUOTIENT 0x20
#define FERRUNTZO_COMMAND_ROOT 0x21
#define FERRUNTZO_COMMAND_TIGHT_ROOT 0x22
#define FERRUNTZO_BLOCK_BYTES 133       /* degree byte and 33 coefficients */

/* No longer job is ever accepted or converted: edition, a load with its ends, 31 quotients, end. */
#define FERRUNTZO_MAX_JOB_BYTES 8488
/* The program jobcheck prints "too long" above this; the library has no limit. */
#define FERRUNTZO_PROGRAM_JOB_BYTES 65536

/* ---- Report records of a job: sizes and places in bytes ---- */

#define FERRUNTZO_WORKSHOP_ROOM 192     /* 32 records of the workshop */
#define FERRUNTZO_SERVICE_ROOM 576      /* 32 records of the service */
#define FERRUNTZO_WORKSHOP_RECORD 6     /* number, degree, radius; that of result i stands at 6 * i */
#define FERRUNTZO_SERVICE_RECORD 18     /* number, degree, m, N, b, radius; that of result i stands at 18 * i */
/* Inside a record: number and degree are a byte each, the others four bytes for FERRUNTZO_FIELD. */
#define FERRUNTZO_RECORD_NUMBER 0       /* of both readings */
#define FERRUNTZO_RECORD_DEGREE 1
#define FERRUNTZO_WORKSHOP_RADIUS 2
#define FERRUNTZO_SERVICE_M 2
#define FERRUNTZO_SERVICE_N 6
#define FERRUNTZO_SERVICE_B 10
#define FERRUNTZO_SERVICE_RADIUS 14

/* The number, unsigned and little-endian, in the four bytes (uint8_t) from a pointer on, which is
   evaluated four times: FERRUNTZO_FIELD(room + FERRUNTZO_SERVICE_RECORD * i + FERRUNTZO_SERVICE_M). */
#define FERRUNTZO_FIELD(bytes) \
    ((uint32_t)(bytes)[0] | (uint32_t)(bytes)[1] << 8 | (uint32_t)(bytes)[2] << 16 | (uint32_t)(bytes)[3] << 24)

/* ---- Refusals ---- */

enum ferruntzo_refusal {
    FERRUNTZO_ACCEPTED = 0,
    FERRUNTZO_SHORT_AREA = 1,             /* an area, or a proposal, is shorter than needed */
    FERRUNTZO_BAD_MODEL = 2,              /* degree, weight, radius, or a nonzero beyond the degree */
    FERRUNTZO_LARGE_RESULT = 3,           /* the result's weight or radius above 2^28, its degree above 32 */
    FERRUNTZO_POINT_OUTSIDE = 4,          /* p is not from l to u */
    FERRUNTZO_NOT_CONTRACTING = 5,        /* m >= S: the helper w is too far from the inverse */
    FERRUNTZO_LARGE_RESIDUAL = 6,         /* N > 2^28 */
    FERRUNTZO_HELPER_NOT_POSITIVE = 7,    /* both root tests: w_0 + .. + w_32 <= 0 */
    FERRUNTZO_NEGATIVE_DISCRIMINANT = 8,  /* root test: (S - m)^2 < 8 b M */
    FERRUNTZO_BAD_VALUE = 9,              /* unknown command, edition or kept degree; edition not first or again */
    FERRUNTZO_JOB_ENDS = 10,              /* the job ends inside a command or without an end */
    FERRUNTZO_BYTES_AFTER_END = 11,       /* bytes follow the end */
    FERRUNTZO_NOT_A_RESULT = 12,          /* a command names a result that is not there yet */
    FERRUNTZO_TOO_MANY_RESULTS = 13,      /* a 33rd result */
    FERRUNTZO_BAD_SERIES = 14,            /* a series' degree, weight, or a nonzero beyond the degree */
    FERRUNTZO_NOT_FINITE = 15,            /* g_0 is zero, or a value is not finite */
    FERRUNTZO_LARGE_PROPOSAL = 16,        /* the weight of a list turned into units is above 2^28 */
    FERRUNTZO_NO_RADIUS = 17,             /* tighter root test: no whole r from 0 to S has 2 M r^2 + b S^2 <= (S - m) S r */
    FERRUNTZO_BAD_ENDS = 18,              /* a model's ends: l >= u, or |l| or |u| above 2^28 */
    FERRUNTZO_DIFFERENT_INTERVALS = 19,   /* two operands on different intervals */
    FERRUNTZO_SHORT_OUTPUT = 20           /* a conversion's output is shorter than the job */
};

/* ---- The version at run time ----

   The version of the library that is linked or loaded, as 65536 times the first
   number, 256 times the second, and the third.  A library of the same first number and
   no smaller a second one has every function of this header. */
uint32_t ferruntzo_version(void);

/* ---- Plain operations on models ----

   Sizes: a, b and out 37, bounds 2.  Accepted: out holds the result, on the interval
   of the operands.  Refused: out is zero, if it has its 37 numbers.  A sum, difference
   or product of values that a and b allow at some x of their interval is allowed there
   by out. */

/* a + b and a - b: coefficient by coefficient, the larger degree, radii added.
   Refusals: 1 (a, b or out), 2 or 18 (a, b), 19, 3. */
uint32_t ferruntzo_add(const int32_t *a, size_t a_len,
                       const int32_t *b, size_t b_len,
                       int32_t *out, size_t out_len);

uint32_t ferruntzo_subtract(const int32_t *a, size_t a_len,
                            const int32_t *b, size_t b_len,
                            int32_t *out, size_t out_len);

/* a times b.  Coefficients beyond the kept degree are dropped and paid for in
   the radius.  kept is 0 to 32, or FERRUNTZO_DEFAULT_KEPT (255) for the larger degree
   of a and b; the result's degree is the smaller of the kept degree and the sum of the
   degrees.  Before version 5.0.0 255 stood for 32; 32 gives the former results.
   Refusals: 1 (a, b or out), 2 or 18 (a, b), 19, 9 (kept), 3. */
uint32_t ferruntzo_multiply(const int32_t *a, size_t a_len,
                            const int32_t *b, size_t b_len,
                            uint32_t kept,
                            int32_t *out, size_t out_len);

/* The integral from l/S to x: degree n + 1, radius n + 1 more than e (u - l)/S
   rounded up.  At every x of the interval two things hold of it.  It bounds the exact
   primitive from l/S of every list of coefficients that differ from those of a by at
   most e units in total.  And for a feed that no list describes, such as a certified
   quotient: whatever value that a allows is taken at each point, cut l/S to x into k
   equal strips and add left-end value times width; the sum differs from the integral's
   polynomial at x by at most the radius plus L (u - l)/(S k) units, for every k >= 1,
   where L is the sum of |a_k| k^2.
   docs/ENTRIES.md says which of the two to use when, and
   examples/integrate_quotient.c uses the second.
   Refusals: 1 (a or out), 2, 18, 3 (degree 32 always). */
uint32_t ferruntzo_integrate(const int32_t *a, size_t a_len,
                             int32_t *out, size_t out_len);

/* Bounds, in units, of every value that a allows at x = p/S.  p is from l to u.  S y
   is rounded to a whole number; where that is not exact, the bounds allow for it.
   bounds (2): bounds[0] <= S v <= bounds[1]; 0 and 0 when refused, if it has its
   2 numbers.
   Refusals: 1 (a or bounds), 2, 18, 4. */
uint32_t ferruntzo_evaluate(const int32_t *a, size_t a_len,
                            int32_t p,
                            int64_t *bounds, size_t bounds_len);

/* ---- Power series ----

   The model of a power series.  Each x^k is expanded in T_0 .. T_k, the
   coefficients are rounded to the nearest unit, and the radius is the sum of the
   absolute rounding differences, rounded up.  The degree stays, even if top
   coefficients become zero.  Accepted: out has the ends -S and S, and at every x from
   -1 to 1 it allows the exact value of the series.  The radius covers this
   rounding only; docs/FORMAT.md says how the model becomes a load of a job.
   About 11.6 kB of stack.
   Sizes: series 34, out 37.  Refused: out is zero, if it has its 37 numbers.
   Refusals: 1 (series or out), 14, 3 (rounding can take a weight near 2^28 above it). */
uint32_t ferruntzo_from_series(const int32_t *series, size_t series_len,
                               int32_t *out, size_t out_len);

/* ---- The tests ----

   h is the proposed answer, w a helper; docs/FORMAT.md says how to choose them.
   M is the weight of w.
   Sizes: f and g 37, h and w 34, scratch 16, out 37, numbers 3.
   Accepted: out holds h with the radius that the test gives and the ends of f; numbers
   holds 01's m, N and b.  Refused: out and numbers are zero.  The 16 numbers of
   scratch are zero after every call; a longer one changes no answer.  Each of the
   three areas is left as it was if it is itself too short. */

/* h for f/g, w near 1/g.  Accepted: at every x of the interval of f and g no value that
   g allows is zero, and each value of f over one of g is allowed by out.
   Refusals: 1 (any area), 2 or 18 (f, g), 2 (h or w), 19, 5, 6, 3 (the radius). */
uint32_t ferruntzo_quotient(const int32_t *f, size_t f_len,
                            const int32_t *g, size_t g_len,
                            const int32_t *h, size_t h_len,
                            const int32_t *w, size_t w_len,
                            int64_t *scratch, size_t scratch_len,
                            int32_t *out, size_t out_len,
                            uint64_t *numbers, size_t numbers_len);

/* h for the square root of f, w near 1/(2h).  Accepted: at every x of f's interval
   every value v that f allows is above 0.  Its root is allowed by out where it is a
   fraction; otherwise it lies within the radius, which is said of its square: with c the
   value of out's polynomial and r its radius / S, c + r >= 0, v <= (c + r)^2, and
   c - r <= 0 or (c - r)^2 <= v.  The radius is at most 2^27.
   Refusals: 1 (any area), 2 or 18 (f), 2 (h or w), 7, 5, 6, 8. */
uint32_t ferruntzo_root(const int32_t *f, size_t f_len,
                        const int32_t *h, size_t h_len,
                        const int32_t *w, size_t w_len,
                        int64_t *scratch, size_t scratch_len,
                        int32_t *out, size_t out_len,
                        uint64_t *numbers, size_t numbers_len);

/* The tighter root test: ferruntzo_root up to N and b; the radius is the least whole r
   from 0 to S with 2 M r^2 + b S^2 <= (S - m) S r, and 17 says that there is none.
   Accepted: as for ferruntzo_root, with this radius.  Where it accepts, ferruntzo_root
   accepts too, with a radius that is never smaller; it can refuse what ferruntzo_root
   accepts (f = 224 S, h = 16 S, w = S/32).
   Refusals: 1 (any area), 2 or 18 (f), 2 (h or w), 7, 5, 6, 17. */
uint32_t ferruntzo_tight_root(const int32_t *f, size_t f_len,
                              const int32_t *h, size_t h_len,
                              const int32_t *w, size_t w_len,
                              int64_t *scratch, size_t scratch_len,
                              int32_t *out, size_t out_len,
                              uint64_t *numbers, size_t numbers_len);

/* ---- Two proposals for one quotient ----

   first and second are proposals for f/g, of any length.  Each is tested by itself,
   as ferruntzo_quotient tests h and w; numbers behind the 68 play no part.  One
   shorter than 68 numbers fails with 1, before f and g are looked at.  If both
   pass, the one with the smaller radius is chosen, if the radii are equal the
   first; if just one passes, that one.
   Sizes: f and g 37, scratch 16, answer 2.

   Accepted: answer[0] is FERRUNTZO_CHOSEN_FIRST or FERRUNTZO_CHOSEN_SECOND,
   answer[1] the radius.  The coefficients are a part of the caller's own numbers:
   the FERRUNTZO_COEFFICIENTS (33) at first + FERRUNTZO_PLACE_COEFFICIENTS, or at
   second + FERRUNTZO_PLACE_COEFFICIENTS; their degree stands before them.  At every
   x of the interval of f and g no value that g allows is zero, and each value of f over
   one of g is allowed by these coefficients with this radius on this interval.

   Refused, 1 included: answer is FERRUNTZO_CHOSEN_NONE and 0; it is left as it was
   if it is itself too short.  The 16 numbers of scratch are zero after every call,
   also if both proposals are short, unless it is itself too short.

   Refusals: 1 (f, g, scratch or answer); then, if neither proposal passes, what the
   first fails with: 1 (first), 2 or 18 (f, g), 2 (h or w), 19, 5, 6, 3 (the radius).
   Both kinds of 1 are the same answer; the lengths tell a caller which it is. */
uint32_t ferruntzo_quotient_of_two(const int32_t *f, size_t f_len,
                                   const int32_t *g, size_t g_len,
                                   const int32_t *first, size_t first_len,
                                   const int32_t *second, size_t second_len,
                                   int64_t *scratch, size_t scratch_len,
                                   uint32_t *answer, size_t answer_len);

/* ---- Proposals made on the mill ----

   For a mill without a desktop: h and w for f/g, or w for 1/g alone, made from the
   models in double arithmetic.  Nothing that is made is trusted, and no radius comes
   with it: only the ordinary test, ferruntzo_quotient, vouches for h and w.  The radii
   of f and g play no part in making; the test counts them.  Their ends play none
   beyond 18 and 19.

   A value is a coefficient in units over S, as a double.  w starts as the constant
   1 / g_0.  A round makes w times (2 - g times w) of it, the constant 2 being zero
   beyond place 0; its change is the largest absolute difference of a coefficient
   before and after, each difference rounded.  After each round: settled,
   if the change is at most 2^-24; after 12 rounds without that: given up.  A product
   has degree 32: from zero, for each i of the first-named factor by rising i, and each
   j of the other by rising j, a_i b_j is added at place i + j, if that is at most 32,
   and then at |i - j|; the sums are halved last.  Each of these steps is rounded once,
   to the nearest double, ties to even, so that every bit of the answers is fixed.
   h is the product of f and the last w.  A value in units is the nearest whole number
   to value times S, a tie to the even one, without any other rounding.

   Settled and given up are both accepted (0), each with its lists:
   - record (double), of a reciprocal: w_0 .. w_32, then the change of the last round;
     of a quotient: the 33 values of f times w, then these 34 numbers.  Each is finite;
   - h and w: candidates of degree 32, in units, as ferruntzo_quotient takes them.  For
     a proposal p of ferruntzo_quotient_of_two lend p, 34 as h and p + 34, 34 as w;
   - outcome[0]: FERRUNTZO_SETTLED or FERRUNTZO_GIVEN_UP.  Its change is the last
     number of record.
   Settled proves nothing: g = S + S T_31 vanishes at its lower end, where y = -1, and
   settles in round 7, and ferruntzo_quotient then refuses it with 5.  (A lone w is
   tested as the quotient of the constant S, with the ends of g, by g, with w as both h
   and w.)  Given up need not fail the test.  Where g has a zero in its interval no
   proposal passes.

   Refused, 1 included: each area that is written is zero, if it has its numbers:
   record is +0.0, h, w and units have degree 0, outcome[0] is 0 (given up).

   The machine's double must be IEEE binary64, with the floating environment that a C
   program starts with: rounding to nearest, subnormal numbers kept, exceptions masked.
   (fesetround can change that, and so does linking with gcc -ffast-math.)  Overflow
   and invalid operations are how 15 arises: with exceptions enabled (feenableexcept) a
   call may trap, and exception flags may be set after a call.
   An area of doubles that is written may hold any bits before, signalling NaNs too.
   About 7.3 kB of stack.  There is no maker for roots; 15 and 16 never come of a job. */

/* w for 1/g.  Sizes: g 37, record 34, w 34, outcome 1.
   Refusals: 1 (any area), 2 or 18 (g), 15 (g_0 is zero, or a value is not finite in
   some round), 16 (the weight of w in units). */
uint32_t ferruntzo_make_reciprocal(const int32_t *g, size_t g_len,
                                   double *record, size_t record_len,
                                   int32_t *w, size_t w_len,
                                   uint32_t *outcome, size_t outcome_len);

/* h for f/g with its helper w.  Sizes: f and g 37, record 67, h and w 34, outcome 1.
   Refusals: 1 (any area), 2 or 18 (f, g), 19, 15 (g_0 is zero, or a value of w in some
   round or of f times w is not finite), 16 (the weight of h or of w in units, each its
   own). */
uint32_t ferruntzo_make_quotient(const int32_t *f, size_t f_len,
                                 const int32_t *g, size_t g_len,
                                 double *record, size_t record_len,
                                 int32_t *h, size_t h_len,
                                 int32_t *w, size_t w_len,
                                 uint32_t *outcome, size_t outcome_len);

/* The makers' last step by itself: units is the candidate of degree 32 whose
   coefficients are the values in units.  Sizes: values 33, units 34.
   Refusals: 1 (values or units), 15 (a value is infinite or a NaN), 16 (the
   weight). */
uint32_t ferruntzo_to_units(const double *values, size_t values_len,
                            int32_t *units, size_t units_len);

/* ---- Jobs ----

   A job is of edition 1 or 2.  They differ in one thing: where a multiply command leaves
   the kept degree open (0xFF), it is 32 in edition 1, and in edition 2 the larger degree
   of the two factors. */

/* Checks the job_len bytes at job, of any length and content.
   Sizes: work 1184, scratch 16, answer 2.

   Accepted: answer[0] is the count of results, 0 to 32, and answer[1] is 0.
   Result i is the model at work + 37 * i; the rest of the 1184 numbers is zero.
   Its degree is work[37 * i], its radius work[37 * i + FERRUNTZO_PLACE_RADIUS], its
   ends the two numbers behind that.  Results on different intervals stand in one job;
   only the two that one command names must be on the same.

   Refused with a number above 1: answer[0] is 0, answer[1] is the number of the
   refused command, counted from 0 (the edition is command 0); the 1184 numbers
   of work are zero.

   In both cases the 16 numbers of scratch are zero.

   Refused with 1: work and scratch are not touched.  If answer has its 2
   numbers they are 0 and 0; if it is too short it is not touched either.

   Refusals: 1 (answer, work or scratch); then, for each command in turn,
     9   unknown byte, no edition first, or edition again
     10  the job ends before the command or inside it
     9   edition neither 1 nor 2; kept degree from 33 to 254
     12  a named result that is not there yet
     13  a 33rd result
     2   the loaded model; h or w
     18  the loaded model
     19  two named results on different intervals
     7, 5, 6, 8, 17, 3   as the operation or test gives them
     11  bytes after the end */
uint32_t ferruntzo_check(const uint8_t *job, size_t job_len,
                         int32_t *work, size_t work_len,
                         int64_t *scratch, size_t scratch_len,
                         uint32_t *answer, size_t answer_len);

/* Check a job as ferruntzo_check does, and write a report record of each result to room,
   which has 32 records.  There are two readings of it: the workshop's has the number, degree
   and radius of a result, the service's also the m, N and b of its test.
   Sizes: work 1184, scratch 16, room 192 (workshop) or 576 (service), answer 2.

   Number, work, scratch and answer are those of ferruntzo_check on the same job, but that a
   room which is too short is refused with 1.

   Accepted: the record of result i is the 6 bytes at room + 6 * i of the workshop, the 18
   bytes at room + 18 * i of the service; the rest of the 192 or 576 bytes is zero, all of them
   if there is no result.  The bytes of a record, in this order:
     number   1 byte, i
     degree   1 byte, of result i, as work[37 * i]
     m, N, b  4 bytes each, of the service alone: what ferruntzo_quotient, ferruntzo_root or
              ferruntzo_tight_root writes to numbers for a command 0x20, 0x21 or 0x22; zero
              for every other command, since no test ran
     radius   4 bytes, of result i, as work[37 * i + FERRUNTZO_PLACE_RADIUS]
   Four bytes are an unsigned number, little-endian, which FERRUNTZO_FIELD reads.  The number is
   below 32, the degree at most 32, m below S, N at most 2^28, b at most the radius and the
   radius at most 2^28.

   Two accepted jobs of equal count leave the same 192 bytes exactly when their results agree
   in number, degree and radius, however their candidates differ, and the same 576 bytes
   exactly when they agree in m, N and b too.  (Of unequal count they can leave the same: a job
   of no result, and one that loads a model of degree 0 and radius 0, and nothing else.)

   Refused with a number above 1: the 192 or 576 bytes of room are zero; the number and the
   command in answer[1] are all that a refused job reports.

   Refused with 1: room is not touched, nor are work and scratch.  If answer has its 2 numbers
   they are 0 and 0, also if the room is what is too short.

   The bytes of room behind the 192 or 576 always stay.

   Refusals: 1 (answer, work, scratch or room); then those of ferruntzo_check. */
uint32_t ferruntzo_check_workshop(const uint8_t *job, size_t job_len,
                                  int32_t *work, size_t work_len,
                                  int64_t *scratch, size_t scratch_len,
                                  uint8_t *room, size_t room_len,
                                  uint32_t *answer, size_t answer_len);

uint32_t ferruntzo_check_service(const uint8_t *job, size_t job_len,
                                 int32_t *work, size_t work_len,
                                 int64_t *scratch, size_t scratch_len,
                                 uint8_t *room, size_t room_len,
                                 uint32_t *answer, size_t answer_len);

/* Converts the job_len bytes at job, a job of either edition, to the other one.  Its check
   and that of the converted job answer the same: the same results, or the same refusal at
   the same command.
   Sizes: answer 2; out may have any length.

   Only a job that reads well is converted: one of which no command gives 9 to 13 in the
   list of ferruntzo_check, whatever its models are.  No model is looked at: a load of
   degree 33 reads well, and a byte 0x7F behind it is refused with 9 at command 2, where
   ferruntzo_check refuses the load with 2 at command 1.

   Accepted: answer is the length and 0.  The length is job_len.  The first job_len bytes of
   out are the converted job: the second byte, the edition, becomes the other of 1 and 2;
   the kept degree of each multiply command that is 0xFF becomes what it stood for, 32 in
   edition 1, in edition 2 the larger degree of the two factors; every other byte is copied.
   The bytes of out behind them stay.  The degrees come from the commands alone: of a load
   or a test the degree byte of the model or of h, one above 32 counting as 32; of a sum or
   difference the larger of the two; of a product the smaller of the kept degree and the
   sum of the two.  No kept degree of a converted job is 0xFF, so converting it back does
   not restore one: it changes the edition alone.

   Refused, 1 included: every one of the out_len bytes of out is zero.  answer is 0 and the
   number of the refused command, counted from 0, with 20 it is 0 and 0; it is left as it
   was if it is itself too short.

   Refusals: 1 (answer); then the first of 9 to 13 that reading the whole job gives; 20 (out
   is shorter than the job). */
uint32_t ferruntzo_convert_edition(const uint8_t *job, size_t job_len,
                                   uint8_t *out, size_t out_len,
                                   uint32_t *answer, size_t answer_len);

#ifdef __cplusplus
}
#endif

#endif
