/* Plain C99 version of the library and job checker of document 01.
   A model area is 37 numbers: degree, 33 coefficients, radius, lower and upper end.
   A candidate area is 34 numbers: degree, 33 coefficients; a series area has the
   coefficients of x^0 to x^32.
   Every function gives the refusal's number, 0 when accepted.  Areas are left as
   include/ferruntzo.h says. */
#ifndef PLAIN_H
#define PLAIN_H

#include <stddef.h>
#include <stdint.h>

uint32_t plain_add(const int32_t *a, size_t a_len, const int32_t *b, size_t b_len,
                   int32_t *out, size_t out_len);
uint32_t plain_subtract(const int32_t *a, size_t a_len, const int32_t *b, size_t b_len,
                        int32_t *out, size_t out_len);
uint32_t plain_multiply(const int32_t *a, size_t a_len, const int32_t *b, size_t b_len,
                        uint32_t kept, int32_t *out, size_t out_len);
uint32_t plain_integrate(const int32_t *a, size_t a_len, int32_t *out, size_t out_len);

/* bounds: low, high. */
uint32_t plain_evaluate(const int32_t *a, size_t a_len, int32_t p,
                        int64_t *bounds, size_t bounds_len);

/* The model of a power series. */
uint32_t plain_from_series(const int32_t *series, size_t series_len,
                           int32_t *out, size_t out_len);

/* numbers: m, N, b. */
uint32_t plain_quotient(const int32_t *f, size_t f_len, const int32_t *g, size_t g_len,
                        const int32_t *h, size_t h_len, const int32_t *w, size_t w_len,
                        int64_t *scratch, size_t scratch_len,
                        int32_t *out, size_t out_len,
                        uint64_t *numbers, size_t numbers_len);
uint32_t plain_root(const int32_t *f, size_t f_len,
                    const int32_t *h, size_t h_len, const int32_t *w, size_t w_len,
                    int64_t *scratch, size_t scratch_len,
                    int32_t *out, size_t out_len,
                    uint64_t *numbers, size_t numbers_len);

/* The radius is the least one; a root that has none is refused with 17 in place of 8. */
uint32_t plain_tight_root(const int32_t *f, size_t f_len,
                          const int32_t *h, size_t h_len, const int32_t *w, size_t w_len,
                          int64_t *scratch, size_t scratch_len,
                          int32_t *out, size_t out_len,
                          uint64_t *numbers, size_t numbers_len);

/* answer: 1 or 2 for the proposal chosen, and its radius; 0 and 0 when refused.  A proposal
   is 68 numbers, h and then w; a shorter one fails by itself. */
uint32_t plain_quotient_of_two(const int32_t *f, size_t f_len, const int32_t *g, size_t g_len,
                               const int32_t *first, size_t first_len,
                               const int32_t *second, size_t second_len,
                               int64_t *scratch, size_t scratch_len,
                               uint32_t *answer, size_t answer_len);

/* proposals.c: w for 1/g; h and w for f/g; values in units.  record: the values made, and the
   change last; outcome: 1 settled, 0 given up. */
uint32_t plain_make_reciprocal(const int32_t *g, size_t g_len,
                               double *record, size_t record_len,
                               int32_t *w, size_t w_len,
                               uint32_t *outcome, size_t outcome_len);
uint32_t plain_make_quotient(const int32_t *f, size_t f_len, const int32_t *g, size_t g_len,
                             double *record, size_t record_len,
                             int32_t *h, size_t h_len, int32_t *w, size_t w_len,
                             uint32_t *outcome, size_t outcome_len);
uint32_t plain_to_units(const double *values, size_t values_len,
                        int32_t *units, size_t units_len);

/* editions.c: a job of edition 1 or 2 becomes one of the other, with the same results.  answer: the
   length and 0, or 0 and the command when refused. */
uint32_t plain_convert_edition(const uint8_t *job, size_t job_len, uint8_t *out, size_t out_len,
                               uint32_t *answer, size_t answer_len);

/* 65536 times the first number of the version, 256 times the second, and the third. */
uint32_t plain_version(void);

/* answer: count and 0 when accepted, 0 and the command when refused. */
uint32_t plain_check(const uint8_t *job, size_t job_len,
                     int32_t *work, size_t work_len,
                     int64_t *scratch, size_t scratch_len,
                     uint32_t *answer, size_t answer_len);

/* The same, with a record of each result in room: number, degree, radius, and for the service m, N and b. */
uint32_t plain_check_workshop(const uint8_t *job, size_t job_len,
                              int32_t *work, size_t work_len,
                              int64_t *scratch, size_t scratch_len,
                              uint8_t *room, size_t room_len,
                              uint32_t *answer, size_t answer_len);
uint32_t plain_check_service(const uint8_t *job, size_t job_len,
                             int32_t *work, size_t work_len,
                             int64_t *scratch, size_t scratch_len,
                             uint8_t *room, size_t room_len,
                             uint32_t *answer, size_t answer_len);

#endif
