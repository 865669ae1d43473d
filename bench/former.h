/* The former check of the mill: 500 instants compared in floating point.  It proves
   nothing about the points between them; it is here to compare its cost. */
#ifndef FORMER_H
#define FORMER_H

#include <stddef.h>
#include <stdint.h>

#define FORMER_INSTANTS 500

/* The largest deviation found, in units: |f/g - h| and |sqrt(f) - h|.  f and g are
   model areas, h is a candidate area. */
double former_quotient(const int32_t *f, const int32_t *g, const int32_t *h);
double former_root(const int32_t *f, const int32_t *h);

/* The same over all quotients and roots of a job that reads well.  Loads and
   candidates are evaluated once each; sums, differences and products are formed
   from the values of their operands. */
double former_job(const uint8_t *job, size_t job_len);

#endif
