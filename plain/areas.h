/* What the sources share: limits, refusals, cleared areas. */
#ifndef AREAS_H
#define AREAS_H

#include <stddef.h>
#include <stdint.h>
#include <string.h>

#define UNIT 1048576             /* S: one unit is 1/S */
#define LIMIT 268435456          /* largest weight, radius, N and size of an end */
#define MAX_DEGREE 32
#define COEFFICIENTS 33
#define RADIUS 34                /* places of the radius and the ends in a model area */
#define LOWER 35
#define UPPER 36
#define MODEL_SIZE 37
#define CANDIDATE_SIZE 34
#define NUMBERS_SIZE 3           /* m, N, b */

enum { SHORT_AREA = 1, BAD_MODEL = 2, BAD_ENDS = 18, DIFFERENT_INTERVALS = 19 };

/* Clears an area that has its numbers, whatever the others have, and says whether it has. */
#define CLEAR(area, size) clear(area, area##_len, size, sizeof *(area))

static int clear(void *area, size_t length, size_t size, size_t width)
{
    if (length < size)
        return 0;
    memset(area, 0, size * width);
    return 1;
}

#endif
