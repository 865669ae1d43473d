/* What the interface tests share: an expectation that names its line, and areas with their lengths. */
#ifndef EXPECT_H
#define EXPECT_H

#include "ferruntzo.h"

#include <stdio.h>

static int failures;

#define EXPECT(condition)                                               \
    do {                                                                \
        if (!(condition)) {                                             \
            fprintf(stderr, "%s:%d: %s\n", __FILE__, __LINE__, #condition); \
            failures++;                                                 \
        }                                                               \
    } while (0)

#define S FERRUNTZO_S

/* In a model's initializer, behind all else: ends of the interval. */
#define ON(lower, upper) [FERRUNTZO_PLACE_LOWER] = lower, upper
#define STANDARD ON(-S, S)

#define NONE NULL, 0
#define COUNT(area) (sizeof(area) / sizeof(area)[0])
#define WHOLE(area) area, COUNT(area)
#define SHORT(area) area, COUNT(area) - 1
#define CANDIDATE(area) area, FERRUNTZO_CANDIDATE_SIZE

#endif
