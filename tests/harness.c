/* Reads binary cases from standard input, calls the entries under test and
   writes their answers.  Compile with -DPREFIX=plain_ or -DPREFIX=ferruntzo_,
   and with -DWITH_ADD, -DWITH_SUBTRACT, ... for each entry that exists.  The
   header is there so that the compiler compares the declarations below with it.

   A case, little-endian:
     u8 entry, u8 number of areas, u32 scalar (kept degree or point), then per
     area: u8 width of a number in bytes, u32 length told to the entry, u32
     numbers in all (guards included), the numbers themselves; a double as its
     64 bits, so that no reading or printing of decimals comes between.
   An answer: u32 refusal, then all numbers of all areas, in the same order. */
#include "ferruntzo.h"

#include <stdio.h>
#include <stdlib.h>

#define JOIN_(a, b) a##b
#define JOIN(a, b) JOIN_(a, b)
#define ENTRY(name) JOIN(PREFIX, name)

uint32_t ENTRY(add)(const int32_t *, size_t, const int32_t *, size_t, int32_t *, size_t);
uint32_t ENTRY(subtract)(const int32_t *, size_t, const int32_t *, size_t, int32_t *, size_t);
uint32_t ENTRY(multiply)(const int32_t *, size_t, const int32_t *, size_t, uint32_t,
                         int32_t *, size_t);
uint32_t ENTRY(integrate)(const int32_t *, size_t, int32_t *, size_t);
uint32_t ENTRY(evaluate)(const int32_t *, size_t, int32_t, int64_t *, size_t);
uint32_t ENTRY(quotient)(const int32_t *, size_t, const int32_t *, size_t,
                         const int32_t *, size_t, const int32_t *, size_t,
                         int64_t *, size_t, int32_t *, size_t, uint64_t *, size_t);
uint32_t ENTRY(root)(const int32_t *, size_t, const int32_t *, size_t,
                     const int32_t *, size_t,
                     int64_t *, size_t, int32_t *, size_t, uint64_t *, size_t);
uint32_t ENTRY(tight_root)(const int32_t *, size_t, const int32_t *, size_t,
                           const int32_t *, size_t,
                           int64_t *, size_t, int32_t *, size_t, uint64_t *, size_t);
uint32_t ENTRY(check)(const uint8_t *, size_t, int32_t *, size_t, int64_t *, size_t,
                      uint32_t *, size_t);
uint32_t ENTRY(from_series)(const int32_t *, size_t, int32_t *, size_t);
uint32_t ENTRY(quotient_of_two)(const int32_t *, size_t, const int32_t *, size_t,
                                const int32_t *, size_t, const int32_t *, size_t,
                                int64_t *, size_t, uint32_t *, size_t);
uint32_t ENTRY(make_reciprocal)(const int32_t *, size_t, double *, size_t, int32_t *, size_t,
                                uint32_t *, size_t);
uint32_t ENTRY(make_quotient)(const int32_t *, size_t, const int32_t *, size_t, double *, size_t,
                              int32_t *, size_t, int32_t *, size_t, uint32_t *, size_t);
uint32_t ENTRY(to_units)(const double *, size_t, int32_t *, size_t);
uint32_t ENTRY(convert_edition)(const uint8_t *, size_t, uint8_t *, size_t, uint32_t *, size_t);
uint32_t ENTRY(check_workshop)(const uint8_t *, size_t, int32_t *, size_t, int64_t *, size_t,
                               uint8_t *, size_t, uint32_t *, size_t);
uint32_t ENTRY(check_service)(const uint8_t *, size_t, int32_t *, size_t, int64_t *, size_t,
                              uint8_t *, size_t, uint32_t *, size_t);

#define MAX_AREAS 8

struct area {
    void *numbers;
    size_t length;          /* as told to the entry */
    size_t bytes;           /* of the whole area, guards included */
};

static void fail(const char *what)
{
    fprintf(stderr, "harness: %s\n", what);
    exit(2);
}

static void read_exactly(void *to, size_t bytes)
{
    if (bytes > 0 && fread(to, 1, bytes, stdin) != bytes)
        fail("a case ends early");
}

static uint32_t read_u32(void)
{
    uint8_t b[4];
    read_exactly(b, sizeof b);
    return b[0] | (uint32_t)b[1] << 8 | (uint32_t)b[2] << 16 | (uint32_t)b[3] << 24;
}

static void read_area(struct area *area)
{
    uint8_t width;
    read_exactly(&width, 1);
    area->length = read_u32();
    area->bytes = (size_t)read_u32() * width;
    area->numbers = malloc(area->bytes > 0 ? area->bytes : 1);
    if (area->numbers == NULL)
        fail("no memory");
    read_exactly(area->numbers, area->bytes);
}

#define AREA(i) x[i].numbers, x[i].length

static uint32_t call(int entry, struct area *x, uint32_t scalar)
{
    (void)x;
    (void)scalar;
    switch (entry) {
#ifdef WITH_ADD
    case 0: return ENTRY(add)(AREA(0), AREA(1), AREA(2));
#endif
#ifdef WITH_SUBTRACT
    case 1: return ENTRY(subtract)(AREA(0), AREA(1), AREA(2));
#endif
#ifdef WITH_MULTIPLY
    case 2: return ENTRY(multiply)(AREA(0), AREA(1), scalar, AREA(2));
#endif
#ifdef WITH_INTEGRATE
    case 3: return ENTRY(integrate)(AREA(0), AREA(1));
#endif
#ifdef WITH_EVALUATE
    case 4: return ENTRY(evaluate)(AREA(0), (int32_t)scalar, AREA(1));
#endif
#ifdef WITH_QUOTIENT
    case 5: return ENTRY(quotient)(AREA(0), AREA(1), AREA(2), AREA(3), AREA(4), AREA(5),
                                   AREA(6));
#endif
#ifdef WITH_ROOT
    case 6: return ENTRY(root)(AREA(0), AREA(1), AREA(2), AREA(3), AREA(4), AREA(5));
#endif
#ifdef WITH_CHECK
    case 7: return ENTRY(check)(AREA(0), AREA(1), AREA(2), AREA(3));
#endif
#ifdef WITH_FROM_SERIES
    case 8: return ENTRY(from_series)(AREA(0), AREA(1));
#endif
#ifdef WITH_QUOTIENT_OF_TWO
    case 9: return ENTRY(quotient_of_two)(AREA(0), AREA(1), AREA(2), AREA(3), AREA(4), AREA(5));
#endif
#ifdef WITH_MAKE_RECIPROCAL
    case 10: return ENTRY(make_reciprocal)(AREA(0), AREA(1), AREA(2), AREA(3));
#endif
#ifdef WITH_MAKE_QUOTIENT
    case 11: return ENTRY(make_quotient)(AREA(0), AREA(1), AREA(2), AREA(3), AREA(4), AREA(5));
#endif
#ifdef WITH_TO_UNITS
    case 12: return ENTRY(to_units)(AREA(0), AREA(1));
#endif
#ifdef WITH_TIGHT_ROOT
    case 13: return ENTRY(tight_root)(AREA(0), AREA(1), AREA(2), AREA(3), AREA(4), AREA(5));
#endif
#ifdef WITH_CONVERT_EDITION
    case 14: return ENTRY(convert_edition)(AREA(0), AREA(1), AREA(2));
#endif
#ifdef WITH_CHECK_WORKSHOP
    case 15: return ENTRY(check_workshop)(AREA(0), AREA(1), AREA(2), AREA(3), AREA(4));
#endif
#ifdef WITH_CHECK_SERVICE
    case 16: return ENTRY(check_service)(AREA(0), AREA(1), AREA(2), AREA(3), AREA(4));
#endif
    default: fail("an entry that was not compiled in");
    }
    return 0;
}

int main(void)
{
    uint8_t head[2];
    while (fread(head, 1, 2, stdin) == 2) {
        struct area areas[MAX_AREAS];
        if (head[1] > MAX_AREAS)
            fail("too many areas");
        uint32_t scalar = read_u32();
        for (int i = 0; i < head[1]; i++)
            read_area(&areas[i]);
        uint32_t number = call(head[0], areas, scalar);
        uint8_t answer[4] = {number & 255, number >> 8 & 255, number >> 16 & 255,
                             number >> 24};
        fwrite(answer, 1, 4, stdout);
        for (int i = 0; i < head[1]; i++) {
            fwrite(areas[i].numbers, 1, areas[i].bytes, stdout);
            free(areas[i].numbers);
        }
    }
    return 0;
}
