/* Report records of a job's results: which of them plain.c writes while it runs. */
#ifndef REPORTS_H
#define REPORTS_H

#include "reading.h"

enum report { NO_REPORT, WORKSHOP, SERVICE };

/* Bytes of one record; of the service number, degree, m, N, b and radius, of the workshop without m, N and b. */
static size_t record_size(enum report report)
{
    return report == NO_REPORT ? 0 : report == WORKSHOP ? 6 : 18;
}

static size_t room_size(enum report report) { return MAX_RESULTS * record_size(report); }

/* A room of no records may be NULL. */
static void clear_room(enum report report, uint8_t *room)
{
    if (report != NO_REPORT)
        memset(room, 0, room_size(report));
}

/* Four bytes, the lowest first, and the place behind them. */
static uint8_t *write_field(uint8_t *at, uint64_t n)
{
    for (int k = 0; k < 4; k++)
        at[k] = n >> 8 * k & 255;
    return at + 4;
}

/* The record of result i; numbers are m, N and b of its test, zero if it had none. */
static void write_record(enum report report, uint8_t *room, uint32_t i, const int32_t *result, const uint64_t *numbers)
{
    if (report == NO_REPORT)
        return;
    uint8_t *at = room + i * record_size(report);
    at[0] = (uint8_t)i;
    at[1] = (uint8_t)result[0];
    at += 2;
    if (report == SERVICE)
        for (int k = 0; k < NUMBERS_SIZE; k++)
            at = write_field(at, numbers[k]);
    write_field(at, (uint64_t)result[RADIUS]);
}

#endif
