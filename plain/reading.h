/* Reading the commands of a job: what plain.c checks and editions.c converts. */
#ifndef READING_H
#define READING_H

#include "areas.h"

#define BLOCK_BYTES (1 + 4 * COEFFICIENTS)
#define MAX_RESULTS 32
#define ANSWER_SIZE 2
#define DEFAULT_KEPT 255         /* the larger degree of the two factors; in edition 1 it is 32 */

enum { BAD_VALUE = 9, JOB_ENDS = 10, BYTES_AFTER_END = 11, NOT_A_RESULT = 12, TOO_MANY_RESULTS = 13 };

/* Operand bytes and result bytes of a command; 0 for an unknown one. */
static int known(uint8_t byte, size_t *width, size_t *names)
{
    switch (byte) {
    case 0x00: *width = 0;             *names = 0; return 1;
    case 0x01: *width = 1;             *names = 0; return 1;
    case 0x10: *width = BLOCK_BYTES + 4;     *names = 0; return 1;
    case 0x14: *width = BLOCK_BYTES + 12;    *names = 0; return 1;
    case 0x11:
    case 0x12: *width = 2;             *names = 2; return 1;
    case 0x13: *width = 3;             *names = 2; return 1;
    case 0x20: *width = 2 + 2 * BLOCK_BYTES; *names = 2; return 1;
    case 0x21:
    case 0x22: *width = 1 + 2 * BLOCK_BYTES; *names = 1; return 1;
    default: return 0;
    }
}

struct command {
    uint8_t byte;
    const uint8_t *operands;
    size_t names;                /* result bytes, the first of the operands */
};

/* Reads command number `command`, with so many results before it, and puts *position behind it:
   the refusal that its reading gives.  inline: -O2 puts it into each caller. */
static inline uint32_t read_command(const uint8_t *job, size_t job_len, size_t *position, uint32_t command,
                                    uint32_t count, struct command *read)
{
    size_t width, names;
    if (*position == job_len)
        return JOB_ENDS;
    uint8_t byte = job[*position];
    if (!known(byte, &width, &names) || (byte == 0x01) != (command == 0))
        return BAD_VALUE;
    if (job_len - *position - 1 < width)
        return JOB_ENDS;
    const uint8_t *operands = job + *position + 1;
    *position += 1 + width;
    *read = (struct command){byte, operands, names};
    if (byte == 0x01)
        return operands[0] == 1 || operands[0] == 2 ? 0 : BAD_VALUE;
    if (byte == 0x00)
        return *position < job_len ? BYTES_AFTER_END : 0;
    if (byte == 0x13 && operands[2] > MAX_DEGREE && operands[2] != DEFAULT_KEPT)
        return BAD_VALUE;
    for (size_t i = 0; i < names; i++)
        if (operands[i] >= count)
            return NOT_A_RESULT;
    return count == MAX_RESULTS ? TOO_MANY_RESULTS : 0;
}

#endif
