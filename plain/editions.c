/* Plain C99 version of the converter between the two editions of jobs. */
#include "plain.h"

#include "reading.h"

enum { SHORT_OUTPUT = 20 };

static uint8_t larger(uint8_t a, uint8_t b) { return a > b ? a : b; }

/* The degree that the result of a command has where all goes well, from those of the results before
   it; kept is what the byte of a multiply command stands for. */
static uint8_t result_degree(const struct command *c, const uint8_t *degrees, uint8_t kept)
{
    if (c->byte == 0x11 || c->byte == 0x12)
        return larger(degrees[c->operands[0]], degrees[c->operands[1]]);
    if (c->byte == 0x13) {
        int sum = degrees[c->operands[0]] + degrees[c->operands[1]];
        return sum < kept ? (uint8_t)sum : kept;
    }
    uint8_t degree = c->operands[c->names];      /* of the loaded model, or of h */
    return degree < MAX_DEGREE ? degree : MAX_DEGREE;
}

/* Reads the whole job before a byte is written; leaves the last command's number in *command, 0 with 20. */
static uint32_t convert(const uint8_t *job, size_t job_len, uint8_t *out, size_t out_len, uint32_t *command)
{
    uint8_t degrees[MAX_RESULTS], kept[MAX_RESULTS];
    size_t places[MAX_RESULTS], position = 0;    /* of the bytes that are replaced by those of kept */
    uint32_t count = 0, replaced = 0;
    struct command read;
    for (*command = 0;; ++*command) {
        uint32_t number = read_command(job, job_len, &position, *command, count, &read);
        if (number != 0)
            return number;
        if (read.byte == 0x00)
            break;
        if (read.byte == 0x01)
            continue;
        uint8_t stands_for = 0;
        if (read.byte == 0x13) {
            stands_for = read.operands[2];
            if (stands_for == DEFAULT_KEPT) {
                stands_for = MAX_DEGREE;
                if (job[1] == 2)
                    stands_for = larger(degrees[read.operands[0]], degrees[read.operands[1]]);
                kept[replaced] = stands_for;
                places[replaced++] = (size_t)(read.operands + 2 - job);
            }
        }
        degrees[count++] = result_degree(&read, degrees, stands_for);
    }
    *command = 0;
    if (out_len < job_len)
        return SHORT_OUTPUT;
    memcpy(out, job, job_len);
    out[1] = (uint8_t)(3 - job[1]);
    for (uint32_t i = 0; i < replaced; i++)
        out[places[i]] = kept[i];
    return 0;
}

uint32_t plain_convert_edition(const uint8_t *job, size_t job_len, uint8_t *out, size_t out_len,
                               uint32_t *answer, size_t answer_len)
{
    uint32_t number = SHORT_AREA, command;
    if (CLEAR(answer, ANSWER_SIZE)) {
        number = convert(job, job_len, out, out_len, &command);
        answer[number == 0 ? 0 : 1] = number == 0 ? (uint32_t)job_len : command;
    }
    if (number != 0 && out_len > 0)
        memset(out, 0, out_len);
    return number;
}
