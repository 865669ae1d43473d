/* What the header promises of the kept degree 255, of jobs of edition 2 and of the converter: which
   bytes change, every length of its areas, null pointers.  Exit status 0 when all holds. */
#include "expect.h"

#include <string.h>

static uint8_t job[FERRUNTZO_MAX_JOB_BYTES], converted[FERRUNTZO_MAX_JOB_BYTES + 9];
static size_t job_len;
static int32_t work[FERRUNTZO_WORK_SIZE], other_work[FERRUNTZO_WORK_SIZE];
static int64_t scratch[FERRUNTZO_SCRATCH_SIZE];
static uint32_t answer[FERRUNTZO_ANSWER_SIZE], other_answer[FERRUNTZO_ANSWER_SIZE];

static void begin(uint8_t edition)
{
    job_len = 0;
    job[job_len++] = FERRUNTZO_COMMAND_EDITION;
    job[job_len++] = edition;
}

static void put(const uint8_t *bytes, size_t count)
{
    memcpy(job + job_len, bytes, count);
    job_len += count;
}

#define PUT(...) put((const uint8_t[]){__VA_ARGS__}, sizeof(const uint8_t[]){__VA_ARGS__})

/* The constant 2 with this degree byte. */
static void load(uint8_t degree)
{
    static const uint8_t rest[FERRUNTZO_BLOCK_BYTES + 4 - 5];
    PUT(FERRUNTZO_COMMAND_LOAD, degree, 0, 0, 0x20, 0);
    put(rest, sizeof rest);
}

static uint32_t check(const uint8_t *bytes, int32_t *results, uint32_t *told)
{
    return ferruntzo_check(bytes, job_len, results, FERRUNTZO_WORK_SIZE, WHOLE(scratch), told, FERRUNTZO_ANSWER_SIZE);
}

/* Whether the converted job is the job with these bytes at the place of the edition and of the kept
   degree, bytes behind stay, and both checks answer the same. */
static int converts(uint8_t edition, size_t kept_at, uint8_t kept)
{
    memset(converted, 7, sizeof converted);
    if (ferruntzo_convert_edition(job, job_len, WHOLE(converted), WHOLE(answer)) != 0)
        return 0;
    EXPECT(answer[0] == job_len && answer[1] == 0);
    for (size_t i = 0; i < sizeof converted; i++)
        EXPECT(converted[i] == (i == 1 ? edition : i == kept_at ? kept : i < job_len ? job[i] : 7));
    EXPECT(check(job, work, answer) == check(converted, other_work, other_answer));
    return memcmp(work, other_work, sizeof work) == 0 && memcmp(answer, other_answer, sizeof answer) == 0;
}

/* 255 keeps the larger degree, and 32 what 255 kept before. */
static void larger_degree(void)
{
    int32_t a[FERRUNTZO_MODEL_SIZE] = {2, S, 3, S, STANDARD}, b[FERRUNTZO_MODEL_SIZE] = {4, S, 0, 0, 0, S, STANDARD};
    int32_t open[FERRUNTZO_MODEL_SIZE], stated[FERRUNTZO_MODEL_SIZE];
    EXPECT(ferruntzo_multiply(WHOLE(a), WHOLE(b), FERRUNTZO_DEFAULT_KEPT, WHOLE(open)) == 0);
    EXPECT(ferruntzo_multiply(WHOLE(a), WHOLE(b), 4, WHOLE(stated)) == 0);
    EXPECT(memcmp(open, stated, sizeof open) == 0 && open[0] == 4 && open[FERRUNTZO_PLACE_RADIUS] > 0);
    EXPECT(ferruntzo_multiply(WHOLE(b), WHOLE(a), 255, WHOLE(open)) == 0);
    EXPECT(memcmp(open, stated, sizeof open) == 0);
    EXPECT(ferruntzo_multiply(WHOLE(a), WHOLE(b), FERRUNTZO_MAX_DEGREE, WHOLE(stated)) == 0);
    EXPECT(stated[0] == 6 && stated[FERRUNTZO_PLACE_RADIUS] < open[FERRUNTZO_PLACE_RADIUS]);
}

/* An open product of degrees 3 and 5, in both editions. */
static void conversions(void)
{
    for (uint8_t edition = 1; edition <= 2; edition++) {
        begin(edition);
        load(3);
        load(5);
        PUT(FERRUNTZO_COMMAND_MULTIPLY, 0, 1, 0xFF, FERRUNTZO_COMMAND_END);
        EXPECT(converts(3 - edition, job_len - 2, edition == 1 ? 32 : 5));
        EXPECT(answer[0] == 3 && work[2 * FERRUNTZO_MODEL_SIZE] == (edition == 1 ? 8 : 5));
    }
    begin(2);                                   /* a degree byte above 32 counts as 32; refused with 2 in both */
    load(40);
    PUT(FERRUNTZO_COMMAND_MULTIPLY, 0, 0, 0xFF, FERRUNTZO_COMMAND_END);
    EXPECT(converts(1, job_len - 2, 32) && answer[0] == 0 && answer[1] == 1);
    begin(2);                                   /* the longest job that there is */
    PUT(FERRUNTZO_COMMAND_LOAD_ON);
    memset(job + job_len, 0xFF, FERRUNTZO_BLOCK_BYTES + 12);
    job_len += FERRUNTZO_BLOCK_BYTES + 12;
    for (int i = 1; i < FERRUNTZO_MAX_RESULTS; i++) {
        PUT(FERRUNTZO_COMMAND_QUOTIENT, 0, 0);
        memset(job + job_len, 0xFF, 2 * FERRUNTZO_BLOCK_BYTES);
        job_len += 2 * FERRUNTZO_BLOCK_BYTES;
    }
    PUT(FERRUNTZO_COMMAND_END);
    EXPECT(job_len == FERRUNTZO_MAX_JOB_BYTES && converts(1, 0, FERRUNTZO_COMMAND_EDITION));
}

/* Whether a refusal leaves zeros in every byte of an output of this length, none behind it, and answers so. */
static int refuses(uint32_t number, size_t out_len, size_t answer_len, uint32_t command)
{
    uint8_t out[400];
    uint32_t told[5] = {9, 9, 9, 9, 9};
    memset(out, 7, sizeof out);
    if (ferruntzo_convert_edition(job, job_len, out, out_len, told, answer_len) != number)
        return 0;
    for (size_t i = 0; i < sizeof out; i++)
        EXPECT(out[i] == (i < out_len ? 0 : 7));
    EXPECT(told[2] == 9 && told[3] == 9 && told[4] == 9);
    return answer_len < 2 ? told[0] == 9 && told[1] == 9 : told[0] == 0 && told[1] == command;
}

static void refusals(void)
{
    begin(2);
    load(33);
    PUT(0x7F);
    EXPECT(check(job, work, answer) == FERRUNTZO_BAD_MODEL && answer[1] == 1);
    EXPECT(refuses(FERRUNTZO_BAD_VALUE, 400, 2, 2));    /* the load is not looked at */
    EXPECT(refuses(FERRUNTZO_BAD_VALUE, 3, 5, 2));      /* 9 before 20 */
    job[job_len - 1] = FERRUNTZO_COMMAND_END;
    for (size_t out_len = 0; out_len < 400; out_len++) {
        for (size_t answer_len = 0; answer_len < 2; answer_len++)
            EXPECT(refuses(FERRUNTZO_SHORT_AREA, out_len, answer_len, 0));
        if (out_len < job_len)
            EXPECT(refuses(FERRUNTZO_SHORT_OUTPUT, out_len, 2 + out_len % 4, 0));
    }
    job[1] = 3;
    EXPECT(refuses(FERRUNTZO_BAD_VALUE, 400, 2, 0) && check(job, work, answer) == FERRUNTZO_BAD_VALUE);
    job_len--;
    job[1] = 1;
    EXPECT(refuses(FERRUNTZO_JOB_ENDS, 400, 2, 2));
}

/* A null pointer with length 0 is an empty area. */
static void null_pointers(void)
{
    EXPECT(ferruntzo_convert_edition(NONE, NONE, NONE) == FERRUNTZO_SHORT_AREA);
    EXPECT(ferruntzo_convert_edition(NONE, NONE, WHOLE(answer)) == FERRUNTZO_JOB_ENDS);
    begin(1);
    PUT(FERRUNTZO_COMMAND_END);
    EXPECT(ferruntzo_convert_edition(job, job_len, NONE, WHOLE(answer)) == FERRUNTZO_SHORT_OUTPUT);
}

int main(void)
{
    larger_degree();
    conversions();
    refusals();
    null_pointers();
    return failures != 0;
}
