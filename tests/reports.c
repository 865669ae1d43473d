/* What the header promises of report records: every field, read by its constants, every length of the
   room and of the other areas, refusals, null pointers.  Exit status 0 when all holds. */
#include "expect.h"

#include <string.h>

#define BEHIND 5                                /* bytes behind the longest room that is lent */
#define LONGEST (FERRUNTZO_SERVICE_ROOM + 40)

typedef uint32_t check_entry(const uint8_t *, size_t, int32_t *, size_t, int64_t *, size_t, uint8_t *, size_t,
                             uint32_t *, size_t);

/* The two readings: what they are called by, their sizes, and where a record has its radius. */
static const struct reading {
    check_entry *check;
    size_t room, record, radius;
} readings[] = {
    {ferruntzo_check_workshop, FERRUNTZO_WORKSHOP_ROOM, FERRUNTZO_WORKSHOP_RECORD, FERRUNTZO_WORKSHOP_RADIUS},
    {ferruntzo_check_service, FERRUNTZO_SERVICE_ROOM, FERRUNTZO_SERVICE_RECORD, FERRUNTZO_SERVICE_RADIUS},
};
#define EACH(reading) const struct reading *reading = readings; reading < readings + COUNT(readings); reading++

static uint8_t job[FERRUNTZO_MAX_JOB_BYTES], room[LONGEST + BEHIND];
static size_t job_len;
static int32_t work[FERRUNTZO_WORK_SIZE], checked_work[FERRUNTZO_WORK_SIZE];
static int64_t scratch[FERRUNTZO_SCRATCH_SIZE];
static uint32_t answer[FERRUNTZO_ANSWER_SIZE], checked_answer[FERRUNTZO_ANSWER_SIZE];

static void put(const uint8_t *bytes, size_t count)
{
    memcpy(job + job_len, bytes, count);
    job_len += count;
}

#define PUT(...) put((const uint8_t[]){__VA_ARGS__}, sizeof(const uint8_t[]){__VA_ARGS__})
#define BEGIN(edition) (job_len = 0, PUT(FERRUNTZO_COMMAND_EDITION, edition))

static void put_number(uint32_t n)
{
    PUT(n & 255, n >> 8 & 255, n >> 16 & 255, n >> 24);
}

/* A block of this degree, with a constant. */
static void block(uint8_t degree, uint32_t value)
{
    PUT(degree);
    for (int k = 0; k < FERRUNTZO_COEFFICIENTS; k++)
        put_number(k == 0 ? value : 0);
}

static void load(uint8_t degree, uint32_t value, uint32_t radius)
{
    PUT(FERRUNTZO_COMMAND_LOAD);
    block(degree, value);
    put_number(radius);
}

/* The same on the interval from 0 to 1. */
static void load_on(uint8_t degree, uint32_t value, uint32_t radius)
{
    load(degree, value, radius);
    job[job_len - (1 + FERRUNTZO_BLOCK_BYTES + 4)] = FERRUNTZO_COMMAND_LOAD_ON;
    put_number(0);
    put_number(S);
}

/* Results 0 and 1: 4 and 4, results 2, 3 and 4 a quotient and both roots with an m, an N and a b. */
static void tests(void)
{
    load(2, 4 * S, 3);
    load(4, 4 * S, 5);
    PUT(FERRUNTZO_COMMAND_QUOTIENT, 0, 1);
    block(6, S + 5);
    block(9, S / 4 + 77);
    for (uint8_t root = FERRUNTZO_COMMAND_ROOT; root <= FERRUNTZO_COMMAND_TIGHT_ROOT; root++) {
        PUT(root, 1);
        block(5, 2 * S + 3);
        block(8, S / 4 + 11);
    }
}

/* Checks the job with a room of this length, whose bytes and those behind are 7 before. */
static uint32_t report(const struct reading *reading, size_t room_len)
{
    memset(room, 7, sizeof room);
    memset(work, 9, sizeof work);
    memset(scratch, 9, sizeof scratch);
    return reading->check(job, job_len, WHOLE(work), WHOLE(scratch), room, room_len, WHOLE(answer));
}

/* Whether bytes from .. to - 1 of the room have this value. */
static int filled(size_t from, size_t to, uint8_t value)
{
    for (size_t i = from; i < to; i++)
        if (room[i] != value)
            return 0;
    return 1;
}

/* Whether number, work, scratch and answer are those of ferruntzo_check. */
static int as_checked(uint32_t number)
{
    static const int64_t zeros[FERRUNTZO_SCRATCH_SIZE];
    EXPECT(memcmp(scratch, zeros, sizeof scratch) == 0);
    EXPECT(ferruntzo_check(job, job_len, WHOLE(checked_work), WHOLE(scratch), WHOLE(checked_answer)) == number);
    return memcmp(work, checked_work, sizeof work) == 0 && memcmp(answer, checked_answer, sizeof answer) == 0;
}

/* Whether the job is accepted with so many results, and their records have number, degree and radius. */
static int accepts(const struct reading *reading, uint32_t count)
{
    if (report(reading, reading->room + BEHIND) != FERRUNTZO_ACCEPTED || !as_checked(FERRUNTZO_ACCEPTED))
        return 0;
    EXPECT(answer[0] == count && answer[1] == 0);
    for (uint32_t i = 0; i < count; i++) {
        const uint8_t *record = room + reading->record * i;
        const int32_t *result = work + FERRUNTZO_MODEL_SIZE * i;
        EXPECT(record[FERRUNTZO_RECORD_NUMBER] == i);
        EXPECT(record[FERRUNTZO_RECORD_DEGREE] == result[FERRUNTZO_PLACE_DEGREE]);
        EXPECT(FERRUNTZO_FIELD(record + reading->radius) == (uint32_t)result[FERRUNTZO_PLACE_RADIUS]);
    }
    return filled(reading->record * count, reading->room, 0) && filled(reading->room, sizeof room, 7);
}

/* The sizes are those of 32 records, and a record's fields follow each other. */
static void sizes(void)
{
    for (EACH(reading))
        EXPECT(reading->room == FERRUNTZO_MAX_RESULTS * reading->record && reading->radius + 4 == reading->record);
    EXPECT(FERRUNTZO_RECORD_NUMBER == 0 && FERRUNTZO_RECORD_DEGREE == 1 && FERRUNTZO_WORKSHOP_RADIUS == 2);
    EXPECT(FERRUNTZO_SERVICE_M == 2 && FERRUNTZO_SERVICE_N == 6 && FERRUNTZO_SERVICE_B == 10);
    const uint8_t bytes[] = {0x78, 0x56, 0x34, 0xF2, 0x11};
    EXPECT(FERRUNTZO_FIELD(bytes) == 0xF2345678 && FERRUNTZO_FIELD(bytes + 1) == 0x11F23456);
}

/* m, N and b are what the test writes to numbers, and zero where no test ran. */
static void fields(void)
{
    const int32_t h[FERRUNTZO_CANDIDATE_SIZE] = {6, S + 5}, w[FERRUNTZO_CANDIDATE_SIZE] = {9, S / 4 + 77};
    const int32_t root[FERRUNTZO_CANDIDATE_SIZE] = {5, 2 * S + 3}, inverse[FERRUNTZO_CANDIDATE_SIZE] = {8, S / 4 + 11};
    int32_t out[FERRUNTZO_MODEL_SIZE];
    uint64_t numbers[5][FERRUNTZO_NUMBERS_SIZE] = {{0}};
    BEGIN(1);
    tests();
    PUT(FERRUNTZO_COMMAND_END);
    for (EACH(reading))
        EXPECT(accepts(reading, 5));
    const int32_t *f = work, *g = work + FERRUNTZO_MODEL_SIZE;
    EXPECT(ferruntzo_quotient(f, FERRUNTZO_MODEL_SIZE, g, FERRUNTZO_MODEL_SIZE, WHOLE(h), WHOLE(w), WHOLE(scratch), WHOLE(out),
                              WHOLE(numbers[2])) == 0);
    EXPECT(ferruntzo_root(g, FERRUNTZO_MODEL_SIZE, WHOLE(root), WHOLE(inverse), WHOLE(scratch), WHOLE(out),
                          WHOLE(numbers[3])) == 0);
    EXPECT(ferruntzo_tight_root(g, FERRUNTZO_MODEL_SIZE, WHOLE(root), WHOLE(inverse), WHOLE(scratch), WHOLE(out),
                                WHOLE(numbers[4])) == 0);
    for (int i = 0; i < 5; i++) {
        const uint8_t *record = room + FERRUNTZO_SERVICE_RECORD * i;
        EXPECT(FERRUNTZO_FIELD(record + FERRUNTZO_SERVICE_M) == numbers[i][0]);
        EXPECT(FERRUNTZO_FIELD(record + FERRUNTZO_SERVICE_N) == numbers[i][1]);
        EXPECT(FERRUNTZO_FIELD(record + FERRUNTZO_SERVICE_B) == numbers[i][2]);
        EXPECT((numbers[i][0] > 0) == (i >= 2) && (numbers[i][2] > 0) == (i >= 2));
    }
    EXPECT(numbers[2][0] == 310 && numbers[2][1] == 29 && numbers[2][2] == 8);
    EXPECT(memcmp(numbers[3], numbers[4], sizeof numbers[3]) == 0);     /* 0x21 and 0x22 differ in the radius */
    EXPECT(room[2 * FERRUNTZO_SERVICE_RECORD + FERRUNTZO_RECORD_DEGREE] == 6);
}

/* No result, one, 32: the last record ends where the room does. */
static void counts(void)
{
    for (uint8_t edition = 1; edition <= 2; edition++) {
        BEGIN(edition);
        for (uint32_t count = 0; count <= FERRUNTZO_MAX_RESULTS; count++) {
            job[job_len] = FERRUNTZO_COMMAND_END;
            job_len++;
            for (EACH(reading))
                EXPECT(accepts(reading, count));
            job_len--;
            (count % 2 ? load_on : load)((uint8_t)(count + 1), S, 0x0F808080 + 0x010101 * count);
        }
    }
    EXPECT(room[FERRUNTZO_SERVICE_ROOM - 1] == 0x0F && room[FERRUNTZO_SERVICE_ROOM - FERRUNTZO_SERVICE_RECORD] == 31);
    PUT(FERRUNTZO_COMMAND_END);                 /* a 33rd result */
    for (EACH(reading)) {
        EXPECT(report(reading, reading->room) == FERRUNTZO_TOO_MANY_RESULTS && as_checked(FERRUNTZO_TOO_MANY_RESULTS));
        EXPECT(filled(0, reading->room, 0) && filled(reading->room, sizeof room, 7) && answer[1] == 33);
    }
}

/* Every length of the room. */
static void lengths(void)
{
    for (int refused = 0; refused < 2; refused++) {
        BEGIN(2);
        tests();
        PUT(FERRUNTZO_COMMAND_END);
        job_len -= (size_t)refused;
        for (EACH(reading)) {
            for (size_t length = 0; length <= LONGEST; length++) {
                uint32_t number = report(reading, length);
                if (length < reading->room) {
                    EXPECT(number == FERRUNTZO_SHORT_AREA && filled(0, sizeof room, 7));
                    EXPECT(answer[0] == 0 && answer[1] == 0 && work[0] == 0x09090909 && scratch[0] == 0x0909090909090909);
                    continue;
                }
                EXPECT(number == (refused ? FERRUNTZO_JOB_ENDS : FERRUNTZO_ACCEPTED) && as_checked(number));
                EXPECT(filled(reading->record * (refused ? 0 : 5), reading->room, 0) && filled(reading->room, sizeof room, 7));
                EXPECT(refused || room[reading->record] == 1);
            }
        }
    }
}

/* Refusals behind results leave nothing of their records; number and command are those of the check. */
static void refusals(void)
{
    BEGIN(1);
    tests();
    size_t behind = job_len;
    static const struct {
        uint32_t number;
        uint8_t bytes[4];
    } commands[] = {{FERRUNTZO_BAD_VALUE, {0x7F}}, {FERRUNTZO_NOT_A_RESULT, {0x11, 0, 5, 0}}, {FERRUNTZO_BYTES_AFTER_END, {0, 0}},
                    {FERRUNTZO_JOB_ENDS, {0x10, 1, 2, 3}}, {FERRUNTZO_BAD_VALUE, {0x13, 0, 1, 40}}};
    for (size_t i = 0; i < COUNT(commands); i++) {
        job_len = behind;
        put(commands[i].bytes, 4);
        for (EACH(reading)) {
            EXPECT(report(reading, reading->room) == commands[i].number && as_checked(commands[i].number));
            EXPECT(answer[0] == 0 && answer[1] == 6 && filled(0, reading->room, 0) && filled(reading->room, sizeof room, 7));
        }
    }
    job_len = behind;
    load(33, S, 0);
    for (EACH(reading))
        EXPECT(report(reading, reading->room) == FERRUNTZO_BAD_MODEL && filled(0, reading->room, 0) && answer[1] == 6);
}

/* Every other area too short by one: none is touched, but for an answer that is long enough. */
static void short_areas(void)
{
    BEGIN(1);
    tests();
    PUT(FERRUNTZO_COMMAND_END);
    for (EACH(reading)) {
        for (int which = 0; which < 16; which++) {      /* a bit for each area that is too short */
            size_t less[4] = {which & 1, which >> 1 & 1, which >> 2 & 1, which >> 3};
            memset(room, 7, sizeof room);
            memset(work, 9, sizeof work);
            memset(scratch, 9, sizeof scratch);
            answer[0] = answer[1] = 5;
            uint32_t number = reading->check(job, job_len, work, COUNT(work) - less[0], scratch, COUNT(scratch) - less[1], room,
                                             reading->room - less[2], answer, COUNT(answer) - less[3]);
            EXPECT(number == (which == 0 ? FERRUNTZO_ACCEPTED : FERRUNTZO_SHORT_AREA));
            if (which == 0)
                continue;
            EXPECT(filled(0, sizeof room, 7) && work[0] == 0x09090909 && scratch[0] == 0x0909090909090909);
            EXPECT(less[3] ? answer[0] == 5 && answer[1] == 5 : answer[0] == 0 && answer[1] == 0);
        }
    }
}

/* Two jobs with the same triples and other candidates; unequal counts that leave the same. */
static void pairs(void)
{
    uint8_t rooms[2][FERRUNTZO_SERVICE_ROOM];
    for (EACH(reading)) {
        int service = reading->check == ferruntzo_check_service;
        for (uint32_t more = 0; more < 2; more++) {
            BEGIN(1);
            load(0, 4 * S, 0);
            PUT(FERRUNTZO_COMMAND_QUOTIENT, 0, 0);
            block(0, S);
            block(0, S / 4 + more);
            PUT(FERRUNTZO_COMMAND_END);
            EXPECT(accepts(reading, 2));
            memcpy(rooms[more], room, reading->room);
        }
        EXPECT((memcmp(rooms[0], rooms[1], reading->room) == 0) == !service);
        for (uint32_t count = 0; count < 2; count++) {
            BEGIN(1);
            if (count > 0)
                load(0, 0, 0);
            PUT(FERRUNTZO_COMMAND_END);
            EXPECT(accepts(reading, count) && filled(0, reading->room, 0));
        }
    }
}

/* A null pointer with length 0 is an empty area. */
static void null_pointers(void)
{
    for (EACH(reading)) {
        EXPECT(reading->check(NONE, NONE, NONE, NONE, NONE) == FERRUNTZO_SHORT_AREA);
        EXPECT(reading->check(NONE, WHOLE(work), WHOLE(scratch), NONE, WHOLE(answer)) == FERRUNTZO_SHORT_AREA);
        EXPECT(reading->check(NONE, WHOLE(work), WHOLE(scratch), WHOLE(room), WHOLE(answer)) == FERRUNTZO_JOB_ENDS);
    }
}

int main(void)
{
    sizes();
    fields();
    counts();
    lengths();
    refusals();
    short_areas();
    pairs();
    null_pointers();
    return failures != 0;
}
