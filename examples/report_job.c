/* Checks a job and prints the report record of each result: number, degree, m, N, b
   and radius, as service staff read them.

     report_job          the job below: the square root of 2
     report_job FILE     the job in a file

   Build and run it in the repository root:

     scripts/build_library
     cc -std=c99 -Iinclude examples/report_job.c target/staticlib/libferruntzo.a -o report_job
     ./report_job

   A workshop calls ferruntzo_check_workshop with a room of FERRUNTZO_WORKSHOP_ROOM bytes and
   reads FERRUNTZO_WORKSHOP_RADIUS in records of FERRUNTZO_WORKSHOP_RECORD bytes: there are no
   m, N and b.  Exit status: 0 accepted, 1 refused, 2 no job. */
#include "ferruntzo.h"

#include <stdio.h>

/* The constant 2, exactly, and its root: h is 1482910 units and w 370728, near 1/(2h).  All
   bytes that are not named are zero; check_job.c writes a job with functions. */
static uint8_t job[FERRUNTZO_PROGRAM_JOB_BYTES] = {
    [0] = FERRUNTZO_COMMAND_EDITION, [1] = 1,
    [2] = FERRUNTZO_COMMAND_LOAD, [6] = 0x20,                           /* result 0: T_0 of 2 S */
    [140] = FERRUNTZO_COMMAND_ROOT,                                     /* result 1: of result 0 */
    [143] = 0x9e, [144] = 0xa0, [145] = 0x16,                           /* h: T_0 */
    [276] = 0x28, [277] = 0xa8, [278] = 0x05,                           /* w: T_0 */
    [408] = FERRUNTZO_COMMAND_END
};
static size_t job_len = 409;

static int read_file(const char *name)
{
    FILE *file = fopen(name, "rb");
    if (file == NULL) {
        perror(name);
        return 0;
    }
    job_len = fread(job, 1, sizeof job, file);
    int whole = fgetc(file) == EOF && !ferror(file);
    fclose(file);
    if (!whole)
        fprintf(stderr, "%s: longer than %d bytes, or cannot be read\n", name, FERRUNTZO_PROGRAM_JOB_BYTES);
    return whole;
}

/* A record is bytes: no struct is laid over it, and nothing is asked of its alignment. */
static void print_record(const uint8_t *record)
{
    printf("%6d %6d %10lu %10lu %10lu %10lu\n",
           record[FERRUNTZO_RECORD_NUMBER], record[FERRUNTZO_RECORD_DEGREE],
           (unsigned long)FERRUNTZO_FIELD(record + FERRUNTZO_SERVICE_M),
           (unsigned long)FERRUNTZO_FIELD(record + FERRUNTZO_SERVICE_N),
           (unsigned long)FERRUNTZO_FIELD(record + FERRUNTZO_SERVICE_B),
           (unsigned long)FERRUNTZO_FIELD(record + FERRUNTZO_SERVICE_RADIUS));
}

int main(int argc, char **argv)
{
    static int32_t work[FERRUNTZO_WORK_SIZE];
    static int64_t scratch[FERRUNTZO_SCRATCH_SIZE];
    static uint8_t room[FERRUNTZO_SERVICE_ROOM];
    uint32_t answer[FERRUNTZO_ANSWER_SIZE];

    if (argc > 2 || (argc == 2 && !read_file(argv[1])))
        return 2;
    uint32_t refusal = ferruntzo_check_service(job, job_len, work, FERRUNTZO_WORK_SIZE,
                                               scratch, FERRUNTZO_SCRATCH_SIZE,
                                               room, FERRUNTZO_SERVICE_ROOM,
                                               answer, FERRUNTZO_ANSWER_SIZE);
    if (refusal != FERRUNTZO_ACCEPTED) {
        /* The room is zero: number and command are all that a refused job reports. */
        printf("refused %u %u\n", (unsigned)refusal, (unsigned)answer[1]);
        return 1;
    }
    /* m, N and b are 0 where no test ran; a test may give 0 too, and the job's commands say which it is. */
    printf("%6s %6s %10s %10s %10s %10s\n", "result", "degree", "m", "N", "b", "radius");
    for (uint32_t i = 0; i < answer[0]; i++)
        print_record(room + FERRUNTZO_SERVICE_RECORD * i);
    printf("accepted %u\n", (unsigned)answer[0]);
    return 0;
}
