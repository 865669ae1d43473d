/* Writes a job, checks it and prints the radius of each result.

     check_job          the job of document 01: the square root of 4
     check_job FILE     the job in a file

   Build and run it in the repository root:

     scripts/build_library
     cc -std=c99 -Iinclude examples/check_job.c target/staticlib/libferruntzo.a -o check_job
     ./check_job

   It prints a line for each result, number, degree and radius in units of 1/S,
   then "accepted" and the count; or one line, "refused", the refusal's number
   and the command's.  Exit status: 0 accepted, 1 refused, 2 no job. */
#include "ferruntzo.h"

#include <stdio.h>

/* ---- Writing a job ---- */

struct job {
    uint8_t bytes[FERRUNTZO_PROGRAM_JOB_BYTES];
    size_t length;
};

/* A job that outgrows its bytes is cut off, and the check refuses it. */
static void put_byte(struct job *job, unsigned byte)
{
    if (job->length < sizeof job->bytes)
        job->bytes[job->length++] = (uint8_t)byte;
}

/* 32 bits, the lowest byte first. */
static void put_number(struct job *job, uint32_t number)
{
    put_byte(job, number & 255);
    put_byte(job, number >> 8 & 255);
    put_byte(job, number >> 16 & 255);
    put_byte(job, number >> 24);
}

/* A block: the degree (0 to 32) and 33 coefficients, zero beyond the degree. */
static void put_block(struct job *job, unsigned degree, const int32_t *coefficients)
{
    put_byte(job, degree);
    for (unsigned k = 0; k < FERRUNTZO_COEFFICIENTS; k++)
        put_number(job, k <= degree ? (uint32_t)coefficients[k] : 0);
}

/* The square root of 4.  The loaded curve is the constant 4, exactly (radius 0), for
   x from -1 to 1 (FERRUNTZO_COMMAND_LOAD_ON loads a curve with other ends, as two
   numbers behind the radius); it becomes result 0.  The solver proposes h = 2 for its root, and the helper
   w = 1/(2h) = 1/4.  The root becomes result 1. */
static void write_example(struct job *job)
{
    const int32_t four = 4 * FERRUNTZO_S, two = 2 * FERRUNTZO_S, quarter = FERRUNTZO_S / 4;
    put_byte(job, FERRUNTZO_COMMAND_EDITION);       /* command 0 */
    put_byte(job, 1);
    put_byte(job, FERRUNTZO_COMMAND_LOAD);          /* command 1 makes result 0 */
    put_block(job, 0, &four);
    put_number(job, 0);                     /* radius */
    put_byte(job, FERRUNTZO_COMMAND_ROOT);          /* command 2 makes result 1 */
    put_byte(job, 0);                       /* the root of result 0 */
    put_block(job, 0, &two);                /* h */
    put_block(job, 0, &quarter);            /* w */
    put_byte(job, FERRUNTZO_COMMAND_END);           /* command 3 */
}

static int read_file(struct job *job, const char *name)
{
    FILE *file = fopen(name, "rb");
    if (file == NULL) {
        perror(name);
        return 0;
    }
    job->length = fread(job->bytes, 1, sizeof job->bytes, file);
    int more = fgetc(file) != EOF, failed = ferror(file);
    fclose(file);
    if (more)
        fprintf(stderr, "%s: longer than %d bytes\n", name, FERRUNTZO_PROGRAM_JOB_BYTES);
    if (failed)
        fprintf(stderr, "%s: cannot be read\n", name);
    return !more && !failed;
}

/* ---- Checking it ---- */

static const char *const reasons[] = {
    "accepted", "an area is too short", "bad model or candidate", "result too large",
    "point outside", "helper too far from the inverse (m >= S)", "residual too large (N > 2^28)",
    "helper not positive", "no root radius ((S-m)^2 < 8bM)", "unknown command or value",
    "the job ends early", "bytes after the end", "not yet a result", "more than 32 results",
    "bad series", "a value is not finite", "proposal too large", "no radius of the tighter root test",
    "wrong ends of a model", "operands on different intervals"
};

/* The check writes into areas that the caller lends. */
static int check(const struct job *job)
{
    static int32_t work[FERRUNTZO_WORK_SIZE];
    static int64_t scratch[FERRUNTZO_SCRATCH_SIZE];
    uint32_t answer[FERRUNTZO_ANSWER_SIZE];

    uint32_t refusal = ferruntzo_check(job->bytes, job->length, work, FERRUNTZO_WORK_SIZE,
                                       scratch, FERRUNTZO_SCRATCH_SIZE,
                                       answer, FERRUNTZO_ANSWER_SIZE);
    if (refusal != FERRUNTZO_ACCEPTED) {
        printf("refused %u %u\n", (unsigned)refusal, (unsigned)answer[1]);
        if (refusal < sizeof reasons / sizeof reasons[0])
            fprintf(stderr, "command %u: %s\n", (unsigned)answer[1], reasons[refusal]);
        return 1;
    }
    for (uint32_t i = 0; i < answer[0]; i++) {
        const int32_t *result = work + FERRUNTZO_MODEL_SIZE * i;
        /* Coefficient k of the result is result[FERRUNTZO_PLACE_COEFFICIENTS + k], its ends are
           result[FERRUNTZO_PLACE_LOWER] and result[FERRUNTZO_PLACE_UPPER]. */
        printf("%u %d %d\n", (unsigned)i, (int)result[FERRUNTZO_PLACE_DEGREE],
               (int)result[FERRUNTZO_PLACE_RADIUS]);
    }
    printf("accepted %u\n", (unsigned)answer[0]);
    return 0;
}

int main(int argc, char **argv)
{
    static struct job job;
    if (argc > 2) {
        fprintf(stderr, "usage: check_job [FILE]\n");
        return 2;
    }
    if (argc == 2) {
        if (!read_file(&job, argv[1]))
            return 2;
    } else {
        write_example(&job);
    }
    return check(&job);
}
