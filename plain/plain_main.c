/* The program of document 01 over plain.c: checks a job from standard input.

     cc -std=c99 -O2 -Iinclude plain/plain_main.c plain/plain.c -o plain_jobcheck
     python3 tests/program.py plain_jobcheck */
#include "plain.h"

#include "ferruntzo.h"

#include <stdio.h>

#define LONGEST FERRUNTZO_PROGRAM_JOB_BYTES

int main(void)
{
    static uint8_t job[LONGEST + 1];
    static int32_t work[FERRUNTZO_WORK_SIZE];
    static int64_t scratch[FERRUNTZO_SCRATCH_SIZE];
    uint32_t answer[FERRUNTZO_ANSWER_SIZE];
    size_t length = fread(job, 1, sizeof job, stdin);
    if (length > LONGEST) {
        puts("too long");
        return 0;
    }
    uint32_t number = plain_check(job, length, work, FERRUNTZO_WORK_SIZE, scratch,
                                  FERRUNTZO_SCRATCH_SIZE, answer, FERRUNTZO_ANSWER_SIZE);
    if (number != 0) {
        printf("refused %u %u\n", (unsigned)number, (unsigned)answer[1]);
        return 0;
    }
    for (uint32_t i = 0; i < answer[0]; i++) {
        const int32_t *result = work + FERRUNTZO_MODEL_SIZE * i;
        printf("%u %d %d\n", (unsigned)i, (int)result[FERRUNTZO_PLACE_DEGREE],
               (int)result[FERRUNTZO_PLACE_RADIUS]);
    }
    printf("accepted %u\n", (unsigned)answer[0]);
    return 0;
}
