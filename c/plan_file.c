/*
 * Reads a job's bytes from standard input and writes its plan's bytes to standard output: none for a job without tests. A refusal goes to standard error, and
 * the exit status is 1.
 */
#include <stdio.h>

#include "curveplan.h"

int main(void)
{
    /* one byte more than the longest job: what stands behind it never changes the answer */
    uint8_t job[CURVEPLAN_JOB_BYTES + 1];
    uint8_t plan[CURVEPLAN_PLAN_BYTES];
    size_t len = fread(job, 1, sizeof job, stdin);
    if (ferror(stdin)) {
        perror("standard input");
        return 2;
    }
    uint64_t answer = curveplan_plan(job, len, plan, sizeof plan);
    if (curveplan_refused_16(answer)) {
        fprintf(stderr, "refused %u at %u\n", curveplan_number_16(answer), curveplan_figure_16(answer));
        return 1;
    }
    if (fwrite(plan, 1, (size_t)answer, stdout) != answer || fflush(stdout) != 0) {
        perror("standard output");
        return 2;
    }
    return 0;
}
