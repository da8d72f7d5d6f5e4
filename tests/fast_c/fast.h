/* The C call of the curve planner, written for speed: the measure that the library's call is compared with. */
#ifndef FAST_H
#define FAST_H

#include <stddef.h>
#include <stdint.h>

/* Answers as `curveplan_plan` does: the count of plan bytes, or a refusal's number × 65,536 plus its figure. */
uint64_t fast_plan(const uint8_t *job, size_t job_len, uint8_t *plan, size_t plan_len);

/* ---- its stages, each by itself, for the benchmark */

#define FAST_TESTS 256
#define FAST_BYTES (20 * FAST_TESTS + 16) /* of a plan: 20 for each step, 10 for the end step, 6 to spare; a set is written by nine stores, whatever it holds */

struct fast_job {
    unsigned capacity; /* the places less those booked */
    unsigned tests;    /* 0 to FAST_TESTS */
    unsigned method;
    uint64_t wants[FAST_TESTS]; /* zero behind the last test, up to a multiple of 64 */
    uint8_t sizes[FAST_TESTS];  /* how many curves each test wants */
};

/* Reads a job and sees that each test fits: 0, or the refusal. */
uint64_t fast_read(const uint8_t *bytes, size_t length, struct fast_job *job);

/* The order of the tests by the job's method; nothing is written for an empty list. */
void fast_order(const struct fast_job *job, uint8_t *order);

/* Plans the steps and the end step and writes them to `out`, which takes FAST_BYTES; answers the count of bytes, 0 for an empty list. */
size_t fast_steps(const struct fast_job *job, const uint8_t *order, uint8_t *out);

#endif
