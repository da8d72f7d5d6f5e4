/* What steps.c, rest.c, look.c and sizes.c print with: sets, steps, answers and bytes, and what changed of a lent list. */
#ifndef PRINT_H
#define PRINT_H

#include <stdio.h>
#include <string.h>

#include "curveplan.h"
#include "curveplan_parts.h"

/* The curves of a set, in rising order. */
static inline void print_curves(uint64_t set)
{
    if (set == 0) {
        printf(" none");
    }
    for (; set != 0; set = curveplan_without_lowest(set)) {
        printf(" %u", (unsigned)curveplan_lowest(set));
    }
}

/* The step of a test. */
static inline void print_test_step(size_t position, unsigned test, uint64_t drops, uint64_t loads)
{
    printf("%u: test %u drop", (unsigned)position, test);
    print_curves(drops);
    printf(" load");
    print_curves(loads);
    printf("\n");
}

/* The end step. */
static inline void print_end_step(size_t position, uint64_t drops)
{
    printf("%u: end drop", (unsigned)position);
    print_curves(drops);
    printf("\n");
}

/* The steps, and the end step if something is held at the end. */
static inline void print_steps(size_t tests, const uint16_t *order, const uint64_t *drops, const uint64_t *loads, uint64_t end)
{
    for (size_t i = 0; i < tests; i++) {
        print_test_step(i, order[i], drops[i], loads[i]);
    }
    if (end != 0) {
        print_end_step(tests, end);
    }
}

/* The answer: a count of something, or the refusal. */
static inline void print_answer(const char *what, uint64_t answer, const char *of)
{
    if (curveplan_refused_48(answer)) {
        printf("%s: refused %u at %u\n", what, curveplan_number_48(answer), (unsigned)curveplan_figure_48(answer));
    } else {
        printf("%s: %u %s\n", what, (unsigned)answer, of);
    }
}

/* The bytes, and the end of the line. */
static inline void print_bytes(const uint8_t *bytes, size_t count)
{
    if (count == 0) {
        printf(" no bytes");
    }
    for (size_t i = 0; i < count; i++) {
        printf(" %02x", bytes[i]);
    }
    printf("\n");
}

/* Marks what is lent to a call that is refused .. */
static inline void mark(void *lent, size_t bytes) { memset(lent, 0xee, bytes); }

/* .. and says so if a byte changed. */
static inline void print_change(const void *lent, size_t bytes)
{
    for (size_t i = 0; i < bytes; i++) {
        if (((const uint8_t *)lent)[i] != 0xee) {
            printf("byte %u changed\n", (unsigned)i);
            return;
        }
    }
}

#endif
