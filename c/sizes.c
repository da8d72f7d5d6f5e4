/*
 * Which drive to buy: the loads that a list of tests needs with 1 to 64 places, and the fewest places for a wanted count. First job A of document 01, in its own
 * order and in another, then a longer list, one that wants all curves at once, one without tests, and lists that are refused. At last the table of job A as text.
 */
#include <stdio.h>

#include "curveplan.h"
#include "curveplan_parts.h"
#include "print.h"

#define TESTS 8 /* of the longest list */

struct list {
    size_t curves;
    size_t tests;
    uint64_t wants[TESTS];
    uint16_t order[TESTS];
};

/* The sizes up to the one from which more places save no load. */
static void print_sizes(const struct list *l)
{
    uint16_t counts[CURVEPLAN_SIZES];
    mark(counts, sizeof counts);
    uint64_t answer = curveplan_all_sizes(l->curves, l->wants, l->tests, l->order, l->tests, counts);
    if (answer != 0) {
        print_answer("sizes", answer, "");
        print_change(counts, sizeof counts);
        return;
    }
    size_t p = 1;
    for (;; p++) {
        if (counts[p - 1] == CURVEPLAN_TOO_FEW) {
            printf("%u places: too few\n", (unsigned)p);
        } else {
            printf("%u places: %u loads\n", (unsigned)p, counts[p - 1]);
        }
        if (counts[p - 1] == counts[CURVEPLAN_SIZES - 1]) {
            break;
        }
    }
    for (; p < CURVEPLAN_SIZES; p++) {
        if (counts[p] != counts[CURVEPLAN_SIZES - 1]) {
            printf("%u places: %u loads, which is not the least\n", (unsigned)(p + 1), counts[p]);
        }
    }
    printf("more places: no fewer loads\n");
}

static void print_fewest(const struct list *l, size_t loads)
{
    uint64_t answer = curveplan_fewest_places(l->curves, l->wants, l->tests, l->order, l->tests, loads);
    printf("at most %llu loads", (unsigned long long)loads);
    if (answer == 0) {
        printf(": none\n");
    } else {
        print_answer("", answer, "places");
    }
}

int main(void)
{
    /* {0,1} {1,2} {0,1} {3} */
    struct list a = {4, 4, {0x3, 0x6, 0x3, 0x8}, {0, 1, 2, 3}};
    printf("job A\n");
    print_sizes(&a);
    for (size_t loads = 3; loads <= 6; loads++) {
        print_fewest(&a, loads);
    }
    a.order[0] = 2, a.order[1] = 0, a.order[2] = 1;
    printf("in the order 2 0 1 3\n");
    print_sizes(&a);

    /* {0,1} {2,3} {0,4} {1,5} {2,3} {0,1} {4,5} {0,2} */
    struct list longer = {6, 8, {0x03, 0x0c, 0x11, 0x22, 0x0c, 0x03, 0x30, 0x05}, {0, 1, 2, 3, 4, 5, 6, 7}};
    printf("eight tests\n");
    print_sizes(&longer);
    static const size_t wanted[] = {5, 6, 7, 8, 10, 13, 14, 65535, (size_t)-1};
    for (size_t i = 0; i < sizeof wanted / sizeof wanted[0]; i++) {
        print_fewest(&longer, wanted[i]);
    }

    struct list all = {64, 1, {~(uint64_t)0}, {0}};
    printf("one test that wants all curves\n");
    print_fewest(&all, 63);
    print_fewest(&all, 64);
    print_fewest(&all, 65535);

    struct list none = {1, 0, {0}, {0}};
    printf("no tests\n");
    print_sizes(&none);
    print_fewest(&none, 0);

    printf("refused\n");
    a.curves = 0;
    print_sizes(&a);
    a.curves = 3;
    print_sizes(&a);
    print_fewest(&a, 5);
    a.curves = 4;
    a.order[3] = 2;
    print_sizes(&a);
    print_fewest(&a, 5);

    static const uint8_t job_a[] = {0x07, 0x02, 0x04, 0x04, 0x00, 0x01, 0x03, 0x01, 0x06, 0x01, 0x03, 0x01, 0x08};
    uint8_t text[CURVEPLAN_TABLE_BYTES];
    uint64_t bytes = curveplan_size_table(job_a, sizeof job_a, 1, 5, text, sizeof text);
    printf("as text\n%.*s", (int)bytes, (const char *)text);
    print_answer("in one byte", curveplan_size_table(job_a, sizeof job_a, 1, 5, text, 1), "bytes");
    return 0;
}
