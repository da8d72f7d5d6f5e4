/*
 * A host that plans the rest of a list from halfway. It plans a job and runs two of its steps. Then the engineers change the tests that are left and book two
 * of the four places: the new rest is planned from the curves that the drive holds, without unloading. So is a rest without tests. Last come holdings and
 * plans that are refused.
 */
#include <stdio.h>

#include "curveplan.h"
#include "curveplan_parts.h"
#include "print.h"

#define TESTS 4       /* of the job; a rest has fewer */
#define BOOKED 2      /* of the places, once the rest is changed */
#define EMPTY_DRIVE 0 /* nothing is held */

/* 4 places, 6 curves; the tests want 0 1 2, 1 2 3, 0 5 and 3 4, method 0 */
static const uint8_t job[] = {0x07, 0x04, 0x06, 0x04, 0x00, 0x01, 0x07, 0x01, 0x0e, 0x01, 0x21, 0x01, 0x18};

/* A list of tests, the drive that they are for, and the order in which they run. */
struct list {
    size_t places;
    size_t booked;
    size_t curves;
    size_t method;
    size_t tests;
    uint64_t wants[TESTS];
    uint16_t order[TESTS];
};

struct plan {
    uint64_t drops[TESTS];
    uint64_t loads[TESTS];
    uint64_t end;
};

/* Orders a list by its method; what is held has no part in it. */
static uint64_t order_list(struct list *l)
{
    return curveplan_order_tests(l->places, l->booked, l->curves, l->method, l->wants, l->tests, l->order, l->tests);
}

/* Plans a list in its order, from the curves held. */
static uint64_t plan_from(uint64_t held, const struct list *l, struct plan *p)
{
    return curveplan_plan_order(l->places, l->booked, l->curves, l->wants, l->tests, held, l->order, l->tests, p->drops, l->tests, p->loads, l->tests, &p->end);
}

/* Checks a plan, from the curves held. */
static uint64_t check_from(uint64_t held, const struct list *l, const struct plan *p)
{
    return curveplan_check_plan(l->places, l->booked, l->curves, l->wants, l->tests, held, l->order, l->tests, p->drops, l->tests, p->loads, l->tests, p->end);
}

/* Writes a plan's bytes, which do not tell what is held. */
static uint64_t write_from(uint64_t held, const struct list *l, const struct plan *p, uint8_t *out, size_t out_len)
{
    return curveplan_write_plan(l->places, l->booked, l->curves, l->wants, l->tests, held, l->order, l->tests, p->drops, l->tests, p->loads, l->tests, p->end,
                                out, out_len);
}

/* Carries out the first steps of a plan: of each the drops leave, then the loads enter. Answers what is held behind them. */
static uint64_t run_steps(uint64_t held, const struct plan *p, size_t steps)
{
    for (size_t i = 0; i < steps; i++) {
        held = curveplan_union(curveplan_without(held, p->drops[i]), p->loads[i]);
    }
    return held;
}

static void print_held(const char *when, uint64_t held)
{
    printf("held %s:", when);
    print_curves(held);
    printf("\n");
}

/* Orders a list, and prints how many tests it has, and for which drive. */
static void print_list(const char *what, struct list *l)
{
    printf("%s: %u tests, %u places, %u booked\n", what, (unsigned)l->tests, (unsigned)l->places, (unsigned)l->booked);
    print_answer("ordered", order_list(l), "tests");
}

/* Plans a list, and prints the plan. Answers whether there is one. */
static int print_plan(const char *what, uint64_t held, const struct list *l, struct plan *p)
{
    uint64_t answer = plan_from(held, l, p);
    print_answer(what, answer, "loads");
    if (curveplan_refused_48(answer)) {
        return 0;
    }
    print_steps(l->tests, l->order, p->drops, p->loads, p->end);
    return 1;
}

/* What comes in goes out: the curves held at the start and the loads are as many as the drops and the end set. */
static void print_balance(uint64_t held, const struct list *l, const struct plan *p)
{
    unsigned start = (unsigned)curveplan_size(held), end = (unsigned)curveplan_size(p->end), drops = 0, loads = 0;
    for (size_t i = 0; i < l->tests; i++) {
        drops += (unsigned)curveplan_size(p->drops[i]);
        loads += (unsigned)curveplan_size(p->loads[i]);
    }
    printf("held at the start %u + loads %u %s drops %u + end set %u\n", start, loads, start + loads == drops + end ? "=" : "is not", drops, end);
}

/* Writes a plan and reads it back. */
static void print_written(uint64_t held, const struct list *l, const struct plan *p)
{
    uint8_t bytes[CURVEPLAN_PLAN_BYTES];
    uint16_t order[TESTS] = {0};
    struct plan back = {0};
    uint64_t answer = write_from(held, l, p, bytes, sizeof bytes);
    print_answer("written", answer, "bytes");
    if (curveplan_refused_48(answer)) {
        return;
    }
    size_t len = (size_t)answer;
    printf("plan bytes:");
    print_bytes(bytes, len);
    answer = curveplan_read_plan(l->curves, l->tests, bytes, len, order, TESTS, back.drops, TESTS, back.loads, TESTS, &back.end);
    int same = back.end == p->end;
    for (size_t i = 0; i < l->tests; i++) {
        same &= order[i] == l->order[i] && back.drops[i] == p->drops[i] && back.loads[i] == p->loads[i];
    }
    print_answer("read back", answer, same ? "tests, the same plan" : "tests, another plan");
}

/* A rest, from its order to the empty drive behind its end step. Answers whether there is a plan. */
static int print_rest(const char *what, uint64_t held, struct list *rest, struct plan *p)
{
    print_list(what, rest);
    if (!print_plan("planned from what is held", held, rest, p)) {
        return 0;
    }
    print_answer("checked from what is held", check_from(held, rest, p), "loads");
    print_balance(held, rest, p);
    print_written(held, rest, p);
    held = run_steps(held, p, rest->tests);
    print_held("before the end step", held);
    print_held("behind the end step", curveplan_without(held, p->end));
    return 1;
}

/* Holdings that are refused, by 14, which is asked behind 13 and before 8. Nothing lent changes. */
static void print_refusals_of_holdings(uint64_t held, const struct list *rest, const struct plan *p)
{
    uint64_t foreign = curveplan_union(held, curveplan_union(curveplan_single(6), curveplan_single(9)));
    struct list twice = *rest, all_booked = *rest;
    struct plan lent;
    uint8_t bytes[CURVEPLAN_PLAN_BYTES];
    twice.order[0] = twice.order[1];
    all_booked.booked = all_booked.places;
    mark(&lent, sizeof lent);
    mark(bytes, sizeof bytes);
    print_answer("planned with 6 and 9 held, which the job lacks", plan_from(foreign, rest, &lent), "loads");
    print_answer("checked so", check_from(foreign, rest, p), "loads");
    print_answer("written so", write_from(foreign, rest, p, bytes, sizeof bytes), "bytes");
    print_answer("planned so, with a test twice in the order", plan_from(foreign, &twice, &lent), "loads");
    print_answer("planned so, with all places booked", plan_from(foreign, &all_booked, &lent), "loads");
    print_answer("a test twice in the order alone", plan_from(held, &twice, &lent), "loads");
    print_change(&lent, sizeof lent);
    print_change(bytes, sizeof bytes);
}

/* Plans that the check refuses, from what is held. */
static void print_refusals_of_plans(uint64_t held, const struct list *rest, const struct plan *p)
{
    struct plan again = *p, kept = *p, other_end = *p;
    uint8_t bytes[CURVEPLAN_PLAN_BYTES];
    again.loads[1] = curveplan_union(again.loads[1], curveplan_single(0));
    kept.drops[0] = 0; /* more than places less booked are held while test 0 runs */
    other_end.end = curveplan_without(p->end, held);
    mark(bytes, sizeof bytes);
    print_answer("curve 0, held from the start, loaded again in step 1", check_from(held, rest, &again), "loads");
    print_answer("nothing dropped in step 0", check_from(held, rest, &kept), "loads");
    print_answer("checked with an end set without what was held at the start", check_from(held, rest, &other_end), "loads");
    print_answer("written so", write_from(held, rest, &other_end, bytes, sizeof bytes), "bytes");
    print_change(bytes, sizeof bytes);
}

int main(void)
{
    struct list list = {0};
    struct plan plan, from_empty, none_left;

    struct curveplan_job head = curveplan_read_job(job, sizeof job, list.wants, TESTS);
    if (head.answer != TESTS) {
        return 1;
    }
    list.places = head.places;
    list.booked = head.booked;
    list.curves = head.curves;
    list.method = head.method;
    list.tests = head.tests;
    print_list("job", &list);
    if (!print_plan("planned from an empty drive", EMPTY_DRIVE, &list, &plan)) {
        return 1;
    }
    uint64_t held = run_steps(EMPTY_DRIVE, &plan, 2);
    print_held("behind step 1", held);

    /* the new rest is a list of its own, numbered from 0: its tests want 3, 0 4 and 3 4 */
    struct list rest = {.places = list.places, .booked = BOOKED, .curves = list.curves, .method = list.method, .tests = 3, .wants = {0x08, 0x11, 0x18}};
    if (!print_rest("rest", held, &rest, &plan)) {
        return 1;
    }
    print_answer("this plan checked from an empty drive", check_from(EMPTY_DRIVE, &rest, &plan), "loads");
    /* unloading first would cost two loads more */
    if (!print_plan("planned from an empty drive", EMPTY_DRIVE, &rest, &from_empty)) {
        return 1;
    }
    print_answer("this plan checked from what is held", check_from(held, &rest, &from_empty), "loads");

    /* the same drive at the same step, and the engineers leave no tests */
    struct list no_tests = {.places = list.places, .booked = BOOKED, .curves = list.curves, .method = list.method, .tests = 0};
    if (!print_rest("no tests left", held, &no_tests, &none_left)) {
        return 1;
    }
    none_left.end = 0;
    print_answer("checked without an end set", check_from(held, &no_tests, &none_left), "loads");

    print_refusals_of_holdings(held, &rest, &plan);
    print_refusals_of_plans(held, &rest, &plan);
    return 0;
}
