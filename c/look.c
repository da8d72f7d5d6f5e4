/*
 * A host that shows each step before the drive moves. It reads job A of document 01 and makes a state of it. Then, step by step, a look shows the next step,
 * and a commit of its position carries it out and answers the same sets. On the way come commits of other positions, which are refused, and the state is kept
 * as bytes and gone on with from them. Then come another order, lists without tests, a test that wants nothing, and states that are refused.
 */
#include <stdio.h>
#include <string.h>

#include "curveplan.h"
#include "curveplan_parts.h"
#include "print.h"

#define TESTS 4         /* of job A; the other lists have fewer */
#define ALL (TESTS + 2) /* looks to the end of a list: its tests, the end step, and that all is done */

static const uint8_t job_a[] = {0x07, 0x02, 0x04, 0x04, 0x00, 0x01, 0x03, 0x01, 0x06, 0x01, 0x03, 0x01, 0x08};

/* A list of tests, the drive that they are for, what it holds at the start, and the order in which they run. */
struct list {
    size_t places;
    size_t booked;
    size_t curves;
    size_t tests;
    uint64_t wants[TESTS];
    uint64_t held;
    uint16_t order[TESTS];
};

struct plan {
    uint64_t drops[TESTS];
    uint64_t loads[TESTS];
    uint64_t end;
};

static uint64_t order_list(struct list *l, size_t method)
{
    return curveplan_order_tests(l->places, l->booked, l->curves, method, l->wants, l->tests, l->order, TESTS);
}

/* Makes a state of a list, and a plan of the same numbers. */
static void print_made(const char *what, const struct list *l, struct curveplan_state *state, struct plan *p)
{
    uint64_t answer = curveplan_make_state(l->places, l->booked, l->curves, l->wants, l->tests, l->held, l->order, l->tests, state);
    print_answer(what, answer, "tests");
    answer = curveplan_plan_order(l->places, l->booked, l->curves, l->wants, l->tests, l->held, l->order, l->tests, p->drops, TESTS, p->loads, TESTS, &p->end);
    print_answer("planned", answer, "loads");
}

/* The step at a position of a plan, as a look shows it. */
static struct curveplan_step planned(const struct list *l, const struct plan *p, size_t position)
{
    if (position < l->tests) {
        return (struct curveplan_step){CURVEPLAN_STEP, p->drops[position], p->loads[position]};
    }
    if (position == l->tests && p->end != 0) {
        return (struct curveplan_step){CURVEPLAN_END, p->end, 0};
    }
    return (struct curveplan_step){CURVEPLAN_DONE, 0, 0};
}

static const char *compare_steps(struct curveplan_step a, struct curveplan_step b)
{
    return a.answer == b.answer && a.drops == b.drops && a.loads == b.loads ? "the same" : "another";
}

static const char *compare_states(const struct curveplan_state *a, const struct curveplan_state *b)
{
    return memcmp(a, b, sizeof *a) == 0 ? "the same" : "another";
}

static void print_next(const struct list *l, size_t position, struct curveplan_step next)
{
    if (next.answer == CURVEPLAN_STEP) {
        print_test_step(position, l->order[position], next.drops, next.loads);
    } else if (next.answer == CURVEPLAN_END) {
        print_end_step(position, next.drops);
    } else {
        printf("done\n");
    }
}

/* Looks so many times, and each time carries out what the look shows. A second look shows the same, as does the plan, and neither changes the state. */
static void print_looks(const struct list *l, struct curveplan_state *state, const struct plan *p, unsigned looks)
{
    for (; looks > 0; looks--) {
        struct curveplan_state before = *state;
        size_t position = (size_t)state->committed;
        struct curveplan_step next = curveplan_look(state), again = curveplan_look(state);
        print_next(l, position, next);
        printf("looked again: %s, planned: %s", compare_steps(again, next), compare_steps(planned(l, p, position), next));
        printf(", state: %s, ", compare_states(&before, state));
        if (next.answer == CURVEPLAN_DONE) {
            printf("steps committed: %u\n", (unsigned)position);
            return;
        }
        printf("committed: %s\n", compare_steps(curveplan_commit(state, position), next));
    }
}

/* A commit that is refused: it answers empty sets, and the state stays as it is. */
static void print_refused(const char *what, struct curveplan_state *state, size_t position)
{
    struct curveplan_state before = *state;
    struct curveplan_step step = curveplan_commit(state, position);
    print_answer(what, step.answer, "is what was carried out");
    printf("sets: %s, state: %s\n", step.drops == 0 && step.loads == 0 ? "empty" : "not empty", compare_states(&before, state));
}

/* States that are refused, and planning refuses too: the list has five faults, and loses each that was named. Nothing lent changes. */
static void print_refused_states(const struct list *a)
{
    struct list l = *a;
    struct curveplan_state state;
    struct plan p;
    mark(&state, sizeof state);
    mark(&p, sizeof p);
    l.wants[3] = 0x18;
    l.booked = l.places;
    l.held = 0x60;
    l.order[2] = l.order[1];
    l.wants[1] = 0x0e;
    print_made("4 is wanted, which the job lacks", &l, &state, &p);
    l.wants[3] = a->wants[3];
    print_made("all places are booked", &l, &state, &p);
    l.booked = a->booked;
    print_made("5 and 6 are held, which the job lacks", &l, &state, &p);
    l.held = a->held;
    print_made("a test stands twice in the order", &l, &state, &p);
    l.order[2] = a->order[2];
    print_made("a test wants three curves", &l, &state, &p);
    print_change(&state, sizeof state);
    print_change(&p, sizeof p);
}

int main(void)
{
    struct list a = {.held = 0}; /* from an empty drive */
    struct list no_tests = {.places = 2, .curves = 4};
    struct list no_wants = {.places = 3, .booked = 1, .curves = 4, .tests = 1, .wants = {0}, .order = {0}};
    struct curveplan_state state = {0}, other;
    struct plan plan = {0};
    uint8_t kept[sizeof state];

    struct curveplan_job head = curveplan_read_job(job_a, sizeof job_a, a.wants, TESTS);
    if (head.answer != TESTS) {
        return 1;
    }
    a.places = head.places;
    a.booked = head.booked;
    a.curves = head.curves;
    a.tests = head.tests;
    print_answer("job A ordered", order_list(&a, head.method), "tests");
    print_made("state of job A", &a, &state, &plan);
    print_looks(&a, &state, &plan, 2);
    printf("held now:");
    print_curves(state.held);
    printf("\n");
    print_refused("step 1 again", &state, 1);
    print_refused("step 3 too early", &state, 3);
    memcpy(kept, &state, sizeof kept);
    print_looks(&a, &state, &plan, ALL);
    print_refused("the end step again", &state, 4);
    print_refused("a step behind the end step", &state, 5);

    /* the state is numbers alone: a host that was started anew can go on from them */
    printf("gone on from %u bytes\n", (unsigned)sizeof kept);
    memcpy(&other, kept, sizeof kept);
    print_looks(&a, &other, &plan, ALL);
    printf("both states: %s\n", compare_states(&state, &other));

    print_answer("job A ordered by method 1", order_list(&a, 1), "tests");
    print_made("state of this order", &a, &state, &plan);
    print_looks(&a, &state, &plan, ALL);

    print_made("state of a list without tests", &no_tests, &state, &plan);
    print_looks(&no_tests, &state, &plan, ALL);
    print_refused("a step where there is none", &state, 0);
    no_tests.held = 0x0a;
    print_made("the same with 1 and 3 held", &no_tests, &state, &plan);
    print_looks(&no_tests, &state, &plan, ALL);

    /* a step with empty sets is committed like any other */
    print_made("state of a test that wants nothing", &no_wants, &state, &plan);
    print_refused("step 1 too early", &state, 1);
    print_looks(&no_wants, &state, &plan, ALL);
    print_refused("an end step where there is none", &state, 1);
    no_wants.held = 0x0b;
    print_made("the same with 0, 1 and 3 held", &no_wants, &state, &plan);
    print_looks(&no_wants, &state, &plan, ALL);

    print_refused_states(&a);
    return 0;
}
