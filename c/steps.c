/*
 * A host that goes step by step: reads job A of document 01, orders, plans, checks, writes and reads bytes, fetches steps, and prints audits and a sheet. Then
 * it goes through a job with an empty list, through job A in a drive with a booked place, and through an old file of job A, with method 2.
 */
#include <stdio.h>
#include <string.h>

#include "curveplan.h"
#include "curveplan_parts.h"
#include "print.h"

#define PLACES 2
#define BOOKED 0
#define CURVES 4
#define TESTS 4
#define HELD 0 /* every plan here starts from an empty drive; rest.c has one that does not */

static const uint8_t job_a[] = {0x07, 0x02, 0x04, 0x04, 0x00, 0x01, 0x03, 0x01, 0x06, 0x01, 0x03, 0x01, 0x08};

/* What a plan is made in or read into. */
struct lists {
    uint16_t order[TESTS];
    uint64_t drops[TESTS];
    uint64_t loads[TESTS];
    uint64_t end;
};

/* Of these 2 is no method any more. */
static const char *const methods[] = {"method 0", "method 1", "method 2", "method 3"};

/* The tests in the order of a method. */
static void print_order(size_t method, const uint16_t *order)
{
    printf("method %u:", (unsigned)method);
    for (unsigned i = 0; i < TESTS; i++) {
        printf(" %u", order[i]);
    }
    printf("\n");
}

/* Orders job A by a method. One that is refused changes nothing in the order that is lent. */
static void print_order_by(size_t method, const uint64_t *wants)
{
    uint16_t order[TESTS];
    mark(order, sizeof order);
    uint64_t answer = curveplan_order_tests(PLACES, BOOKED, CURVES, method, wants, TESTS, order, TESTS);
    if (curveplan_refused_48(answer)) {
        print_answer(methods[method], answer, "tests");
        print_change(order, sizeof order);
    } else {
        print_order(method, order);
    }
}

static void print_text(const char *what, uint64_t answer, const uint8_t *text)
{
    print_answer(what, answer, "bytes");
    if (!curveplan_refused_48(answer)) {
        fwrite(text, 1, (size_t)answer, stdout);
    }
}

/* The bytes of the step at a position. */
static void print_step(size_t curves, size_t tests, const uint8_t *plan, size_t plan_len, unsigned position)
{
    struct curveplan_part part = curveplan_step_bytes(curves, tests, plan, plan_len, position);
    printf("step %u at %u:", position, (unsigned)part.start);
    print_bytes(plan + part.start, part.count);
}

/* What is refused, and changes nothing in the lists and the end set that are lent. */
static void print_refusals_of_lists(const uint64_t *wants, const uint16_t *order, const uint8_t *plan, size_t plan_len)
{
    static const uint16_t twice[TESTS] = {0, 3, 3, 2};
    struct lists lent;
    uint64_t answer;
    mark(&lent, sizeof lent);
    print_answer("a byte of the job missing", curveplan_read_job(job_a, sizeof job_a - 1, lent.drops, TESTS).answer, "tests");
    answer = curveplan_plan_order(PLACES, BOOKED, CURVES, wants, TESTS, HELD, twice, TESTS, lent.drops, TESTS, lent.loads, TESTS, &lent.end);
    print_answer("a test twice in the order", answer, "loads");
    answer = curveplan_plan_order(PLACES, BOOKED, CURVES, wants, TESTS, HELD, order, TESTS, lent.drops, TESTS, lent.loads, TESTS - 1, &lent.end);
    print_answer("planned with an entry of the loads missing", answer, "loads");
    answer = curveplan_read_plan(CURVES, TESTS, plan, plan_len - 1, lent.order, TESTS, lent.drops, TESTS, lent.loads, TESTS, &lent.end);
    print_answer("a byte of the plan missing", answer, "steps");
    answer = curveplan_read_plan(CURVES, TESTS, plan, plan_len, lent.order, TESTS, lent.drops, TESTS, lent.loads, TESTS - 1, &lent.end);
    print_answer("read with an entry of the loads missing", answer, "steps");
    print_change(&lent, sizeof lent);
}

/* What is refused in writing and checking a plan. */
static void print_refusals_of_plans(const uint64_t *wants, const uint16_t *order, const uint64_t *drops, const uint64_t *loads, uint64_t end, size_t plan_len)
{
    /* 0 and 1 are held at the end: the one set lacks 1, the other has 4, which is no curve of the job */
    static const uint64_t short_end = 0x1, foreign_end = 0x13;
    uint64_t fewer_loads[TESTS] = {loads[0], 0, loads[2], loads[3]};
    uint8_t bytes[CURVEPLAN_PLAN_BYTES];
    uint64_t answer;
    mark(bytes, sizeof bytes);
    answer = curveplan_write_plan(PLACES, BOOKED, CURVES, wants, TESTS, HELD, order, TESTS, drops, TESTS, loads, TESTS, end, bytes, plan_len - 1);
    print_answer("a byte of room missing", answer, "bytes");
    answer = curveplan_write_plan(PLACES, BOOKED, CURVES, wants, TESTS, HELD, order, TESTS, drops, TESTS, loads, TESTS, short_end, bytes, sizeof bytes);
    print_answer("written with a curve missing in the end set", answer, "bytes");
    print_change(bytes, sizeof bytes);
    answer = curveplan_check_plan(PLACES, BOOKED, CURVES, wants, TESTS, HELD, order, TESTS, drops, TESTS, loads, TESTS, short_end);
    print_answer("checked with a curve missing in the end set", answer, "loads");
    answer = curveplan_check_plan(PLACES, BOOKED, CURVES, wants, TESTS, HELD, order, TESTS, drops, TESTS, loads, TESTS, 0);
    print_answer("checked without an end set", answer, "loads");
    answer = curveplan_check_plan(PLACES, BOOKED, CURVES, wants, TESTS, HELD, order, TESTS, drops, TESTS, loads, TESTS, foreign_end);
    print_answer("checked with an unknown curve in the end set", answer, "loads");
    answer = curveplan_check_plan(PLACES, BOOKED, CURVES, wants, TESTS, HELD, order, TESTS, drops, TESTS, fewer_loads, TESTS, end);
    print_answer("no loads in step 1", answer, "loads");
}

/* A job with an empty list: of what is lent for its lists nothing changes, and only the end set is filled. */
static void print_empty_list(void)
{
    static const uint8_t empty_list[] = {0x00}, end_alone[] = {0x01, 0x01, 0x03};
    static uint8_t text[CURVEPLAN_SHEET_BYTES];
    uint64_t wants[TESTS], answer;
    uint8_t job[sizeof empty_list], plan[CURVEPLAN_PLAN_BYTES];
    struct lists lent;
    mark(wants, sizeof wants);
    mark(plan, sizeof plan);
    mark(&lent, sizeof lent);

    struct curveplan_job head = curveplan_read_job(empty_list, sizeof empty_list, wants, TESTS);
    size_t places = head.places, booked = head.booked, curves = head.curves;
    printf("empty list: %u tests, %u places, %u curves, method %u\n", (unsigned)head.tests, (unsigned)places, (unsigned)curves, (unsigned)head.method);
    answer = curveplan_write_job(places, booked, curves, head.method, wants, 0, job, sizeof job);
    print_answer("written back", answer, memcmp(job, empty_list, sizeof job) == 0 ? "byte, the same" : "byte, another");
    for (unsigned method = 0; method <= 3; method++) {
        print_answer(methods[method], curveplan_order_tests(places, booked, curves, method, wants, 0, lent.order, TESTS), "tests");
    }
    answer = curveplan_plan_order(places, booked, curves, wants, 0, HELD, lent.order, 0, lent.drops, TESTS, lent.loads, TESTS, &lent.end);
    print_answer("planned", answer, lent.end == 0 ? "loads, no end step" : "loads, an end step");
    print_answer("checked", curveplan_check_plan(places, booked, curves, wants, 0, HELD, lent.order, 0, lent.drops, 0, lent.loads, 0, lent.end), "loads");
    answer = curveplan_write_plan(places, booked, curves, wants, 0, HELD, lent.order, 0, lent.drops, 0, lent.loads, 0, lent.end, plan, sizeof plan);
    print_answer("written", answer, "bytes");
    mark(&lent.end, sizeof lent.end);
    answer = curveplan_read_plan(curves, 0, plan, 0, lent.order, TESTS, lent.drops, TESTS, lent.loads, TESTS, &lent.end);
    print_answer("read back", answer, lent.end == 0 ? "steps, no end step" : "steps, an end step");
    print_step(curves, 0, plan, 0, 0);
    print_text("audit", curveplan_audit(empty_list, sizeof empty_list, plan, 0, text, sizeof text), text);
    print_text("sheet", curveplan_sheet(empty_list, sizeof empty_list, text, sizeof text), text);

    answer = curveplan_read_plan(curves, 0, end_alone, sizeof end_alone, lent.order, 0, lent.drops, 0, lent.loads, 0, &lent.end);
    print_answer("an end step alone", answer, lent.end == 0 ? "steps, no end step" : "steps, an end step");
    print_step(curves, 0, end_alone, sizeof end_alone, 0);
    print_answer("checked", curveplan_check_plan(places, booked, curves, wants, 0, HELD, lent.order, 0, lent.drops, 0, lent.loads, 0, lent.end), "loads");
    answer = curveplan_check_plan(places, booked, curves, wants, 0, HELD, lent.order, 0, lent.drops, 0, lent.loads, 1, 0);
    print_answer("an entry in the loads", answer, "loads");
    answer = curveplan_check_plan(places, booked, curves, wants, 0, HELD, lent.order, 1, lent.drops, 0, lent.loads, 0, 0);
    print_answer("an entry in the order", answer, "loads");
    print_change(wants, sizeof wants);
    print_change(plan, sizeof plan);
    print_change(&lent, offsetof(struct lists, end));
}

/* Job A in a drive of three places, of which one is booked: the plan is that of two places, and all three would need fewer loads. */
static void print_booked(void)
{
    static const uint8_t booked_a[] = {0x17, 0x03, 0x04, 0x04, 0x00, 0x01, 0x01, 0x03, 0x01, 0x06, 0x01, 0x03, 0x01, 0x08};
    static const size_t booked_at = 5;
    static uint8_t text[CURVEPLAN_SHEET_BYTES];
    uint64_t wants[TESTS], answer;
    uint8_t job[sizeof booked_a], plan[CURVEPLAN_PLAN_BYTES];
    struct lists own, lent;

    struct curveplan_job head = curveplan_read_job(booked_a, sizeof booked_a, wants, TESTS);
    size_t places = head.places, booked = head.booked, curves = head.curves;
    printf("job A with a booked place: %u tests, %u places, %u booked, %u curves, method %u\n", (unsigned)head.tests, (unsigned)places, (unsigned)booked,
           (unsigned)curves, (unsigned)head.method);
    answer = curveplan_write_job(places, booked, curves, head.method, wants, TESTS, job, sizeof job);
    print_answer("written back", answer, memcmp(job, booked_a, sizeof job) == 0 ? "bytes, the same" : "bytes, others");
    curveplan_order_tests(places, booked, curves, head.method, wants, TESTS, own.order, TESTS);
    print_order(head.method, own.order);
    answer = curveplan_plan_order(places, booked, curves, wants, TESTS, HELD, own.order, TESTS, own.drops, TESTS, own.loads, TESTS, &own.end);
    print_answer("planned", answer, "loads");
    print_steps(TESTS, own.order, own.drops, own.loads, own.end);
    answer = curveplan_check_plan(places, booked, curves, wants, TESTS, HELD, own.order, TESTS, own.drops, TESTS, own.loads, TESTS, own.end);
    print_answer("checked", answer, "loads");
    answer = curveplan_write_plan(places, booked, curves, wants, TESTS, HELD, own.order, TESTS, own.drops, TESTS, own.loads, TESTS, own.end, plan, sizeof plan);
    print_answer("written", answer, "bytes");
    print_text("sheet", curveplan_sheet(booked_a, sizeof booked_a, text, sizeof text), text);

    answer = curveplan_plan_order(places, 0, curves, wants, TESTS, HELD, own.order, TESTS, own.drops, TESTS, own.loads, TESTS, &own.end);
    print_answer("planned with none booked", answer, "loads");
    print_steps(TESTS, own.order, own.drops, own.loads, own.end);
    answer = curveplan_check_plan(places, booked, curves, wants, TESTS, HELD, own.order, TESTS, own.drops, TESTS, own.loads, TESTS, own.end);
    print_answer("checked with one booked", answer, "loads");

    mark(&lent, sizeof lent);
    job[booked_at] = (uint8_t)places;
    print_answer("a job with all places booked", curveplan_read_job(job, sizeof job, lent.drops, TESTS).answer, "tests");
    answer = curveplan_plan_order(places, places, curves, wants, TESTS, HELD, own.order, TESTS, lent.drops, TESTS, lent.loads, TESTS, &lent.end);
    print_answer("planned with all places booked", answer, "loads");
    print_answer("ordered with 64 booked", curveplan_order_tests(places, 64, curves, head.method, wants, TESTS, lent.order, TESTS), "tests");
    print_change(&lent, sizeof lent);
}

/* The bytes in which two jobs of the same length differ. */
static void print_other_bytes(const uint8_t *before, const uint8_t *now, size_t count)
{
    for (size_t i = 0; i < count; i++) {
        if (before[i] != now[i]) {
            printf("byte %u: %02x before, %02x now\n", (unsigned)i, before[i], now[i]);
        }
    }
}

/* An old file of job A, with method 2: it reads as method 1, and is written back with 1, the only byte that changes. A handed 2 is refused. */
static void print_old_file(void)
{
    static const uint8_t old_a[] = {0x0f, 0x02, 0x04, 0x04, 0x00, 0x02, 0x01, 0x03, 0x01, 0x06, 0x01, 0x03, 0x01, 0x08};
    static uint8_t text[CURVEPLAN_SHEET_BYTES];
    uint64_t wants[TESTS], answer;
    uint16_t order[TESTS];
    uint8_t job[sizeof old_a];

    struct curveplan_job head = curveplan_read_job(old_a, sizeof old_a, wants, TESTS);
    size_t places = head.places, booked = head.booked, curves = head.curves;
    printf("job A with method 2: %u tests, %u places, %u curves, method %u\n", (unsigned)head.tests, (unsigned)places, (unsigned)curves, (unsigned)head.method);
    answer = curveplan_write_job(places, booked, curves, head.method, wants, TESTS, job, sizeof job);
    print_answer("written back", answer, "bytes");
    print_other_bytes(old_a, job, sizeof job);
    curveplan_order_tests(places, booked, curves, head.method, wants, TESTS, order, TESTS);
    print_order(head.method, order);
    print_text("sheet", curveplan_sheet(old_a, sizeof old_a, text, sizeof text), text);

    mark(job, sizeof job);
    print_answer("written with method 2", curveplan_write_job(places, booked, curves, 2, wants, TESTS, job, sizeof job), "bytes");
    print_change(job, sizeof job);
}

int main(void)
{
    static const uint16_t order[TESTS] = {0, 3, 1, 2};
    /* step 1 drops curve 1, which step 2 wants, instead of 0 */
    static const uint64_t worse_drops[TESTS] = {0x0, 0x2, 0x9, 0x4};
    static const uint64_t worse_loads[TESTS] = {0x3, 0x8, 0x6, 0x1};
    static const uint64_t worse_end = 0x3;
    static uint8_t text[CURVEPLAN_SHEET_BYTES];
    uint64_t wants[TESTS], drops[TESTS], loads[TESTS], end;
    struct lists back;
    uint8_t job[sizeof job_a], plan[CURVEPLAN_PLAN_BYTES], worse[CURVEPLAN_PLAN_BYTES];
    uint64_t answer;

    struct curveplan_job head = curveplan_read_job(job_a, sizeof job_a, wants, TESTS);
    printf("job A: %u tests, %u places, %u curves, method %u\n", (unsigned)head.tests, (unsigned)head.places, (unsigned)head.curves, (unsigned)head.method);
    if (head.answer != TESTS || head.places != PLACES || head.booked != BOOKED || head.curves != CURVES) {
        return 1;
    }
    for (unsigned t = 0; t < TESTS; t++) {
        printf("test %u wants", t);
        print_curves(wants[t]);
        printf("\n");
    }
    answer = curveplan_write_job(PLACES, BOOKED, CURVES, head.method, wants, TESTS, job, sizeof job);
    print_answer("written back", answer, memcmp(job, job_a, sizeof job) == 0 ? "bytes, the same" : "bytes, others");

    for (unsigned method = 0; method <= 3; method++) {
        print_order_by(method, wants);
    }

    answer = curveplan_plan_order(PLACES, BOOKED, CURVES, wants, TESTS, HELD, order, TESTS, drops, TESTS, loads, TESTS, &end);
    print_answer("order 0 3 1 2 planned", answer, "loads");
    print_steps(TESTS, order, drops, loads, end);
    print_answer("checked", curveplan_check_plan(PLACES, BOOKED, CURVES, wants, TESTS, HELD, order, TESTS, drops, TESTS, loads, TESTS, end), "loads");
    answer = curveplan_write_plan(PLACES, BOOKED, CURVES, wants, TESTS, HELD, order, TESTS, drops, TESTS, loads, TESTS, end, plan, sizeof plan);
    print_answer("written", answer, "bytes");
    size_t plan_len = (size_t)answer;

    answer = curveplan_read_plan(CURVES, TESTS, plan, plan_len, back.order, TESTS, back.drops, TESTS, back.loads, TESTS, &back.end);
    int same = memcmp(back.order, order, sizeof order) == 0 && memcmp(back.drops, drops, sizeof drops) == 0 && memcmp(back.loads, loads, sizeof loads) == 0;
    print_answer("read back", answer, same ? "steps, the same" : "steps, others");
    printf("end set read back: %s\n", back.end == end ? "the same" : "another");
    /* position TESTS is the end step, and nothing is behind it */
    for (unsigned position = 0; position <= TESTS + 1; position++) {
        print_step(CURVES, TESTS, plan, plan_len, position);
    }
    print_text("audit", curveplan_audit(job_a, sizeof job_a, plan, plan_len, text, sizeof text), text);

    answer = curveplan_check_plan(PLACES, BOOKED, CURVES, wants, TESTS, HELD, order, TESTS, worse_drops, TESTS, worse_loads, TESTS, worse_end);
    print_answer("a worse plan for the same order", answer, "loads");
    print_steps(TESTS, order, worse_drops, worse_loads, worse_end);
    answer = curveplan_write_plan(PLACES, BOOKED, CURVES, wants, TESTS, HELD, order, TESTS, worse_drops, TESTS, worse_loads, TESTS, worse_end, worse,
                                  sizeof worse);
    print_text("audit", curveplan_audit(job_a, sizeof job_a, worse, (size_t)answer, text, sizeof text), text);

    print_text("sheet", curveplan_sheet(job_a, sizeof job_a, text, sizeof text), text);

    print_refusals_of_lists(wants, order, plan, plan_len);
    print_refusals_of_plans(wants, order, drops, loads, end, plan_len);
    print_empty_list();
    print_booked();
    print_old_file();
    return 0;
}
