/* A host of the rig: plans some jobs and prints each answer, and what stands in the plan's buffer. */
#include <stdio.h>
#include <string.h>

#include "curveplan.h"

/* Calls with a buffer of `room` bytes, and prints the answer. Says so if a byte changed that must not. */
static void plan(const char *what, const uint8_t *job, size_t len, size_t room)
{
    uint8_t bytes[CURVEPLAN_PLAN_BYTES + 1];
    memset(bytes, 0xee, sizeof bytes);
    uint64_t answer = curveplan_plan(job, len, bytes, room);
    size_t written = curveplan_refused_16(answer) ? 0 : (size_t)answer;

    printf("%s: ", what);
    if (curveplan_refused_16(answer)) {
        printf("refused %u at %u\n", curveplan_number_16(answer), curveplan_figure_16(answer));
    } else {
        printf("%zu bytes", written);
        for (size_t i = 0; i < written && i < 32; i++) {
            printf(" %02x", bytes[i]);
        }
        printf(written > 32 ? " ..\n" : "\n");
    }
    for (size_t i = written; i < sizeof bytes; i++) {
        if (bytes[i] != 0xee) {
            printf("byte %zu changed\n", i);
            return;
        }
    }
}

int main(void)
{
    static const uint8_t a[] = {0x07, 0x02, 0x04, 0x04, 0x00, 0x01, 0x03, 0x01, 0x06, 0x01, 0x03, 0x01, 0x08};
    static const uint8_t no_wants[] = {0x04, 0x01, 0x00, 0x00};
    static const uint8_t empty_list[] = {0x00};
    static const uint8_t three_curves[] = {0x05, 0x02, 0x01, 0x00, 0x01, 0x07};
    static const uint8_t bad_field[] = {0x01, 0x08};
    static const uint8_t empty_group[] = {0x04, 0x01, 0x00, 0x01, 0x00};
    static const uint8_t unknown_curve[] = {0x06, 0x04, 0x01, 0x00, 0x01, 0x10};
    static const uint8_t surplus[] = {0x04, 0x01, 0x00, 0x00, 0x00};
    static const uint8_t empty_list_surplus[] = {0x00, 0xff};
    static const uint8_t booked_a[] = {0x17, 0x03, 0x04, 0x04, 0x00, 0x01, 0x01, 0x03, 0x01, 0x06, 0x01, 0x03, 0x01, 0x08};
    static const uint8_t booked_three_curves[] = {0x15, 0x03, 0x01, 0x00, 0x01, 0x01, 0x07};
    static const uint8_t all_booked[] = {0x15, 0x03, 0x01, 0x00, 0x03, 0x01, 0x07};
    static const uint8_t bad_booked[] = {0x10, 0x40};
    static const char *method[] = {"method 1", "an old file with method 2, read as method 1", "method 3"};

    plan("job A", a, sizeof a, CURVEPLAN_PLAN_BYTES);
    plan("25 bytes of room", a, sizeof a, 25);
    plan("24 bytes of room", a, sizeof a, 24);
    plan("room for the steps, not for the end step", a, sizeof a, 22);
    plan("no room", a, sizeof a, 0);
    for (uint8_t m = 1; m <= 3; m++) {
        uint8_t b[sizeof a + 1] = {0x0f, 0x02, 0x04, 0x04, 0x00, m};
        memcpy(b + 6, a + 5, sizeof a - 5);
        plan(method[m - 1], b, sizeof b, CURVEPLAN_PLAN_BYTES);
    }
    plan("no wants", no_wants, sizeof no_wants, CURVEPLAN_PLAN_BYTES);
    plan("empty list", empty_list, sizeof empty_list, CURVEPLAN_PLAN_BYTES);
    plan("empty list, no room", empty_list, sizeof empty_list, 0);
    plan("no bytes", a, 0, CURVEPLAN_PLAN_BYTES);
    plan("cut", a, sizeof a - 1, CURVEPLAN_PLAN_BYTES);
    plan("places at their absent value", bad_field, sizeof bad_field, CURVEPLAN_PLAN_BYTES);
    plan("empty group", empty_group, sizeof empty_group, CURVEPLAN_PLAN_BYTES);
    plan("unknown curve", unknown_curve, sizeof unknown_curve, CURVEPLAN_PLAN_BYTES);
    plan("a byte behind the last record", surplus, sizeof surplus, CURVEPLAN_PLAN_BYTES);
    plan("a byte behind an empty list", empty_list_surplus, sizeof empty_list_surplus, CURVEPLAN_PLAN_BYTES);
    plan("three curves, two places", three_curves, sizeof three_curves, CURVEPLAN_PLAN_BYTES);
    plan("job A, one of three places booked", booked_a, sizeof booked_a, CURVEPLAN_PLAN_BYTES);
    plan("three curves, one of three places booked", booked_three_curves, sizeof booked_three_curves, CURVEPLAN_PLAN_BYTES);
    plan("all of three places booked", all_booked, sizeof all_booked, CURVEPLAN_PLAN_BYTES);
    plan("booked places out of range", bad_booked, sizeof bad_booked, CURVEPLAN_PLAN_BYTES);
    return 0;
}
