/*
 * Smaller parts of the rig's curve planner: examinations, the bytes of a set, sets, and lists of tests. All are in libexports.a, and what curveplan.h says of
 * every function holds of these too.
 */
#ifndef CURVEPLAN_PARTS_H
#define CURVEPLAN_PARTS_H

#include "curveplan.h"

#ifdef __cplusplus
extern "C" {
#endif

/* ---- examinations: 0 where everything is passed, else the refusal, to be taken apart by curveplan_number_48 and curveplan_figure_48 */

/* 10 and 13, of places, booked places, curves and wants: what planning, checking and writing a plan ask first. */
uint64_t curveplan_examine(size_t places, size_t booked, size_t curves, const uint64_t *wants, size_t tests);

/* 10 and 13, of places, booked places, curves, method and wants: what ordering and writing a job ask first. */
uint64_t curveplan_examine_by(size_t places, size_t booked, size_t curves, size_t method, const uint64_t *wants, size_t tests);

/* 10, of curves and a number of tests: what reading a plan asks first. */
uint64_t curveplan_examine_counts(size_t curves, size_t tests);

/* 7: a test that wants more curves than the drive can hold, places less booked. */
uint64_t curveplan_examine_sizes(size_t capacity, const uint64_t *wants, size_t tests);

/* ---- a set in bytes: a group map, then a byte for each of its groups; bit j of the map stands for curves 8j to 8j + 7 */

/* Why a group byte is not read. */
enum curveplan_group {
    CURVEPLAN_GROUP_OWED = 1,   /* the bytes end at or before `at` */
    CURVEPLAN_GROUP_EMPTY = 2,  /* the byte is zero */
    CURVEPLAN_GROUP_UNKNOWN = 3 /* it names a curve at or above `curves`, or at or above 64 */
};

/*
 * Reads the byte at offset `at` of `rest` as that of a group. Answers 0, and the curves go to `set`; else a number of curveplan_group × 2^48, which
 * curveplan_number_48 tells, and `set` keeps its contents.
 */
uint64_t curveplan_read_group(const uint8_t *rest, size_t rest_len, size_t at, size_t group, size_t curves, uint64_t *set);

/* The group map of a set. */
uint64_t curveplan_group_map(uint64_t s);

/* How many bytes a set has, the map among them: 1 to 9. */
uint64_t curveplan_set_len(uint64_t s);

/* Writes the bytes of a set to `out`, if they fit, and answers how many they are, whether they fit or not. */
uint64_t curveplan_put_set(uint64_t s, uint8_t *out, size_t out_len);

/* ---- sets of numbers below 64; truth is 1, and else 0 */

uint64_t curveplan_size(uint64_t s);                  /* how many elements */
uint64_t curveplan_lowest(uint64_t s);                /* the lowest element; 64 of the empty set */
uint64_t curveplan_union(uint64_t a, uint64_t b);     /* what either has */
uint64_t curveplan_common(uint64_t a, uint64_t b);    /* what both have */
uint64_t curveplan_without(uint64_t a, uint64_t b);   /* what a has and b lacks */
uint64_t curveplan_single(size_t k);                  /* the set of k alone; empty where k is 64 or more */
uint64_t curveplan_has(uint64_t s, size_t k);         /* whether k is an element */
uint64_t curveplan_without_lowest(uint64_t s);        /* the set without its lowest element */
uint64_t curveplan_inside(uint64_t a, uint64_t b);    /* whether each element of a is one of b */
uint64_t curveplan_below(size_t n);                   /* the numbers below n, and below 64 */

/* ---- lists of tests; nothing is examined and nothing is answered */

/* Reverses a list in place. */
void curveplan_reverse(uint16_t *tests, size_t len);

/* 0, 1, .. to the beginning of `order`. Nothing changes where there are more than 256 tests, or more than `order_len`. */
void curveplan_listed_order(size_t tests, uint16_t *order, size_t order_len);

/* The order of method 3 to the beginning of `order`, by places less booked. Nothing changes where there are more than 256 tests, or more than `order_len`. */
void curveplan_package_order(size_t capacity, const uint64_t *wants, size_t tests, uint16_t *order, size_t order_len);

#ifdef __cplusplus
}
#endif

#endif
