/*
 * Compares the C program with the library's call on random, damaged, boundary and two-fault jobs, with booked places and without, on empty lists, on jobs with
 * many curves of equal next use, and on jobs of method 1 with large degrees: the answer, and every byte of the plan's buffer. Among each kind are old files,
 * whose method byte is 2: with 1 in its place the library answers and writes the same. Fails on the first difference, on a refusal that the call does not have,
 * and if one of these never came up: some refusal, some method's success, an empty list planned without room or refused for bytes behind it, a plan of a job
 * with many equal next uses, a kind of degrees, an end with nothing held, with some places taken or with a full drive, the longest job, the longest plan; with
 * booked places some method's success, a plan of each method, an order and a refusal 7 that would be others if none were booked, one place left, the places
 * absent, as many booked as places, more, and 13 before or behind another fault; an old file of each kind planned and one refused, with booked places too, and
 * one whose order would be another by method 0, and by method 3. The same jobs in every run.
 */
#include <stdio.h>
#include <string.h>

#include "../../c/curveplan.h"
#include "fast.h"

#define SMALL_JOBS 60000
#define LARGE_JOBS 3000
#define TIED_JOBS 12000
#define DENSE_JOBS 1500
#define JOB_ROOM (CURVEPLAN_JOB_BYTES + 64)
#define PLAN_ROOM (CURVEPLAN_PLAN_BYTES + 64)
#define LONGEST_PLAN 5121 /* of the call: 11 bytes for step 0, which has no drops, 20 for each other step, 10 for the end step */
#define FILL 0xa5
#define MOST_TESTS 256
#define LARGEST_DEGREE (255 * 64)

/* The call's refusals; 5 is withdrawn. */
static const unsigned REFUSALS[] = {1, 2, 3, 4, 6, 7, 9, 13};
#define MOST_REFUSAL 13

/* The methods; a method byte of 2 is read as 1. */
static const unsigned METHODS[] = {0, 1, 3};

static uint64_t state = 20261116;

static uint64_t word(void)
{
    uint64_t z = state += 0x9e3779b97f4a7c15;
    z = (z ^ z >> 30) * 0xbf58476d1ce4e5b9;
    z = (z ^ z >> 27) * 0x94d049bb133111eb;
    return z ^ z >> 31;
}

static unsigned below(unsigned bound)
{
    return (unsigned)((word() >> 32) * bound >> 32);
}

static unsigned between(unsigned low, unsigned high)
{
    return low + below(high - low + 1);
}

static unsigned pick(const unsigned *list, unsigned length)
{
    return list[below(length)];
}

#define PICK(...) pick((const unsigned[]){__VA_ARGS__}, sizeof((const unsigned[]){__VA_ARGS__}) / sizeof(unsigned))

/* So many different curves below `curves`. */
static uint64_t some_curves(unsigned curves, unsigned number)
{
    uint64_t set = 0;
    while (number > 0) {
        uint64_t curve = (uint64_t)1 << below(curves);
        if ((set & curve) == 0) {
            set |= curve;
            number--;
        }
    }
    return set;
}

struct bytes {
    size_t length;
    uint8_t at[JOB_ROOM];
};

static void put(struct bytes *job, unsigned byte)
{
    if (job->length < JOB_ROOM) {
        job->at[job->length++] = (uint8_t)byte;
    }
}

static void put_record(struct bytes *job, uint64_t set)
{
    unsigned map = 0;
    for (unsigned group = 0; group < 8; group++) {
        map |= (unsigned)((set >> 8 * group & 255) != 0) << group;
    }
    put(job, map);
    for (unsigned group = 0; group < 8; group++) {
        if (set >> 8 * group & 255) {
            put(job, set >> 8 * group & 255);
        }
    }
}

/* A drive's places, and how many of these are booked. */
struct drive {
    unsigned places, booked;
};

static void put_head(struct bytes *job, struct drive drive, unsigned curves, unsigned tests, unsigned method)
{
    put(job, (drive.places != 8) | (curves != 64) << 1 | (tests != 0) << 2 | (method != 0) << 3 | (drive.booked != 0) << 4);
    if (drive.places != 8) {
        put(job, drive.places);
    }
    if (curves != 64) {
        put(job, curves);
    }
    if (tests != 0) {
        put(job, tests & 255);
        put(job, tests >> 8);
    }
    if (method != 0) {
        put(job, method);
    }
    if (drive.booked != 0) {
        put(job, drive.booked);
    }
}

/* A drive with so many places that are not booked: none is, one, any number, or all that there can be. */
static struct drive some_drive(unsigned capacity)
{
    unsigned most = 64 - capacity, booked;
    switch (most == 0 ? 0 : below(8)) {
    case 4:
    case 5:
        booked = 1;
        break;
    case 6:
        booked = between(1, most);
        break;
    case 7:
        booked = most;
        break;
    default:
        booked = 0;
    }
    return (struct drive){capacity + booked, booked};
}

/* A job as it should be, but for a test that may want too much, and booked places that may not be fewer than the places. */
static void random_job(struct bytes *job, int large)
{
    unsigned tests = large ? PICK(200, 254, 255, 256, 256, 256, 256, 65, 64, 129) : PICK(0, 1, 2, 3, 4, 5, 8, 15, 16, 17, 30, 63, 64);
    unsigned curves = large ? PICK(64, 64, 64, 63, 40, 9, 1) : between(1, 64);
    unsigned capacity = large ? PICK(1, 2, 7, 8, 8, 16, 32, 33, 48, 63, 64) : PICK(1, 2, 3, 4, 5, 8, 8, 12, 20, 40, 64);
    unsigned most = capacity < curves ? capacity : curves;
    unsigned kind = below(8), method = below(4);
    struct drive drive = some_drive(capacity);
    if (drive.places < 64 && below(16) == 0) {
        drive.booked = below(2) ? drive.places : between(drive.places, 63);
    }
    uint64_t families[4];
    for (unsigned i = 0; i < 4; i++) {
        families[i] = some_curves(curves, most);
    }
    job->length = 0;
    put_head(job, drive, curves, tests, method);
    for (unsigned t = 0; t < tests; t++) {
        uint64_t set;
        switch (kind) {
        case 0:
            set = some_curves(curves, between(0, most));
            break;
        case 1:
            set = some_curves(curves, between(0, most < 3 ? most : 3));
            break;
        case 2:
            set = some_curves(curves, most);
            break;
        case 3:
            set = some_curves(curves, most / 2);
            break;
        case 4: /* parts of a few sets */
            set = families[below(4)] & (word() | word());
            break;
        case 5: /* the same few sets again and again */
            set = families[below(4)] & (families[0] | families[1]);
            break;
        case 6: /* nothing to load */
            set = 0;
            break;
        default:
            set = some_curves(curves, between(most < 3 ? 0 : most - 2, most));
        }
        if (below(40 * tests) == 0) {
            set = some_curves(curves, between(most, curves));
        }
        put_record(job, set);
    }
}

/*
 * The curves in two to four parts, and tests that want one part each, in turn or at random. The drive takes the largest part, but not all curves: of a part's
 * curves, which have the same next use, some go and the others stay.
 */
static void tied_job(struct bytes *job)
{
    unsigned tests = PICK(2, 3, 4, 5, 8, 9, 17, 30, 64, 65, 256);
    unsigned curves = PICK(64, 64, 64, 64, 63, 57, 40, 33, 20, 9, 4, 2);
    unsigned number = between(2, 4), in_turn = below(2), method = below(4);
    unsigned sizes[4] = {0}, largest = 0;
    uint64_t parts[4] = {0};
    for (unsigned k = 0; k < curves; k++) {
        unsigned i = below(number);
        parts[i] |= (uint64_t)1 << k;
        sizes[i]++;
        largest = sizes[i] > largest ? sizes[i] : largest;
    }
    job->length = 0;
    put_head(job, some_drive(largest < curves ? between(largest, curves - 1) : largest), curves, tests, method);
    for (unsigned t = 0; t < tests; t++) {
        uint64_t set = parts[in_turn ? t % number : below(number)];
        /* seldom less than the whole part */
        put_record(job, below(16) ? set : set & word());
    }
}

/* A list whose tests have many curves in common. */
static void dense_wants(uint64_t *wants, unsigned tests)
{
    unsigned kind = below(8), least = below(64), lacking = below(4), one = below(tests);
    unsigned wide = between(tests > 129 ? 129 : tests / 2, tests); /* 129 that lack nothing have degrees of 8,192 and more */
    unsigned narrow = kind == 1 ? PICK(0, 1, 2, 32, 63) : PICK(1, 2, 5, 10, 20);
    uint64_t fewer = some_curves(64, PICK(0, 1, 2, 8, 32, 63));
    for (unsigned t = 0; t < tests; t++) {
        switch (kind) {
        case 0: /* all curves */
            wants[t] = ~(uint64_t)0;
            break;
        case 1: /* all, but in one test */
            wants[t] = t == one ? some_curves(64, narrow) : ~(uint64_t)0;
            break;
        case 2: /* all, and the same fewer, in turn */
            wants[t] = (t + one) % 2 == 0 ? ~(uint64_t)0 : fewer;
            break;
        case 3: /* all but a few */
            wants[t] = ~some_curves(64, between(0, lacking + 1));
            break;
        case 4: /* any number from some number on */
            wants[t] = some_curves(64, between(least, 64));
            break;
        default: /* two groups: all but a few, and few */
            if (below(tests - t) < wide) {
                wants[t] = ~some_curves(64, between(0, lacking));
                wide--;
            } else {
                wants[t] = some_curves(64, between(0, narrow));
            }
        }
    }
}

/* A job of method 1 with large degrees, or an old file that is read so. Its tests fit. */
static void dense_job(struct bytes *job, const uint64_t *wants, unsigned tests)
{
    unsigned widest = 1;
    for (unsigned t = 0; t < tests; t++) {
        unsigned size = 0;
        for (uint64_t rest = wants[t]; rest != 0; rest &= rest - 1) {
            size++;
        }
        widest = size > widest ? size : widest;
    }
    job->length = 0;
    put_head(job, some_drive(between(widest, 64)), 64, tests, PICK(1, 1, 2));
    for (unsigned t = 0; t < tests; t++) {
        put_record(job, wants[t]);
    }
}

/* Any map and fields on and around their bounds, and a few records. */
static void crafted_job(struct bytes *job)
{
    unsigned map = below(32) | (below(8) ? 4 : 0) | (below(12) ? 0 : 32u << below(3)), places = 8, tests = 0;
    job->length = 0;
    put(job, map);
    if (map & 1) {
        places = PICK(1, 2, 3, 7, 9, 63, 64, 0, 8, 65, 255);
        put(job, places);
    }
    if (map & 2) {
        put(job, PICK(1, 2, 8, 9, 20, 62, 63, 0, 64, 65, 255));
    }
    if (map & 4) {
        tests = PICK(1, 1, 2, 2, 3, 3, 4, 5, 0, 256, 257, 512, 65535);
        put(job, tests & 255);
        put(job, tests >> 8);
    }
    if (map & 8) {
        put(job, PICK(1, 1, 2, 2, 3, 3, 0, 4, 255));
    }
    if (map & 16) {
        put(job, PICK(1, 1, 1, 2, 3, 6, 7, 8, 62, 63, 0, 64, 65, 255, places - 1, places - 1, places, places + 1));
    }
    for (unsigned t = 0; t < tests && t < 300; t++) {
        unsigned groups = below(6) ? PICK(0, 1, 1, 1, 3) : below(256);
        put(job, groups);
        for (; groups != 0; groups &= groups - 1) {
            put(job, below(10) ? PICK(1, 1, 1, 2, 3) : below(256));
        }
    }
}

/* One fault, or by luck none. */
static void damage(struct bytes *job)
{
    size_t at = job->length == 0 ? 0 : below((unsigned)(below(3) || job->length < 8 ? job->length : 8));
    unsigned byte = PICK(0, 0, 1, 2, 3, 7, 8, 9, 15, 16, 63, 64, 65, 128, 255);
    switch (job->length == 0 ? 5 : below(7)) {
    case 0:
        job->at[at] ^= (uint8_t)(1u << below(8));
        break;
    case 1:
        job->at[at] = (uint8_t)byte;
        break;
    case 2:
        job->at[at] = 0;
        break;
    case 3:
        job->length = at;
        break;
    case 4:
        memmove(job->at + at, job->at + at + 1, job->length - at - 1);
        job->length--;
        break;
    case 5:
        for (unsigned i = between(1, 3); i > 0; i--) {
            put(job, below(2) ? 0 : below(256));
        }
        break;
    default:
        if (job->length < JOB_ROOM) {
            memmove(job->at + at + 1, job->at + at, job->length - at);
            job->at[at] = (uint8_t)byte;
            job->length++;
        }
    }
}

/* ---- the end of a plan */

/* Where a set ends whose group map is at `at`. */
static size_t behind_set(const uint8_t *plan, size_t at)
{
    unsigned map = plan[at++];
    for (; map != 0; map &= map - 1) {
        at++;
    }
    return at;
}

/* Where the end step of a plan begins; the plan's length if it has none. */
static size_t end_step(const uint8_t *plan, size_t length)
{
    size_t at = 0;
    while (at < length && (plan[at] & 4) != 0) {
        unsigned map = plan[at++];
        if (map & 1) {
            at = behind_set(plan, at);
        }
        if (map & 2) {
            at = behind_set(plan, at);
        }
        at++;
    }
    return at;
}

/* How many curves the end step drops. */
static unsigned end_size(const uint8_t *plan, size_t length)
{
    unsigned size = 0;
    for (size_t at = end_step(plan, length) + 2; at < length; at++) {
        for (unsigned byte = plan[at]; byte != 0; byte &= byte - 1) {
            size++;
        }
    }
    return size;
}

/* ---- booked places */

/* What the head of a job says. */
struct head {
    struct drive drive;
    unsigned method;  /* as it is read */
    size_t booked_at; /* where the booked places are or would be */
};

static struct head head_of(const struct bytes *job)
{
    unsigned map = job->at[0];
    struct head head = {{8, 0}, 0, 1};
    if (map & 1) {
        head.drive.places = job->at[head.booked_at++];
    }
    head.booked_at += (map >> 1 & 1) + 2 * (map >> 2 & 1);
    if (map & 8) {
        unsigned byte = job->at[head.booked_at++];
        head.method = byte == 2 ? 1 : byte;
    }
    if (map & 16) {
        head.drive.booked = job->at[head.booked_at];
    }
    return head;
}

/* What the C program answers if none are booked: without the byte and its bit. */
static uint64_t answer_unbooked(const struct bytes *job, const struct head *head, size_t room)
{
    static struct bytes other;
    static uint8_t plan[PLAN_ROOM];
    size_t at = head->booked_at;
    other.length = job->length - 1;
    memcpy(other.at, job->at, at);
    memcpy(other.at + at, job->at + at + 1, other.length - at);
    other.at[0] &= 15;
    return fast_plan(other.at, other.length, plan, room);
}

/* Planned with booked places, by method; of these, ordered as now, planned otherwise by all places; ordered otherwise; one place left; places absent. */
static unsigned long booked[4], planned_by_places[4], ordered_by_places, one_left, places_absent;
/* Refused with 7, but not so if none were booked. */
static unsigned long too_wide_if_booked;
/* Refused with 13: as many are booked as there are places, or more; by the answer if none were booked, 0 for a plan. */
static unsigned long all_booked, more_booked, behind_13[MOST_REFUSAL + 1];
static const unsigned BEHIND_13[] = {1, 3, 4, 6, 7, 9};
/* Refused with 2, while the booked places are not below the places. */
static unsigned long before_13;

/* Counts a job with booked places that is planned. Its order, and the plan of its own order, are made by all places too. */
static void count_booked(const struct bytes *job, const struct head *head, const uint8_t *plan, size_t length)
{
    struct fast_job read;
    uint8_t order[FAST_TESTS], by_places[FAST_TESTS], bytes[FAST_BYTES];
    fast_read(job->at, job->length, &read);
    one_left += read.capacity == 1;
    places_absent += (job->at[0] & 1) == 0;
    fast_order(&read, order);
    read.capacity = head->drive.places;
    fast_order(&read, by_places);
    ordered_by_places += memcmp(order, by_places, read.tests) != 0;
    booked[head->method]++;
    planned_by_places[head->method] += fast_steps(&read, order, bytes) != length || memcmp(plan, bytes, length) != 0;
}

/* Counts a job with booked places that is refused. */
static void count_booked_refused(const struct bytes *job, uint64_t answer, size_t room)
{
    struct head head = head_of(job);
    unsigned number = curveplan_number_16(answer);
    if (head.booked_at >= job->length) {
        return;
    }
    if (number == CURVEPLAN_BAD_HEADER) {
        before_13 += head.drive.booked >= head.drive.places;
    }
    if (number == CURVEPLAN_TEST_TOO_LARGE) {
        too_wide_if_booked += answer_unbooked(job, &head, room) != answer;
    }
    if (number == CURVEPLAN_TOO_MANY_BOOKED) {
        all_booked += head.drive.booked == head.drive.places;
        more_booked += head.drive.booked > head.drive.places;
        behind_13[curveplan_number_16(answer_unbooked(job, &head, room))]++;
    }
}

/* ---- old files: the method byte is 2 */

/* What a job is made as. */
enum kind { WITH_ANSWER, EMPTY_LIST, BOUNDARY, UNDAMAGED, ONE_FAULT, TWO_FAULTS, TIED, DENSE, KINDS };

static const char *const KIND_NAMES[KINDS] = {
    "with a known answer", "with an empty list", "on bounds", "random", "with one fault", "with two faults", "with many equal next uses", "with large degrees",
};

static enum kind made_as;

/* Planned and refused, of each kind, and with booked places; planned, with another order if the method were 0 or 3. */
static unsigned long old_planned[KINDS], old_refused[KINDS], old_booked_planned, old_booked_refused, listed_otherwise, packed_otherwise;

/* Where the method byte is, if it is there and is 2; else 0. */
static size_t old_method_at(const struct bytes *job)
{
    unsigned map = job->length == 0 ? 0 : job->at[0];
    size_t at = 1 + (map & 1) + (map >> 1 & 1) + 2 * (map >> 2 & 1);
    return (map & 8) != 0 && at < job->length && job->at[at] == 2 ? at : 0;
}

/* Whether another method gives another order. */
static int orders_otherwise(const struct fast_job *read, unsigned method)
{
    struct fast_job other = *read;
    uint8_t order[FAST_TESTS], by_method[FAST_TESTS];
    other.method = method;
    fast_order(read, order);
    fast_order(&other, by_method);
    return memcmp(order, by_method, read->tests) != 0;
}

static void count_old(const struct bytes *job, uint64_t answer)
{
    unsigned with_booked = job->at[0] >> 4 & 1;
    if (curveplan_refused_16(answer)) {
        old_refused[made_as]++;
        old_booked_refused += with_booked;
        return;
    }
    struct fast_job read;
    fast_read(job->at, job->length, &read);
    old_planned[made_as]++;
    old_booked_planned += with_booked;
    listed_otherwise += orders_otherwise(&read, 0);
    packed_otherwise += orders_otherwise(&read, 3);
}

/* ---- comparing */

enum ending { NOTHING, SOME, FULL };

/* Of all calls, of those with an empty list, and of the others. */
static unsigned long compared;
static unsigned long empty, empty_without_room, empty_with_surplus;
static unsigned long refused[MOST_REFUSAL + 1], planned[4], ended[3];
static size_t longest, longest_job;

/* Whether the call answers so: a count of bytes, or one of its refusals. */
static int is_answer(uint64_t answer)
{
    int known = !curveplan_refused_16(answer);
    for (size_t i = 0; i < sizeof REFUSALS / sizeof *REFUSALS; i++) {
        known |= curveplan_number_16(answer) == REFUSALS[i];
    }
    return known;
}

/* Whether the job's head reads and lacks the tests field: then the plan is empty, or there are bytes behind the head. */
static int is_empty(const struct bytes *job, uint64_t answer)
{
    return (job->at[0] & 4) == 0 && (answer == 0 || curveplan_number_16(answer) == CURVEPLAN_TRAILING_BYTES);
}

static void count_empty(uint64_t answer, size_t room)
{
    empty++;
    empty_without_room += answer == 0 && room == 0;
    empty_with_surplus += answer != 0;
}

/* Counts a job that is planned, by its method and by what is held at the end. */
static void count_planned(const struct bytes *job, const uint8_t *plan, size_t length)
{
    struct head head = head_of(job);
    unsigned capacity = head.drive.places - head.drive.booked, size = end_size(plan, length);
    planned[head.method]++;
    ended[size == 0 ? NOTHING : size == capacity ? FULL : SOME]++;
    longest = length > longest ? length : longest;
    longest_job = job->length > longest_job ? job->length : longest_job;
    if (head.drive.booked != 0) {
        count_booked(job, &head, plan, length);
    }
}

static unsigned long all_planned(void)
{
    return planned[0] + planned[1] + planned[3];
}

static void print_job(const struct bytes *job)
{
    printf("job");
    for (size_t i = 0; i < job->length; i++) {
        printf(" %02x", job->at[i]);
    }
    printf("\n");
}

/* Where two buffers differ first. */
static void print_first_difference(const uint8_t *a, const uint8_t *b)
{
    for (size_t i = 0; i < PLAN_ROOM; i++) {
        if (a[i] != b[i]) {
            printf("; byte %zu: %02x, %02x", i, a[i], b[i]);
            return;
        }
    }
}

/* Whether the library answers an old file otherwise with 1 in the place of the method byte, or leaves another byte in the plan's buffer. */
static int differs_from_1(const struct bytes *job, size_t method_at, size_t room, uint64_t answer, const uint8_t *plan)
{
    static uint8_t by_1[JOB_ROOM], other[PLAN_ROOM];
    memcpy(by_1, job->at, job->length);
    by_1[method_at] = 1;
    memset(other, FILL, sizeof other);
    uint64_t answer_by_1 = curveplan_plan(by_1, job->length, other, room);
    if (answer_by_1 == answer && memcmp(other, plan, sizeof other) == 0) {
        return 0;
    }
    print_job(job);
    printf("%zu bytes of room: the library answers %llu, and %llu with method 1", room, (unsigned long long)answer, (unsigned long long)answer_by_1);
    print_first_difference(plan, other);
    printf("\n");
    return 1;
}

static int differs(const struct bytes *job, size_t room)
{
    static uint8_t ours[PLAN_ROOM], theirs[PLAN_ROOM];
    memset(ours, FILL, sizeof ours);
    memset(theirs, FILL, sizeof theirs);
    uint64_t library = curveplan_plan(job->at, job->length, theirs, room);
    uint64_t fast = fast_plan(job->at, job->length, ours, room);
    compared++;
    if (library == fast && is_answer(fast) && memcmp(ours, theirs, sizeof ours) == 0) {
        if (is_empty(job, fast)) {
            count_empty(fast, room);
        } else if (!curveplan_refused_16(fast)) {
            count_planned(job, ours, (size_t)fast);
        } else {
            refused[curveplan_number_16(fast)]++;
            if (job->length != 0 && job->at[0] & 16) {
                count_booked_refused(job, fast, room);
            }
        }
        size_t method_at = old_method_at(job);
        if (method_at == 0) {
            return 0;
        }
        count_old(job, fast);
        return differs_from_1(job, method_at, room, library, theirs);
    }
    print_job(job);
    printf("%zu bytes of room: the library answers %llu, the C program %llu", room, (unsigned long long)library, (unsigned long long)fast);
    print_first_difference(theirs, ours);
    printf(is_answer(fast) ? "\n" : "; the call has no such refusal\n");
    return 1;
}

/* The job with room enough, and with room on and around the bound. */
static int any_differs(const struct bytes *job)
{
    uint8_t plan[CURVEPLAN_PLAN_BYTES];
    uint64_t answer = fast_plan(job->at, job->length, plan, sizeof plan);
    if (differs(job, CURVEPLAN_PLAN_BYTES)) {
        return 1;
    }
    if (curveplan_refused_16(answer) || answer == 0) {
        return differs(job, PICK(0, 1, 20));
    }
    size_t room = (size_t)answer;
    switch (below(6)) {
    case 0:
        return differs(job, room);
    case 1:
        return differs(job, room - 1);
    case 2:
        return differs(job, room + 1);
    case 3:
        return differs(job, below((unsigned)room));
    case 4: /* enough for the steps, not for the end step */
        return differs(job, end_step(plan, room));
    default:
        return differs(job, 0);
    }
}

/* ---- jobs whose plans have a known number of bytes */

#define FIRST ((uint64_t)1)
#define LAST (FIRST << 63)
#define ALL (~(uint64_t)0)
#define LOWER 0x0f0f0f0f0f0f0f0f /* four of each group */

struct known {
    struct drive drive;
    unsigned tests;
    unsigned methods;   /* with each method byte below this one, or none */
    uint64_t even, odd; /* what the tests want in turn */
    size_t length;      /* of the plan */
};

static const struct known KNOWN[] = {
    /* Nothing is held at the end: two bytes for each step. */
    {{8, 0}, 1, 4, 0, 0, 2},
    {{64, 0}, 256, 4, 0, 0, 256 * 2},
    {{64, 63}, 256, 4, 0, 0, 256 * 2},
    /* One place is taken at the end, of eight and of one. */
    {{8, 0}, 1, 4, LAST, 0, 4 + 3},
    {{1, 0}, 1, 4, LAST, 0, 4 + 3},
    {{8, 7}, 1, 4, LAST, 0, 4 + 3},
    {{64, 63}, 1, 4, LAST, 0, 4 + 3},
    /* All 64 places are taken from step 0 on, or all 63 of them. */
    {{64, 0}, 1, 4, ALL, 0, 11 + 10},
    {{64, 0}, 256, 4, ALL, ALL, 11 + 255 * 2 + 10},
    {{64, 1}, 256, 4, ALL - 1, ALL - 1, 11 + 255 * 2 + 10},
    /* As listed, each step drops what the one before has loaded: one curve, or half of all curves. */
    {{1, 0}, 256, 1, FIRST, LAST, 4 + 255 * 6 + 3},
    {{2, 1}, 256, 1, FIRST, LAST, 4 + 255 * 6 + 3},
    {{64, 63}, 256, 1, FIRST, LAST, 4 + 255 * 6 + 3},
    {{32, 0}, 256, 1, LOWER, ~LOWER, LONGEST_PLAN},
    {{33, 1}, 256, 1, LOWER, ~LOWER, LONGEST_PLAN},
    {{64, 32}, 256, 1, LOWER, ~LOWER, LONGEST_PLAN},
};

static void known_job(struct bytes *job, const struct known *known, unsigned method)
{
    job->length = 0;
    put_head(job, known->drive, 64, known->tests, method);
    for (unsigned t = 0; t < known->tests; t++) {
        put_record(job, t % 2 == 0 ? known->even : known->odd);
    }
}

/* The job with no room, room for the steps without the end step, one byte too few, just enough, one more, and the most. */
static int every_room_differs(const struct bytes *job, size_t length)
{
    uint8_t plan[CURVEPLAN_PLAN_BYTES];
    uint64_t answer = fast_plan(job->at, job->length, plan, sizeof plan);
    if (answer != length) {
        printf("a plan of %zu bytes: the C program answers %llu\n", length, (unsigned long long)answer);
        return 1;
    }
    return differs(job, 0) || differs(job, end_step(plan, length)) || differs(job, length - 1) || differs(job, length) || differs(job, length + 1) ||
           differs(job, CURVEPLAN_PLAN_BYTES);
}

static int some_known_differs(struct bytes *job)
{
    for (size_t i = 0; i < sizeof KNOWN / sizeof *KNOWN; i++) {
        for (unsigned method = 0; method < KNOWN[i].methods; method++) {
            known_job(job, &KNOWN[i], method);
            if (every_room_differs(job, KNOWN[i].length)) {
                return 1;
            }
        }
    }
    return 0;
}

/* ---- the longest job, and jobs with booked places whose answers are known */

static uint64_t refusal(unsigned number, size_t figure)
{
    return (uint64_t)number * 65536 + figure;
}

static int answers_otherwise(const struct bytes *job, uint64_t answer)
{
    uint8_t plan[CURVEPLAN_PLAN_BYTES];
    uint64_t fast = fast_plan(job->at, job->length, plan, sizeof plan);
    if (fast != answer) {
        printf("a job of %zu bytes, the first %02x: the C program answers %llu, not %llu\n", job->length, job->at[0], (unsigned long long)fast,
               (unsigned long long)answer);
        return 1;
    }
    return differs(job, 0) || differs(job, CURVEPLAN_PLAN_BYTES);
}

/*
 * All fields, and eight groups in each record: half of the curves, and the others, in turn. Each method but 0 puts the tests that want the same behind each
 * other, so that two steps have loads, and one of them drops; in a drive with all 64 places none would.
 */
static int longest_differs(struct bytes *job)
{
    for (unsigned method = 1; method < 4; method++) {
        job->length = 0;
        put_head(job, (struct drive){64, 32}, 63, MOST_TESTS, method);
        size_t booked_at = job->length - 1;
        for (unsigned t = 0; t < MOST_TESTS; t++) {
            put_record(job, t % 2 == 0 ? LOWER : ~LOWER & ~LAST);
        }
        if (every_room_differs(job, 11 + 127 * 2 + 20 + 127 * 2 + 10)) {
            return 1;
        }
        put(job, 0);
        if (answers_otherwise(job, refusal(6, CURVEPLAN_JOB_BYTES))) {
            return 1;
        }
        job->length -= 2;
        if (answers_otherwise(job, refusal(1, CURVEPLAN_JOB_BYTES - 1))) {
            return 1;
        }
        /* one place too few for test 0 */
        job->length++;
        job->at[booked_at] = 33;
        if (answers_otherwise(job, refusal(7, 0))) {
            return 1;
        }
    }
    return 0;
}

/* A job, and its answer by the papers. */
struct settled {
    size_t length;
    uint8_t at[10];
    unsigned number, figure; /* of the refusal; 0 and the count of plan bytes where there is none */
};

#define JOB(...) sizeof((const uint8_t[]){__VA_ARGS__}), {__VA_ARGS__}

static const struct settled SETTLED[] = {
    /* The byte is owed; it is at its absent value, or out of range, which comes before 13. */
    {JOB(0x10), 1, 1},
    {JOB(0x11, 0x02), 1, 2},
    {JOB(0x1d, 0x02, 0x01, 0x00, 0x01), 1, 5},
    {JOB(0x10, 0x00), 2, 1},
    {JOB(0x10, 0x40), 2, 1},
    {JOB(0x11, 0x40, 0x40), 2, 2},
    {JOB(0x10, 0xff), 2, 1},
    /* One less than the places, as many, more. */
    {JOB(0x10, 0x07), 0, 0},
    {JOB(0x10, 0x08), 13, 1},
    {JOB(0x10, 0x09), 13, 1},
    {JOB(0x10, 0x3f), 13, 1},
    {JOB(0x11, 0x01, 0x01), 13, 2},
    {JOB(0x11, 0x02, 0x01), 0, 0},
    {JOB(0x11, 0x02, 0x02), 13, 2},
    {JOB(0x11, 0x3f, 0x3e), 0, 0},
    {JOB(0x11, 0x3f, 0x3f), 13, 2},
    {JOB(0x11, 0x40, 0x3f), 0, 0},
    /* A fault of the map or of another field, and 13. */
    {JOB(0x30, 0x08), 2, 0},
    {JOB(0x50, 0x08), 2, 0},
    {JOB(0x90, 0x08), 2, 0},
    {JOB(0x11, 0x00, 0x01), 2, 1},
    {JOB(0x11, 0x08, 0x08), 2, 1},
    {JOB(0x12, 0x00, 0x08), 2, 1},
    {JOB(0x12, 0x40, 0x08), 2, 1},
    {JOB(0x14, 0x00, 0x00, 0x08), 2, 1},
    {JOB(0x14, 0x01, 0x01, 0x08), 2, 1},
    {JOB(0x18, 0x00, 0x08), 2, 1},
    {JOB(0x18, 0x04, 0x08), 2, 1},
    {JOB(0x1f, 0x02, 0x04, 0x01, 0x00, 0x04, 0x02), 2, 5},
    /* 13, and a fault of the records or behind them; then that fault by itself. */
    {JOB(0x14, 0x01, 0x00, 0x08), 13, 3},
    {JOB(0x14, 0x01, 0x00, 0x07), 1, 4},
    {JOB(0x14, 0x01, 0x00, 0x08, 0x01), 13, 3},
    {JOB(0x14, 0x01, 0x00, 0x07, 0x01), 1, 5},
    {JOB(0x14, 0x01, 0x00, 0x08, 0x01, 0x00), 13, 3},
    {JOB(0x14, 0x01, 0x00, 0x07, 0x01, 0x00), 3, 5},
    {JOB(0x16, 0x04, 0x01, 0x00, 0x08, 0x01, 0x10), 13, 4},
    {JOB(0x16, 0x04, 0x01, 0x00, 0x07, 0x01, 0x10), 4, 6},
    {JOB(0x14, 0x01, 0x00, 0x08, 0x00, 0x00), 13, 3},
    {JOB(0x14, 0x01, 0x00, 0x07, 0x00, 0x00), 6, 5},
    {JOB(0x10, 0x08, 0x00), 13, 1},
    {JOB(0x10, 0x07, 0x00), 6, 2},
    /* Three curves: none, too many and one of three places booked, then one of four. */
    {JOB(0x05, 0x03, 0x01, 0x00, 0x01, 0x07), 0, 4 + 3},
    {JOB(0x15, 0x03, 0x01, 0x00, 0x03, 0x01, 0x07), 13, 4},
    {JOB(0x15, 0x03, 0x01, 0x00, 0x01, 0x01, 0x07), 7, 0},
    {JOB(0x15, 0x04, 0x01, 0x00, 0x01, 0x01, 0x07), 0, 4 + 3},
    /* The second of two tests is too wide for seven places, and fits eight. */
    {JOB(0x14, 0x02, 0x00, 0x01, 0x01, 0x7f, 0x01, 0xff), 7, 1},
    {JOB(0x15, 0x09, 0x02, 0x00, 0x01, 0x01, 0x7f, 0x01, 0xff), 0, 4 + 4 + 3},
    /* The method byte is still 1 to 3: at its absent value, old, above. */
    {JOB(0x08, 0x00), 2, 1},
    {JOB(0x08, 0x02), 0, 0},
    {JOB(0x08, 0x04), 2, 1},
    /* Behind a method byte of 2: a byte that is owed, a fault of the booked places, of a record, bytes behind the last; a test that is too wide, and fits. */
    {JOB(0x0c, 0x01, 0x00, 0x02), 1, 4},
    {JOB(0x18, 0x02), 1, 2},
    {JOB(0x18, 0x02, 0x40), 2, 2},
    {JOB(0x18, 0x02, 0x08), 13, 2},
    {JOB(0x0c, 0x01, 0x00, 0x02, 0x01, 0x00), 3, 5},
    {JOB(0x0e, 0x04, 0x01, 0x00, 0x02, 0x01, 0x10), 4, 6},
    {JOB(0x0c, 0x01, 0x00, 0x02, 0x00, 0x00), 6, 5},
    {JOB(0x08, 0x02, 0x00), 6, 2},
    {JOB(0x0d, 0x02, 0x01, 0x00, 0x02, 0x01, 0x07), 7, 0},
    {JOB(0x0d, 0x03, 0x01, 0x00, 0x02, 0x01, 0x07), 0, 4 + 3},
};

static int some_settled_differs(struct bytes *job)
{
    for (size_t i = 0; i < sizeof SETTLED / sizeof *SETTLED; i++) {
        job->length = 0;
        for (size_t b = 0; b < SETTLED[i].length; b++) {
            put(job, SETTLED[i].at[b]);
        }
        if (answers_otherwise(job, refusal(SETTLED[i].number, SETTLED[i].figure))) {
            return 1;
        }
    }
    return 0;
}

/* ---- empty lists */

/* A head without a tests field, by itself and with bytes behind it. */
static int empty_differs(struct bytes *job, struct drive drive, unsigned curves, unsigned method)
{
    job->length = 0;
    put_head(job, drive, curves, 0, method);
    int too_many = drive.booked >= drive.places;
    uint64_t by_itself = too_many ? refusal(13, job->length - 1) : 0, with_surplus = too_many ? by_itself : refusal(6, job->length);
    if (answers_otherwise(job, by_itself)) {
        return 1;
    }
    for (unsigned bytes = PICK(1, 1, 2, 9, 40); bytes > 0; bytes--) {
        put(job, PICK(0, 1, 255, below(256)));
    }
    return answers_otherwise(job, with_surplus);
}

/* Every such head with none booked, and every number of places and of booked places. */
static int some_empty_differs(struct bytes *job)
{
    for (unsigned i = 0; i < 64 * 64 * 4; i++) {
        if (empty_differs(job, (struct drive){1 + i % 64, 0}, 1 + i / 64 % 64, i / (64 * 64))) {
            return 1;
        }
    }
    for (unsigned i = 0; i < 64 * 63; i++) {
        unsigned curves = between(1, 64), method = below(4);
        if (empty_differs(job, (struct drive){1 + i % 64, 1 + i / 64}, curves, method)) {
            return 1;
        }
    }
    return 0;
}

/* ---- degrees of method 1 */

/* Numbers that do not hold every degree: modulo 256, modulo 8,192, a signed byte. */
enum held { WHOLE, MODULO_256, MODULO_8192, SIGNED_BYTE, NUMBERS };

/* Of the jobs with large degrees: some degree is above 255, some are 8,192 or more and others less, one is the largest; such a number gives another order. */
static unsigned long above_255, around_8192, at_largest, ordered_otherwise[NUMBERS];

static int held_as(enum held number, unsigned degree)
{
    switch (number) {
    case MODULO_256:
        return (int)(degree % 256);
    case MODULO_8192:
        return (int)(degree % 8192);
    case SIGNED_BYTE:
        return (int)((degree + 128) % 256) - 128;
    default:
        return (int)degree;
    }
}

/* A curve of a test counts once for every other test that wants it. */
static void set_degrees(const uint64_t *wants, unsigned tests, unsigned *degrees)
{
    unsigned wanting[64] = {0};
    for (unsigned t = 0; t < tests; t++) {
        for (unsigned k = 0; k < 64; k++) {
            wanting[k] += wants[t] >> k & 1;
        }
    }
    for (unsigned t = 0; t < tests; t++) {
        degrees[t] = 0;
        for (unsigned k = 0; k < 64; k++) {
            degrees[t] += wants[t] >> k & 1 ? wanting[k] - 1 : 0;
        }
    }
}

/* The list of method 1, not yet reversed, if degrees are compared by what a number holds of them. */
static void set_list(const uint64_t *wants, unsigned tests, const unsigned *degrees, enum held number, uint8_t *list)
{
    uint8_t rising[MOST_TESTS], listed[MOST_TESTS] = {0};
    for (unsigned t = 0; t < tests; t++) {
        unsigned at = t;
        for (; at > 0 && held_as(number, degrees[rising[at - 1]]) > held_as(number, degrees[t]); at--) {
            rising[at] = rising[at - 1];
        }
        rising[at] = (uint8_t)t;
    }
    unsigned length = 0;
    for (unsigned along = 0; along < tests; along++) {
        /* Behind the last one: the remaining one of smallest degree. */
        for (unsigned i = 0; i < tests && length == along; i++) {
            if (!listed[rising[i]]) {
                list[length++] = rising[i];
                listed[rising[i]] = 1;
            }
        }
        for (unsigned i = 0; i < tests; i++) {
            if (!listed[rising[i]] && (wants[rising[i]] & wants[list[along]]) != 0) {
                list[length++] = rising[i];
                listed[rising[i]] = 1;
            }
        }
    }
}

static void count_degrees(const uint64_t *wants, unsigned tests)
{
    unsigned degrees[MOST_TESTS], least = LARGEST_DEGREE, largest = 0;
    uint8_t list[MOST_TESTS] = {0}, other[MOST_TESTS] = {0};
    set_degrees(wants, tests, degrees);
    for (unsigned t = 0; t < tests; t++) {
        least = degrees[t] < least ? degrees[t] : least;
        largest = degrees[t] > largest ? degrees[t] : largest;
    }
    above_255 += largest > 255;
    around_8192 += least < 8192 && largest >= 8192;
    at_largest += largest == LARGEST_DEGREE;
    set_list(wants, tests, degrees, WHOLE, list);
    for (enum held number = MODULO_256; number < NUMBERS; number++) {
        set_list(wants, tests, degrees, number, other);
        ordered_otherwise[number] += memcmp(list, other, tests) != 0;
    }
}

static int some_dense_differs(struct bytes *job)
{
    uint64_t wants[MOST_TESTS];
    for (unsigned i = 0; i < DENSE_JOBS; i++) {
        unsigned tests = PICK(256, 256, 256, 256, 255, 200, 160, 130, 129, 66, 40, 17, 6, 5);
        dense_wants(wants, tests);
        dense_job(job, wants, tests);
        count_degrees(wants, tests);
        if (any_differs(job)) {
            return 1;
        }
    }
    return 0;
}

/* What is counted of booked places; whether something of it never came up. */
static int print_booked(void)
{
    int missing = 0;
    printf("; with booked places planned by method");
    for (size_t i = 0; i < sizeof METHODS / sizeof *METHODS; i++) {
        printf(" %u: %lu", METHODS[i], booked[METHODS[i]]);
        missing |= booked[METHODS[i]] == 0;
    }
    printf(", of these with another plan if none were booked");
    for (size_t i = 0; i < sizeof METHODS / sizeof *METHODS; i++) {
        printf(" %u: %lu", METHODS[i], planned_by_places[METHODS[i]]);
        missing |= planned_by_places[METHODS[i]] == 0;
    }
    printf(", with another order: %lu, with one place left: %lu, with places absent: %lu", ordered_by_places, one_left, places_absent);
    missing |= ordered_by_places == 0 || one_left == 0 || places_absent == 0;
    printf("; refused 7, and not so if none were booked: %lu", too_wide_if_booked);
    missing |= too_wide_if_booked == 0;
    printf("; refused 13 with as many booked as places: %lu, with more: %lu, and if none were booked planned: %lu", all_booked, more_booked, behind_13[0]);
    missing |= all_booked == 0 || more_booked == 0 || behind_13[0] == 0;
    for (size_t i = 0; i < sizeof BEHIND_13 / sizeof *BEHIND_13; i++) {
        printf(", refused %u: %lu", BEHIND_13[i], behind_13[BEHIND_13[i]]);
        missing |= behind_13[BEHIND_13[i]] == 0;
    }
    printf("; refused 2 with booked places not below the places: %lu", before_13);
    return missing || before_13 == 0;
}

/* What is counted of old files; whether something of it never came up. */
static int print_old(void)
{
    int missing = 0;
    unsigned long all_old_planned = 0, all_old_refused = 0;
    for (unsigned i = 0; i < KINDS; i++) {
        all_old_planned += old_planned[i];
        all_old_refused += old_refused[i];
    }
    printf("; with method byte 2, all as with 1 in its place, planned: %lu, refused: %lu, of these", all_old_planned, all_old_refused);
    for (unsigned i = 0; i < KINDS; i++) {
        printf(" %s: %lu and %lu,", KIND_NAMES[i], old_planned[i], old_refused[i]);
        missing |= old_planned[i] == 0 || old_refused[i] == 0;
    }
    printf(" with booked places: %lu and %lu", old_booked_planned, old_booked_refused);
    missing |= old_booked_planned == 0 || old_booked_refused == 0;
    printf("; planned with another order by method 0: %lu, by method 3: %lu", listed_otherwise, packed_otherwise);
    return missing || listed_otherwise == 0 || packed_otherwise == 0;
}

int main(void)
{
    static struct bytes job;
    made_as = WITH_ANSWER;
    if (some_known_differs(&job) || longest_differs(&job) || some_settled_differs(&job)) {
        return 1;
    }
    made_as = EMPTY_LIST;
    if (some_empty_differs(&job)) {
        return 1;
    }
    for (unsigned i = 0; i < SMALL_JOBS + LARGE_JOBS; i++) {
        int large = i >= SMALL_JOBS;
        unsigned tenth = below(10), faults = tenth < 6 ? 0 : tenth < 8 ? 1 : 2;
        if (tenth < 2 && !large) {
            made_as = BOUNDARY;
            crafted_job(&job);
        } else {
            made_as = faults == 0 ? UNDAMAGED : faults == 1 ? ONE_FAULT : TWO_FAULTS;
            random_job(&job, large);
        }
        for (; faults > 0; faults--) {
            damage(&job);
        }
        if (any_differs(&job)) {
            return 1;
        }
    }
    unsigned long others = all_planned();
    made_as = TIED;
    for (unsigned i = 0; i < TIED_JOBS; i++) {
        tied_job(&job);
        if (any_differs(&job)) {
            return 1;
        }
    }
    unsigned long tied = all_planned() - others;
    unsigned long by_degree = planned[1];
    made_as = DENSE;
    if (some_dense_differs(&job)) {
        return 1;
    }
    unsigned long dense = planned[1] - by_degree;
    int missing = 0;
    printf("fast_c: %lu calls as the library answers them", compared);
    printf("; with an empty list: %lu, of these planned without room: %lu, refused for bytes behind it: %lu", empty, empty_without_room, empty_with_surplus);
    missing |= empty_without_room == 0 || empty_with_surplus == 0;
    printf("; the others planned by method");
    for (size_t i = 0; i < sizeof METHODS / sizeof *METHODS; i++) {
        printf(" %u: %lu", METHODS[i], planned[METHODS[i]]);
        missing |= planned[METHODS[i]] == 0;
    }
    printf("; of these with many equal next uses: %lu", tied);
    missing |= tied == 0;
    printf("; by method 1 with large degrees: %lu, of %u lists; of these with degrees above 255: %lu, on both sides of 8192: %lu, of 16320: %lu", dense,
           DENSE_JOBS, above_255, around_8192, at_largest);
    printf(", and with another order modulo 256: %lu, modulo 8192: %lu, by a signed byte: %lu", ordered_otherwise[MODULO_256], ordered_otherwise[MODULO_8192],
           ordered_otherwise[SIGNED_BYTE]);
    missing |= dense < DENSE_JOBS || above_255 == 0 || around_8192 == 0 || at_largest == 0;
    for (enum held number = MODULO_256; number < NUMBERS; number++) {
        missing |= ordered_otherwise[number] == 0;
    }
    printf("; refused");
    for (size_t i = 0; i < sizeof REFUSALS / sizeof *REFUSALS; i++) {
        printf(" %u: %lu", REFUSALS[i], refused[REFUSALS[i]]);
        missing |= refused[REFUSALS[i]] == 0;
    }
    printf("; held at the end nothing: %lu, some: %lu, a full drive: %lu", ended[NOTHING], ended[SOME], ended[FULL]);
    missing |= ended[NOTHING] == 0 || ended[SOME] == 0 || ended[FULL] == 0;
    printf("; longest job %zu, longest plan %zu", longest_job, longest);
    missing |= longest_job != CURVEPLAN_JOB_BYTES || longest != LONGEST_PLAN;
    missing |= print_booked();
    missing |= print_old();
    printf("\n");
    if (missing) {
        printf("fast_c: some outcome never came up\n");
    }
    return missing;
}
