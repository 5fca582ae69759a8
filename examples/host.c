/*
 * A C host: first the marked examples, each call on a fresh column of growers
 * 10 to 80; then a week at a mill, from the recorded calls to the next plan, with
 * a payment screen that steps from grower to grower, a settlement sheet and those
 * of terms; then a weighbridge file.
 * Prints each step, and exits nonzero if an answer is not the expected one.
 *
 *   cc -std=c11 -Wall -Wextra -Werror -Iinclude examples/host.c \
 *      -Lcrates/c_api/out -lc_api -o host
 */
#include "meltusk.h"

#include <inttypes.h>
#include <stdio.h>
#include <string.h>

#define SLOTS 14
#define BLOCK 2

/* The factory prices, and the limits of the plan. */
#define RR 3
#define SR 1
#define RW 2
#define READ_LIMIT 100
#define INSERT_LIMIT 100

#define COUNT_OF(list) (sizeof(list) / sizeof(list)[0])

/* The day number of a day of November 2024. */
#define NOVEMBER(day) (9070 + (day))

/* A column's arguments: its four slices, and the same behind the directory. */
#define SLICES(c)                                                                                  \
    (c)->growers, SLOTS, (c)->weights, SLOTS, (c)->yields, SLOTS, (c)->days, SLOTS
#define COLUMN(c) (c)->directory, MELTUSK_DIRECTORY, SLICES(c)

typedef struct {
    uint32_t directory[MELTUSK_DIRECTORY];
    uint32_t growers[SLOTS];
    uint32_t weights[SLOTS];
    uint32_t yields[SLOTS];
    uint32_t days[SLOTS];
} column;

/* TERM is a range over the days of a settlement term. */
typedef enum { FIND, RANGE, TERM, INSERT, DELETE, MOVE } kind;

typedef struct {
    kind kind;
    uint32_t grower; /* of a range: the lowest */
    uint32_t other;  /* of a range: the highest; of a move: the new grower */
    uint32_t weight;
    uint32_t oil_yield;
    uint32_t day;     /* of a term: any of its days */
    uint32_t refusal; /* the one that a column is expected to give */
} call;

/* Indexed by refusal number. */
static const char *const reasons[] = {
    "accepted",
    "a price or a limit is out of range",
    "the block length is out of range",
    "the slices have no common length",
    "the used slots are out of range",
    "the growers are not in order",
    "the layout or the directory has not its shape",
    "the range is empty",
    "a weight or a yield is out of range",
    "the histograms are out of range",
    "a count would be out of range",
    "no layout is permitted",
    "there is no free slot",
    "there is no such delivery",
    "the text is no snapshot",
    "the output slice is too short",
    "the header line lacks a column or has a broken quote",
    "the header line has a column twice",
    "a row has another field count, a broken quote or a number out of range",
    "a day or a date is out of range, or not one that the text can hold",
};

/* Answers that are not the expected ones. */
static int wrong = 0;

/* Ends a line of output. */
static void judge(int good)
{
    puts(good ? "" : "  WRONG");
    if (!good)
        wrong++;
}

static const char *reason(uint32_t refusal)
{
    return refusal < COUNT_OF(reasons) ? reasons[refusal] : "no known refusal";
}

static void print_refusal(uint32_t refusal)
{
    if (refusal != 0)
        printf("; refused by %" PRIu32 ", %s", refusal, reason(refusal));
}

/* Ends a line that is all said but for the refusal. */
static void judge_refusal(uint32_t refusal, uint32_t expected)
{
    print_refusal(refusal);
    judge(refusal == expected);
}

/* A day as a date. */
static void print_date(uint32_t day)
{
    meltusk_date_answer d = meltusk_date_of(day);

    if (d.refusal == 0)
        printf("%04" PRIu32 "-%02" PRIu32 "-%02" PRIu32, d.year, d.month, d.day);
    else
        printf("day %" PRIu32, day);
}

static meltusk_answer make(column *c, const call *k)
{
    meltusk_term_answer term = meltusk_term_of(k->day);

    switch (k->kind) {
    case FIND:
        return meltusk_find(COLUMN(c), k->grower);
    case RANGE:
        return meltusk_range(COLUMN(c), k->grower, k->other);
    case TERM:
        return meltusk_range_days(COLUMN(c), k->grower, k->other, term.first, term.last);
    case INSERT:
        return meltusk_insert(COLUMN(c), k->grower, k->weight, k->oil_yield, k->day);
    case DELETE:
        return meltusk_delete(COLUMN(c), k->grower, k->weight, k->oil_yield, k->day);
    default:
        return meltusk_move(COLUMN(c), k->grower, k->weight, k->oil_yield, k->day, k->other);
    }
}

static uint32_t record(uint32_t *histograms, uint32_t used, const column *set, const call *k)
{
    meltusk_term_answer term = meltusk_term_of(k->day);

    switch (k->kind) {
    case FIND:
        return meltusk_record_find(histograms, MELTUSK_HISTOGRAMS, BLOCK, used, SLICES(set),
                                   k->grower);
    case RANGE:
        return meltusk_record_range(histograms, MELTUSK_HISTOGRAMS, BLOCK, used, SLICES(set),
                                    k->grower, k->other);
    case TERM:
        return meltusk_record_range_days(histograms, MELTUSK_HISTOGRAMS, BLOCK, used, SLICES(set),
                                         k->grower, k->other, term.first, term.last);
    case INSERT:
        return meltusk_record_insert(histograms, MELTUSK_HISTOGRAMS, BLOCK, used, SLICES(set),
                                     k->grower, k->weight, k->oil_yield, k->day);
    case DELETE:
        return meltusk_record_delete(histograms, MELTUSK_HISTOGRAMS, BLOCK, used, SLICES(set),
                                     k->grower, k->weight, k->oil_yield, k->day);
    default:
        return meltusk_record_move(histograms, MELTUSK_HISTOGRAMS, BLOCK, used, SLICES(set),
                                   k->grower, k->weight, k->oil_yield, k->day, k->other);
    }
}

static int reads_only(const call *k)
{
    return k->kind == FIND || k->kind == RANGE || k->kind == TERM;
}

/* Oil is kg times hundredths of a per cent, so 10,000 of it are a kg. */
static void print_totals(const meltusk_totals *t)
{
    printf(" deliveries %" PRIu64 ", %" PRIu64 " kg, oil %" PRIu64 ".%04" PRIu64 " kg;", t->records,
           t->weight, t->oil / 10000, t->oil % 10000);
}

static void print_counts(const meltusk_counts *n)
{
    printf(" rr %" PRIu64 " sr %" PRIu64 " rw %" PRIu64, n->rr, n->sr, n->rw);
}

static void print_answer(const call *k, const meltusk_answer *a)
{
    putchar(':');
    if (reads_only(k))
        print_totals(&a->totals);
    print_counts(&a->counts);
    print_refusal(a->refusal);
}

static void print_call(const call *k)
{
    static const char *const names[] = {"find", "range", "range", "insert", "delete", "move"};

    printf("  %s %" PRIu32, names[k->kind], k->grower);
    if (k->kind == RANGE || k->kind == TERM || k->kind == MOVE)
        printf(" to %" PRIu32, k->other);
    if (!reads_only(k))
        printf(" (%" PRIu32 " kg, %" PRIu32 ".%02" PRIu32 " %%)", k->weight, k->oil_yield / 100,
               k->oil_yield % 100);
    if (k->day != 0) {
        fputs(k->kind == TERM ? ", the term of " : " of ", stdout);
        print_date(k->day);
    }
}

static void print_growers(const column *c, uint32_t used)
{
    for (uint32_t i = 0; i < used; i++)
        printf(" %" PRIu32, c->growers[i]);
}

/* The used slots of a column: its lengths added up. */
static uint32_t used_slots(const column *c)
{
    uint32_t used = 0;

    for (uint32_t i = 0; i < c->directory[MELTUSK_COUNT]; i++)
        used += c->directory[MELTUSK_LENGTHS + i];
    return used;
}

static void print_partitions(const column *c)
{
    uint32_t start = 0;

    for (uint32_t i = 0; i < c->directory[MELTUSK_COUNT]; i++) {
        uint32_t length = c->directory[MELTUSK_LENGTHS + i];

        printf("  fence %" PRIu32 ":", c->directory[MELTUSK_FENCES + i]);
        for (uint32_t j = start; j < start + length; j++)
            printf(" %" PRIu32, c->growers[j]);
        puts(length == 0 ? " empty" : "");
        start += length;
    }
}

/* The totals as a plain list of deliveries has them, whatever the partitions. */
static meltusk_totals totals_on(const column *c, uint32_t lo, uint32_t hi, uint32_t first,
                                uint32_t last)
{
    meltusk_totals t = {0, 0, 0};
    uint32_t used = used_slots(c);

    for (uint32_t i = 0; i < used; i++) {
        if (lo <= c->growers[i] && c->growers[i] <= hi && first <= c->days[i] &&
            c->days[i] <= last) {
            t.records++;
            t.weight += c->weights[i];
            t.oil += (uint64_t)c->weights[i] * c->yields[i];
        }
    }
    return t;
}

static meltusk_totals totals_of(const column *c, uint32_t lo, uint32_t hi)
{
    return totals_on(c, lo, hi, 0, MELTUSK_MOST_DAY);
}

static int same_totals(const meltusk_totals *a, const meltusk_totals *b)
{
    return a->records == b->records && a->weight == b->weight && a->oil == b->oil;
}

/* Lays `used` slots with the ends; the slots stay where they are. */
static void lay(column *c, uint32_t used, const uint32_t *ends, size_t ends_count)
{
    meltusk_applied applied = meltusk_apply_layout(BLOCK, used, SLICES(c), ends, ends_count);

    printf("Laid, %" PRIu32 " partitions", applied.directory[MELTUSK_COUNT]);
    judge_refusal(applied.refusal, 0);
    memcpy(c->directory, applied.directory, sizeof c->directory);
    print_partitions(c);
}

/* Where a grower's deliveries would lie. */
static void look_up(const column *c, uint32_t grower, uint32_t start, uint32_t count)
{
    meltusk_partition_slice p =
        meltusk_partition(c->directory, MELTUSK_DIRECTORY, c->growers, SLOTS, grower);

    printf("The partition of %" PRIu32 ": %" PRIu32 " deliveries from slot %" PRIu32, grower,
           p.count, p.start);
    judge(p.refusal == 0 && p.start == start && p.count == count);
}

/* A marked example: a call, its counts, and the growers that it leaves. */
typedef struct {
    call call;
    uint64_t records;
    meltusk_counts counts;
    uint32_t growers[9];
} example;

#define MARKED_GROWERS 10, 20, 30, 40, 50, 60, 70, 80

static const example examples[] = {
    {{FIND, 30, 0, 0, 0, 0, 0}, 1, {1, 1, 0}, {MARKED_GROWERS}},
    {{FIND, 99, 0, 0, 0, 0, 0}, 0, {1, 1, 0}, {MARKED_GROWERS}},
    {{RANGE, 40, 50, 0, 0, 0, 0}, 2, {1, 3, 0}, {MARKED_GROWERS}},
    {{INSERT, 15, 0, 100, 2000, 0, 0}, 0, {3, 0, 3}, {10, 20, 30, 40, 15, 60, 70, 80, 50}},
    {{DELETE, 30, 0, 100, 2000, 0, 0}, 0, {3, 1, 3}, {10, 20, 40, 80, 50, 60, 70}},
    {{MOVE, 20, 70, 100, 2000, 0, 0}, 0, {3, 1, 3}, {10, 40, 30, 70, 50, 60, 70, 80}},
    {{MOVE, 70, 20, 100, 2000, 0, 0}, 0, {3, 1, 3}, {10, 20, 30, 40, 20, 60, 50, 80}},
    {{MOVE, 20, 25, 100, 2000, 0, 0}, 0, {2, 1, 2}, {10, 40, 30, 25, 50, 60, 70, 80}},
};

/* Each example begins with the column as laid. */
static void make_examples(void)
{
    static const uint32_t ends[] = {1, 3};
    static column laid;

    puts("The marked examples");
    for (uint32_t i = 0; i < 8; i++) {
        laid.growers[i] = 10 * (i + 1);
        laid.weights[i] = 100;
        laid.yields[i] = 2000;
    }
    lay(&laid, 8, ends, COUNT_OF(ends));
    for (size_t i = 0; i < COUNT_OF(examples); i++) {
        const example *e = &examples[i];
        column c = laid;
        meltusk_answer a = make(&c, &e->call);

        print_call(&e->call);
        print_answer(&e->call, &a);
        printf("; growers");
        print_growers(&c, used_slots(&c));
        judge(a.refusal == 0 && a.totals.records == e->records &&
              a.totals.weight == 100 * e->records && a.totals.oil == 200000 * e->records &&
              memcmp(&a.counts, &e->counts, sizeof a.counts) == 0 &&
              memcmp(c.growers, e->growers, sizeof e->growers) == 0);
    }
    look_up(&laid, 50, 4, 4);
}

/* The deliveries at the week's beginning, in the order of their growers. */
static const uint32_t first_set[][4] = {
    {101, 420, 2110, NOVEMBER(4)},  {101, 380, 2050, NOVEMBER(6)},
    {104, 510, 1980, NOVEMBER(6)},  {107, 295, 2240, NOVEMBER(11)},
    {112, 640, 1895, NOVEMBER(14)}, {112, 610, 1910, NOVEMBER(15)},
    {118, 330, 2075, NOVEMBER(16)}, {121, 455, 2160, NOVEMBER(18)},
    {126, 720, 1840, NOVEMBER(19)}, {131, 260, 2305, NOVEMBER(19)},
    {131, 275, 2290, NOVEMBER(20)}, {140, 500, 2000, NOVEMBER(22)},
};

/* What was called last week; 104 and 107 are asked for most. */
static const call last_week[] = {
    {FIND, 104, 0, 0, 0, 0, 0},
    {FIND, 104, 0, 0, 0, 0, 0},
    {FIND, 107, 0, 0, 0, 0, 0},
    {FIND, 104, 0, 0, 0, 0, 0},
    {FIND, 107, 0, 0, 0, 0, 0},
    {FIND, 104, 0, 0, 0, 0, 0},
    {FIND, 121, 0, 0, 0, 0, 0},
    {TERM, 118, 140, 0, 0, NOVEMBER(16), 0},
    {RANGE, 140, 118, 0, 0, 0, 7},
    {INSERT, 140, 0, 480, 2020, NOVEMBER(25), 0},
    {INSERT, 133, 0, 350, 2130, NOVEMBER(25), 0},
    {DELETE, 112, 0, 610, 1910, NOVEMBER(15), 0},
    {DELETE, 112, 0, 611, 1910, NOVEMBER(15), 13},
    {MOVE, 121, 126, 455, 2160, NOVEMBER(18), 0},
    {MOVE, 131, 118, 260, 2305, NOVEMBER(19), 0},
};

/* This week's; the last moves leave the partition of 104 and 107 empty. */
static const call this_week[] = {
    {INSERT, 119, 0, 365, 2145, NOVEMBER(26), 0},
    {INSERT, 150, 0, 410, 1975, NOVEMBER(27), 0},
    {INSERT, 102, 0, 290, 2080, NOVEMBER(27), 12},
    {DELETE, 112, 0, 601, 1910, NOVEMBER(15), 13},
    {DELETE, 112, 0, 610, 1910, NOVEMBER(16), 13},
    {DELETE, 112, 0, 610, 1910, NOVEMBER(15), 0},
    {INSERT, 102, 0, 290, 2080, NOVEMBER(27), 0},
    {INSERT, 126, 0, 100001, 1900, NOVEMBER(28), 8},
    {INSERT, 126, 0, 700, 1900, MELTUSK_MOST_DAY + 1, 19},
    {FIND, 112, 0, 0, 0, 0, 0},
    {RANGE, 101, 107, 0, 0, 0, 0},
    {TERM, 101, 107, 0, 0, NOVEMBER(1), 0},
    {MOVE, 102, 101, 290, 2080, NOVEMBER(27), 0},
    {MOVE, 104, 131, 510, 1980, NOVEMBER(6), 0},
    {MOVE, 107, 140, 295, 2240, NOVEMBER(11), 0},
    {FIND, 104, 0, 0, 0, 0, 0},
    {RANGE, 131, 140, 0, 0, 0, 0},
    {RANGE, 0, UINT32_MAX, 0, 0, 0, 0},
};

/* What was recorded: the sum of each histogram. */
static void print_histograms(const uint32_t *histograms)
{
    static const char *const names[] = {"pq",  "rs",  "re",  "sc",  "de",
                                        "in",  "udf", "utf", "udb", "utb"};
    size_t length = MELTUSK_HISTOGRAMS / COUNT_OF(names);

    printf(" ");
    for (size_t i = 0; i < COUNT_OF(names); i++) {
        uint64_t sum = 0;

        for (size_t j = 0; j < length; j++)
            sum += histograms[i * length + j];
        printf(" %s %" PRIu64, names[i], sum);
    }
    puts("");
}

/* Records calls from all zeros. A refused call leaves the counts as they were. */
static void record_week(uint32_t *histograms, uint32_t used, const column *set, const call *calls,
                        size_t calls_count)
{
    memset(histograms, 0, MELTUSK_HISTOGRAMS * sizeof histograms[0]);
    printf("Recorded, %zu calls\n", calls_count);
    for (size_t i = 0; i < calls_count; i++) {
        const call *k = &calls[i];
        uint32_t refusal = record(histograms, used, set, k);
        /* A full column and a missing delivery are no matter of the recorder's. */
        uint32_t expected = k->refusal == 12 || k->refusal == 13 ? 0 : k->refusal;

        if (refusal != 0 || refusal != expected) {
            print_call(k);
            judge_refusal(refusal, expected);
        }
    }
    print_histograms(histograms);
}

/* Plans, and says what the whole set in one partition would cost. */
static size_t plan(const uint32_t *histograms, uint32_t used, const column *set,
                   uint32_t ends[MELTUSK_PARTITIONS])
{
    uint32_t last = (used + BLOCK - 1) / BLOCK - 1;
    meltusk_costed one = meltusk_cost(RR, SR, RW, BLOCK, used, SLICES(set), &last, 1, histograms,
                                      MELTUSK_HISTOGRAMS);
    meltusk_planned planned =
        meltusk_plan(RR, SR, RW, READ_LIMIT, INSERT_LIMIT, BLOCK, used, SLICES(set), histograms,
                     MELTUSK_HISTOGRAMS, ends, MELTUSK_PARTITIONS);

    printf("One partition would cost %" PRId64, one.cost);
    judge_refusal(one.refusal, 0);
    printf("The plan costs %" PRId64 ", end blocks", planned.cost);
    for (uint32_t i = 0; i < planned.count; i++)
        printf(" %" PRIu32, ends[i]);
    judge_refusal(planned.refusal, 0);
    printf("Saved by the plan: %" PRId64, one.cost - planned.cost);
    judge(planned.cost <= one.cost);
    return planned.count;
}

/* Adds a call's counts, of a refused one's too: its scan was paid for. */
static void tally_counts(meltusk_tally *t, const meltusk_counts *n)
{
    uint32_t refusal = meltusk_tally_add(&t->rr, &t->sr, &t->rw, n->rr, n->sr, n->rw);

    if (refusal != 0) {
        printf("  the tally");
        judge_refusal(refusal, 0);
    }
}

static void print_tally(const char *what, const meltusk_tally *t)
{
    printf("%s: rr %" PRIu64 " sr %" PRIu64 " rw %" PRIu64 ", priced %" PRIu64, what, t->rr, t->sr,
           t->rw, RR * t->rr + SR * t->sr + RW * t->rw);
}

/* The plan's cost is what the recorded calls report, each made alone. */
static void make_alone(const column *laid, const uint32_t *histograms, uint32_t used,
                       const uint32_t *ends, size_t ends_count)
{
    meltusk_costed costed = meltusk_cost(RR, SR, RW, BLOCK, used, SLICES(laid), ends, ends_count,
                                         histograms, MELTUSK_HISTOGRAMS);
    meltusk_tally t = {0, 0, 0};
    int good = costed.refusal == 0;

    for (size_t i = 0; i < COUNT_OF(last_week); i++) {
        column c = *laid;
        meltusk_answer a = make(&c, &last_week[i]);

        tally_counts(&t, &a.counts);
        good = good && a.refusal == last_week[i].refusal;
    }
    print_tally("Last week's calls, each made alone", &t);
    judge(good && (int64_t)(RR * t.rr + SR * t.sr + RW * t.rw) == costed.cost);
}

/* Whether an answer is that of a plain list of deliveries; a refusal writes nothing. */
static int is_expected(const call *k, const meltusk_answer *a, const column *before,
                       const column *after)
{
    meltusk_totals none = {0, 0, 0};
    meltusk_term_answer term = meltusk_term_of(k->day);
    uint32_t first = k->kind == TERM ? term.first : 0;
    uint32_t last = k->kind == TERM ? term.last : MELTUSK_MOST_DAY;
    uint32_t hi = k->kind == FIND ? k->grower : k->other;
    meltusk_totals totals = totals_on(before, k->grower, hi, first, last);
    int is_read = reads_only(k) && a->refusal == 0;
    int stays = reads_only(k) || a->refusal != 0;

    return a->refusal == k->refusal && same_totals(&a->totals, is_read ? &totals : &none) &&
           (!stays || memcmp(before, after, sizeof *before) == 0);
}

/* One call after the other, each on what the one before it left. */
static void make_week(column *c, meltusk_tally *t)
{
    puts("This week's calls");
    for (size_t i = 0; i < COUNT_OF(this_week); i++) {
        const call *k = &this_week[i];
        column before = *c;
        meltusk_answer a = make(c, k);

        tally_counts(t, &a.counts);
        print_call(k);
        print_answer(k, &a);
        judge(is_expected(k, &a, &before, c));
    }
    print_tally("This week's tally", t);
    puts("");
    print_partitions(c);
}

/* A grower's line on the payment screen: his totals by a find, and the counts of
 * the step to him. A plain list has the same totals from `from` up to him. */
static void show_grower(const column *c, uint32_t from, const meltusk_grower_answer *a,
                        meltusk_tally *t)
{
    meltusk_answer f = meltusk_find(COLUMN(c), a->grower);
    meltusk_totals totals = totals_of(c, from, a->grower);

    tally_counts(t, &f.counts);
    printf("  next from %" PRIu32 ": grower %" PRIu32 ",", from, a->grower);
    print_totals(&f.totals);
    print_counts(&a->counts);
    judge(a->records == totals.records && same_totals(&f.totals, &totals));
}

/* Steps up through all growers and back down. */
static void step_through(const column *c, meltusk_tally *t)
{
    uint32_t shown[SLOTS];
    uint32_t count = 0;
    uint64_t deliveries = 0;
    meltusk_grower_answer a;
    int good = 1;

    puts("The payment screen");
    for (uint32_t from = 0; count < SLOTS; from = a.grower + 1) {
        a = meltusk_next_grower(COLUMN(c), from);
        tally_counts(t, &a.counts);
        if (a.records == 0)
            break;
        show_grower(c, from, &a, t);
        deliveries += a.records;
        shown[count++] = a.grower;
        if (a.grower == UINT32_MAX)
            break;
    }
    printf("Shown, %" PRIu64 " deliveries of %" PRIu32 " growers", deliveries, count);
    judge(deliveries == used_slots(c));

    printf("And back:");
    for (uint32_t from = UINT32_MAX; good; from = a.grower - 1) {
        a = meltusk_previous_grower(COLUMN(c), from);
        tally_counts(t, &a.counts);
        if (a.records == 0)
            break;
        printf(" %" PRIu32, a.grower);
        good = count > 0 && a.grower == shown[--count];
        if (a.grower == 0)
            break;
    }
    judge(good && count == 0);
    print_tally("This week's tally, with the screen's calls", t);
    puts("");
}

/* Whether a column is the one that was read: its directory and its used slots. */
static int same_column(const column *a, const column *b)
{
    size_t size = used_slots(a) * sizeof a->growers[0];

    return memcmp(a->directory, b->directory, sizeof a->directory) == 0 &&
           memcmp(a->growers, b->growers, size) == 0 &&
           memcmp(a->weights, b->weights, size) == 0 &&
           memcmp(a->yields, b->yields, size) == 0 && memcmp(a->days, b->days, size) == 0;
}

/* Saves the column and reads it into other slices; a damaged text is refused. A
 * snapshot holds no days: the host keeps them elsewhere and puts them back. */
static void save_and_read(const column *c)
{
    static uint8_t text[MELTUSK_SNAPSHOT_BYTES(SLOTS, MELTUSK_PARTITIONS)];
    static column other;
    column undated = *c;
    meltusk_written w = meltusk_write_snapshot(COLUMN(c), text, sizeof text);
    meltusk_applied r;

    printf("Saved with its days");
    judge_refusal(w.refusal, MELTUSK_REFUSED_DAYS);
    memset(undated.days, 0, sizeof undated.days);
    w = meltusk_write_snapshot(COLUMN(&undated), text, sizeof text);
    printf("Saved without them, %" PRIu64 " bytes", w.bytes);
    judge_refusal(w.refusal, 0);
    if (w.refusal != 0)
        return;
    fwrite(text, 1, w.bytes, stdout);

    r = meltusk_read_snapshot(text, w.bytes, SLICES(&other));
    memcpy(other.directory, r.directory, sizeof other.directory);
    printf("Read back, %s column", same_column(&undated, &other) ? "the same" : "another");
    judge(r.refusal == 0 && same_column(&undated, &other));
    memcpy(other.days, c->days, sizeof other.days);
    printf("Its days put back");
    judge(same_column(c, &other));

    text[w.bytes - 2] = '\t';
    r = meltusk_read_snapshot(text, w.bytes, SLICES(&other));
    printf("Read with a tab for the last digit");
    judge_refusal(r.refusal, 14);
}

/* The sheet of the days first to last as a plain list of deliveries has it;
 * answers its bytes. */
static size_t plain_sheet(const column *c, uint32_t first, uint32_t last_day, char *text,
                          size_t size)
{
    meltusk_totals t = totals_on(c, 0, UINT32_MAX, first, last_day);
    uint32_t used = used_slots(c);
    int64_t last = -1;
    size_t at = 0;

    for (;;) {
        int64_t next = INT64_MAX;
        meltusk_totals of_next;

        for (uint32_t i = 0; i < used; i++) {
            if (c->growers[i] > last && c->growers[i] < next)
                next = c->growers[i];
        }
        if (next == INT64_MAX)
            break;
        of_next = totals_on(c, (uint32_t)next, (uint32_t)next, first, last_day);
        last = next;
        if (of_next.records == 0)
            continue;
        at += (size_t)snprintf(text + at, size - at,
                               "%20" PRId64 "%20" PRIu64 "%20" PRIu64 "%20" PRIu64 "\n", next,
                               of_next.records, of_next.weight, of_next.oil);
    }
    at += (size_t)snprintf(text + at, size - at, "%20" PRIu64 "%20" PRIu64 "%20" PRIu64 "\n",
                           t.records, t.weight, t.oil);
    return at;
}

/* Writes the settlement sheet, and the used slots in the order of their growers
 * to `order`. A text that is a byte too short is refused. */
static void settle(const column *c, uint32_t order[SLOTS])
{
    static uint8_t text[MELTUSK_SHEET_BYTES(SLOTS)];
    static uint32_t work[SLOTS];
    char plain[sizeof text + 1];
    size_t size = plain_sheet(c, 0, MELTUSK_MOST_DAY, plain, sizeof plain);
    meltusk_written w =
        meltusk_write_sheet(COLUMN(c), text, sizeof text, order, SLOTS, work, SLOTS);

    printf("The settlement sheet, %" PRIu64 " bytes", w.bytes);
    judge(w.refusal == 0 && w.bytes == size && memcmp(text, plain, size) == 0);
    fwrite(text, 1, w.bytes, stdout);
    printf("By grower, the slots");
    for (uint32_t i = 0; i < used_slots(c); i++)
        printf(" %" PRIu32, order[i]);
    puts("");

    w = meltusk_write_sheet(COLUMN(c), text, size - 1, order, SLOTS, work, SLOTS);
    printf("The sheet in a byte less");
    judge_refusal(w.refusal, 15);
}

/* The sheet of the term that holds a date, from that term's deliveries alone. */
static void settle_term(const column *c, uint32_t year, uint32_t month, uint32_t day)
{
    static uint8_t text[MELTUSK_SHEET_BYTES(SLOTS)];
    static uint32_t order[SLOTS], work[SLOTS];
    char plain[sizeof text + 1];
    meltusk_day_answer of_date = meltusk_day_of(year, month, day);
    meltusk_term_answer term = meltusk_term_of(of_date.day);
    size_t size = plain_sheet(c, term.first, term.last, plain, sizeof plain);
    meltusk_written w = meltusk_write_term_sheet(COLUMN(c), of_date.day, text, sizeof text, order,
                                                 SLOTS, work, SLOTS);

    printf("The term from ");
    print_date(term.first);
    printf(" to ");
    print_date(term.last);
    printf(", %" PRIu64 " bytes", w.bytes);
    judge(of_date.refusal == 0 && term.refusal == 0 && w.refusal == 0 && w.bytes == size &&
          memcmp(text, plain, size) == 0);
    fwrite(text, 1, w.bytes, stdout);
}

/* Growers are settled twice a month. */
static void settle_terms(const column *c)
{
    meltusk_day_answer leap = meltusk_day_of(2024, 2, 29);
    meltusk_day_answer none = meltusk_day_of(2023, 2, 29);

    settle_term(c, 2024, 11, 1);
    settle_term(c, 2024, 11, 30);
    settle_term(c, 2024, 12, 1);
    printf("29 February 2024 is day %" PRIu32, leap.day);
    judge(leap.refusal == 0 && leap.day == 8825);
    printf("29 February 2023");
    judge_refusal(none.refusal, MELTUSK_REFUSED_DAYS);
}

/* Puts the deliveries in the order of a sheet: a plan is made of a set whose
 * growers never fall. */
static void put_in_order(column *c, uint32_t used, const uint32_t *order)
{
    column before = *c;

    for (uint32_t i = 0; i < used; i++) {
        c->growers[i] = before.growers[order[i]];
        c->weights[i] = before.weights[order[i]];
        c->yields[i] = before.yields[order[i]];
        c->days[i] = before.days[order[i]];
    }
}

/* The set at the week's beginning; answers its used slots. */
static uint32_t fill(column *c)
{
    for (size_t i = 0; i < COUNT_OF(first_set); i++) {
        c->growers[i] = first_set[i][0];
        c->weights[i] = first_set[i][1];
        c->yields[i] = first_set[i][2];
        c->days[i] = first_set[i][3];
    }
    return COUNT_OF(first_set);
}

/* A file as a weighbridge may write it: columns in another order, others that are
 * skipped, quoted fields, either line end, and none at the end. */
static const char weighbridge[] = "ticket,yield,grower,name,weight\r\n"
                                  "17,2110,101,\"Ruiz, Ana\",420\n"
                                  "18,1980,0104,\"\"\"La Loma\"\", S.C.A.\",510\r\n"
                                  "19,2240,107,,\"295\"";

static const char exported[] = "grower,weight,yield\r\n"
                               "101,420,2110\r\n"
                               "104,510,1980\r\n"
                               "107,295,2240\r\n";

/* Imports the file and exports its deliveries; a damaged one is refused. */
static void import_and_export(void)
{
    static column c;
    static uint8_t text[MELTUSK_CSV_BYTES(SLOTS)];
    const uint8_t *file = (const uint8_t *)weighbridge;
    size_t size = sizeof weighbridge - 1;
    meltusk_imported i = meltusk_import_csv(file, size, SLICES(&c));
    meltusk_written w;

    printf("Imported, %" PRIu64 " deliveries", i.rows);
    judge_refusal(i.refusal, 0);
    for (uint64_t j = 0; j < i.rows; j++) {
        /* A file has no days; this one is of 28 November. */
        c.days[j] = NOVEMBER(28);
        printf("  grower %" PRIu32 ", %" PRIu32 " kg, yield %" PRIu32 ", ", c.growers[j],
               c.weights[j], c.yields[j]);
        print_date(c.days[j]);
        puts("");
    }
    w = meltusk_export_csv((uint32_t)i.rows, SLICES(&c), text, sizeof text);
    printf("Exported, %" PRIu64 " bytes", w.bytes);
    judge(w.refusal == 0 && w.bytes == sizeof exported - 1 && memcmp(text, exported, w.bytes) == 0);

    i = meltusk_import_csv(file, size - 1, SLICES(&c));
    printf("Imported without its last quote");
    judge_refusal(i.refusal, 18);
}

int main(void)
{
    static column mill;
    static uint32_t histograms[MELTUSK_HISTOGRAMS];
    static uint32_t ends[MELTUSK_PARTITIONS];
    static uint32_t order[SLOTS];
    meltusk_tally tally = {0, 0, 0};
    uint32_t used = fill(&mill);
    size_t ends_count;

    make_examples();

    puts("\nA week at the mill");
    record_week(histograms, used, &mill, last_week, COUNT_OF(last_week));
    ends_count = plan(histograms, used, &mill, ends);
    lay(&mill, used, ends, ends_count);
    make_alone(&mill, histograms, used, ends, ends_count);
    make_week(&mill, &tally);
    look_up(&mill, 104, 3, 0);
    step_through(&mill, &tally);
    settle(&mill, order);
    settle_terms(&mill);
    save_and_read(&mill);

    puts("\nThe next week, taken to be like this one");
    used = used_slots(&mill);
    put_in_order(&mill, used, order);
    record_week(histograms, used, &mill, this_week, COUNT_OF(this_week));
    ends_count = plan(histograms, used, &mill, ends);
    lay(&mill, used, ends, ends_count);

    puts("\nA weighbridge file");
    import_and_export();

    printf("\n%d wrong\n", wrong);
    return wrong != 0;
}
