/*
 * A lesson on a small column: every permitted layout with its cost, and which of
 * them the planner answers. Four blocks of two deliveries; five finds of 30 and one
 * insert of 15 are recorded. First all layouts are permitted, then at most two
 * partitions, then none.
 * Prints the listings, and exits nonzero if an answer is not the expected one.
 *
 *   cc -std=c11 -Wall -Wextra -Werror -Iinclude examples/lesson.c \
 *      -Lcrates/c_api/out -lc_api -o lesson
 */
#include "meltusk.h"

#include <inttypes.h>
#include <stdio.h>
#include <stdlib.h>
#include <string.h>

#define USED 8
#define BLOCK 2
#define BLOCKS 4
/* Each block but the last may be an end or not. */
#define LAYOUTS (1 << (BLOCKS - 1))

/* The factory prices. */
#define PRICES 3, 1, 2

/* The columns of a line: the count of partitions and each end, and the cost. */
#define NARROW 11
#define WIDE 20

/* The set's arguments. */
#define SET BLOCK, USED, growers, USED, weights, USED, yields, USED, days, USED

static const uint32_t growers[USED] = {10, 20, 30, 40, 50, 60, 70, 80};
static const uint32_t weights[USED] = {100, 100, 100, 100, 100, 100, 100, 100};
static const uint32_t yields[USED] = {2000, 2000, 2000, 2000, 2000, 2000, 2000, 2000};
static const uint32_t days[USED] = {0, 0, 0, 0, 0, 0, 0, 0};

/* A layout as its line has it. */
typedef struct {
    int64_t cost;
    uint32_t count;
    uint32_t ends[BLOCKS];
} layout;

/* Ends the lesson at an answer that is not the expected one. */
static void require(int good, const char *what, uint32_t refusal)
{
    if (!good) {
        printf("WRONG: %s, refusal %" PRIu32 "\n", what, refusal);
        exit(1);
    }
}

/* The number that stands in so many columns. */
static int64_t number(const uint8_t *text, size_t columns)
{
    char field[WIDE + 1] = "";

    memcpy(field, text, columns);
    return strtoll(field, NULL, 10);
}

/* Reads a line; answers the bytes that it has. */
static size_t read_line(const uint8_t *line, layout *l)
{
    l->count = (uint32_t)number(line, NARROW);
    l->cost = number(line + NARROW, WIDE);
    require(l->count <= BLOCKS, "a count of partitions", 0);
    for (uint32_t i = 0; i < l->count; i++)
        l->ends[i] = (uint32_t)number(line + NARROW + WIDE + NARROW * i, NARROW);
    return NARROW + WIDE + NARROW * l->count + 1;
}

/* Says which lines the planner chooses from at each step, and its answer. */
static void explain(const layout *lines, uint32_t count, const layout *planned)
{
    int64_t least = lines[0].cost;
    uint32_t fewest = BLOCKS;
    uint32_t first = count;

    for (uint32_t i = 0; i < count; i++) {
        if (lines[i].cost < least)
            least = lines[i].cost;
    }
    printf("Lines of the least cost, %" PRId64 ":", least);
    for (uint32_t i = 0; i < count; i++) {
        if (lines[i].cost != least)
            continue;
        printf(" %" PRIu32, i + 1);
        if (lines[i].count < fewest)
            fewest = lines[i].count;
    }
    printf("\nOf these, of the fewest partitions, %" PRIu32 ":", fewest);
    for (uint32_t i = 0; i < count; i++) {
        if (lines[i].cost != least || lines[i].count != fewest)
            continue;
        printf(" %" PRIu32, i + 1);
        if (first == count)
            first = i;
    }
    printf("\nOf these the first has the smaller end at the first difference: %" PRIu32, first + 1);
    printf("\nThe planner answers cost %" PRId64 ", end blocks", planned->cost);
    for (uint32_t i = 0; i < planned->count; i++)
        printf(" %" PRIu32, planned->ends[i]);
    puts("");
    require(lines[first].cost == planned->cost && lines[first].count == planned->count &&
                memcmp(lines[first].ends, planned->ends, sizeof planned->ends) == 0,
            "the plan", 0);
}

/* Lists and plans under these limits. `expected` is how many layouts they permit. */
static void teach(const uint32_t *histograms, uint32_t read, uint32_t insert, uint32_t expected)
{
    static uint8_t text[MELTUSK_LISTING_BYTES(BLOCKS)];
    layout lines[LAYOUTS] = {0};
    layout plan = {0};
    size_t at = 0;
    meltusk_listed listed = meltusk_list_layouts(PRICES, read, insert, SET, histograms,
                                                 MELTUSK_HISTOGRAMS, text, sizeof text);
    meltusk_planned planned = meltusk_plan(PRICES, read, insert, SET, histograms,
                                           MELTUSK_HISTOGRAMS, plan.ends, BLOCKS);

    printf("Read limit %" PRIu32 ", insert limit %" PRIu32 ": %" PRIu32 " layouts\n", read, insert,
           listed.layouts);
    require(listed.refusal == (expected == 0 ? 11 : 0), "the listing", listed.refusal);
    require(planned.refusal == listed.refusal, "the plan", planned.refusal);
    require(listed.layouts == expected, "the count of layouts", 0);
    if (expected == 0) {
        puts("Listing and planner are refused by 11, no layout is permitted");
        return;
    }
    fwrite(text, 1, listed.bytes, stdout);
    for (uint32_t i = 0; i < listed.layouts; i++)
        at += read_line(text + at, &lines[i]);
    require(at == listed.bytes, "the lines", 0);
    require(expected < LAYOUTS || at == sizeof text, "the bytes of all layouts", 0);
    plan.cost = planned.cost;
    plan.count = planned.count;
    explain(lines, listed.layouts, &plan);
}

int main(void)
{
    static uint32_t histograms[MELTUSK_HISTOGRAMS];
    uint32_t refusal = 0;

    for (int i = 0; i < 5 && refusal == 0; i++)
        refusal = meltusk_record_find(histograms, MELTUSK_HISTOGRAMS, SET, 30);
    require(refusal == 0, "a find", refusal);
    refusal = meltusk_record_insert(histograms, MELTUSK_HISTOGRAMS, SET, 15, 100, 2000, 0);
    require(refusal == 0, "the insert", refusal);

    teach(histograms, 100, 100, LAYOUTS);
    puts("");
    teach(histograms, 100, 15, 4);
    puts("");
    teach(histograms, 3, 20, 0);
    return 0;
}
