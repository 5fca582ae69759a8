/*
 * Meltusk: the delivery column and its planner, for a C host on x86-64. Link
 * with the archive libc_api.a, which needs nothing but the C library.
 *
 * CALLING
 *
 * Every call takes numbers and slices. A slice is a pointer and a count of
 * elements; a null pointer with count 0 is allowed. Nothing is allocated and
 * nothing is kept between calls; the planner takes some 90 kB of stack, a
 * settlement sheet some 210 kB, every other call less than 6 kB. A call reads
 * and writes only inside the slices that it is lent, and ends on every input.
 *
 * This is version 2: since version 1 every call that is lent the slots is lent
 * a fourth slice of them, the days, and a delivery has a day. A host that keeps
 * no days lends a slice of zeros and gives day 0 with every delivery.
 *
 * What no call can check: a slice's memory must be valid, aligned for its
 * elements, initialised and of the stated count for the whole call, and A
 * SLICE THAT A CALL WRITES MUST NOT OVERLAP ANOTHER OF ITS SLICES. Slices that
 * a call only reads, those that are const here, may overlap each other. Two
 * calls may run at the same time if neither writes to a slice of the other.
 *
 * What a host can do for speed: give the planner prices that were measured on
 * the machine (below); take a block length that is no power of two; and let the
 * four slices begin at different places of a page, some cache lines apart. With
 * 64 partitions of 4,096 slots and slices that begin alike an insert took five
 * times as long as with slices apart, and ten times as long as at 4,032 slots.
 *
 * A host's round: record a week's calls against an unpartitioned set; plan a
 * layout; apply it; then find, range, insert, delete and move on the column,
 * step from grower to grower, write its settlement sheet or a term's, and write
 * and read snapshots of it. To plan again, put the used slots of all slices in
 * the order of their growers (the sheet has it): they are an unpartitioned set
 * then, with a longer block length if they have become more than 64 blocks.
 * Deliveries also come from and go to weighbridge files. examples/host.c does
 * all this. To teach on a small set, list every layout that a plan chooses
 * from: examples/lesson.c.
 *
 * REFUSALS
 *
 * A call first puts its checks, in the order in which they are listed at the
 * call. The number of the first that fails is its refusal; 0 means accepted. A
 * refused call writes to no slice, and its answer is 0 but for the refusal
 * number (13 reports the counts of its scan). MELTUSK_REFUSED_.. names each.
 * Where a check is of several records, all of them pass it before the next is
 * put: a bad weight anywhere is 8, whatever the days.
 *
 *    1  each price is 1 to 1,000 and each limit at most 1,000,000
 *    2  the block length is 1 to 4,096
 *    3  the four slices share one length C, 1 to 262,144
 *    4  the used slots of an unpartitioned set are 1 to the smaller of C and
 *       64 block lengths; the slots to be exported are 0 to C
 *    5  its growers never fall
 *    6  a layout or directory has its shape; and, of a column to be written as
 *       a snapshot or a sheet, every record is in its grower's partition
 *    7  lo is at most hi
 *    8  weights are at most 100,000 and yields at most 10,000
 *    9  the histogram slice has 640 counts, none above 1,000,000
 *   10  each count to be raised stays within 1,000,000; each number of a tally
 *       within 10^12
 *   11  some layout is permitted
 *   12  there is a free slot; for a text to be read or imported, there are as
 *       many slots as it has deliveries
 *   13  the delivery is in its partition
 *   14  the text is a snapshot
 *   15  each output slice is long enough
 *   16  the header line has each needed name, and no broken quote
 *   17  it has no needed name twice
 *   18  each row has as many fields as the header line, no broken quote, and its
 *       three numbers in range
 *   19  days are at most 36,524; a date exists and lies in 2000 to 2099; of a
 *       column to be written as a snapshot, every day is 0; put just after 8
 *   23  a set to be listed has at most 12 blocks; put ahead of 11
 *
 * TERMS
 *
 * The slots: four slices of one length C hold the deliveries, slot by slot:
 * growers (any number), weights (kg), yields (hundredths of a per cent) and
 * days. The first slots are used; the others are free, and what they hold is
 * never asked.
 *
 * The day: the days since 1 January 2000, which is 0, by the Gregorian
 * calendar; 29 February 2024 is 8,825 and 31 December 2099 is 36,524,
 * MELTUSK_MOST_DAY.
 *
 * The term: days 1 to 15 of a month, or 16 to its last. Growers are settled by
 * term.
 *
 * The unpartitioned set: used slots whose growers never fall. Block i is the
 * block length's slots from i times the block length on; the last may be short,
 * and there are at most 64. The block of a grower is the first whose last
 * grower is at least that grower, or else the last block.
 *
 * The layout: the end block (the last block) of each partition. Ends rise
 * strictly, the last is the last block of the set, and none parts equal
 * growers.
 *
 * The column: the slots with a directory of 130 numbers. Block length,
 * partition count K (1 to 64), 64 partition lengths, 64 fences; those past the
 * first K are 0. Partitions lie one after the other from slot 0, records in any
 * order inside each. A fence is its partition's last grower when the layout was
 * applied, and stays. A grower's partition is the first whose fence is at least
 * the grower, or else the last. Fences rise strictly, and the lengths total at
 * most C. Anything else is refused by 6, a slice of another length too, and a
 * block length out of range by 2.
 *
 * The counts: random reads (rr), sequential reads (sr) and random writes (rw)
 * of blocks. A scanned partition of n records is n over the block length,
 * rounded up, blocks; an empty one has none. Of all blocks that a call scans
 * the first is 1 rr, wherever it is, each other 1 sr; a call that scans only
 * empty partitions reports no reads.
 *
 * The histograms: 640 counts, 64 (one a block) for each of pq, rs, re, sc, de,
 * in, udf, utf, udb and utb, in that order. A list of calls is recorded from
 * all zeros.
 *
 * The cost: of each block's counts, times a price each. RR, SR and RW are the
 * prices of a random read, a sequential read and a random write; b and f are
 * the blocks before and after the block in its partition, t the partitions from
 * its own to the last. The factory card is 3, 1 and 2 and no machine's; prices
 * measured on the machine (`bench calibrate`) planned layouts that ran our drawn
 * weeks up to seven times as fast.
 *
 *   pq   RR + SR * (b + f)              rs  RR + SR * b
 *   re   SR * (1 + f)                   sc  SR
 *   in   (RR + RW) * (1 + t)
 *   de   pq's + RW + (RR + RW) * t
 *   udf  pq's + RR + 2 * RW + (RR + RW) * t     utf  - (RR + RW) * t
 *   udb  pq's + RR + 2 * RW - (RR + RW) * t     utb  + (RR + RW) * t
 *
 * So the cost of recorded calls is what they report, priced, each made alone on
 * the column just laid, if that has a free slot. It may be negative where the
 * histograms are of no list of calls.
 *
 * The snapshot: a column as a text, without a byte 0 at its end. Every number
 * is decimal, right-justified in 11 columns with blanks, without leading zeros,
 * zero as 0; LF ends a line. Line 1 has the block length, the deliveries M and
 * the partitions K; K lines have a length and a fence; M lines have a grower, a
 * weight and a yield, partition by partition. That is
 * MELTUSK_SNAPSHOT_BYTES(M, K) bytes and no other text of the same column: what
 * is read and written again is the same to the byte. It has no days: a column
 * is written only if every day of its records is 0 (19), and is read with day
 * 0.
 *
 * The listing: a line a permitted layout, each layout once, with its count of
 * partitions K, its cost and its K end blocks; of two layouts the one with the
 * smaller end at the first difference comes first. Every number is decimal,
 * right-justified with blanks, without leading zeros, zero as 0: the cost in 20
 * columns, a minus just before its first digit if it is negative, every other
 * number in 11. LF ends a line, of 32 + 11 * K bytes then, and no byte 0 the text.
 *
 * The settlement sheet: a line a grower who has a record, growers rising, with
 * the grower, his records, their kg and their oil; then a line with the
 * records, kg and oil of all, which are the sums of the lines above it. Oil is
 * the sum of weight times yield, of which 10,000 are 1 kg. Every number is
 * decimal, right-justified in 20 columns with blanks, zero as 0; LF ends a
 * line, and no byte 0 the text. Of n growers that is MELTUSK_SHEET_BYTES(n)
 * bytes; of a column without records one line of zeros. The sheet of a term is
 * of the records on its days alone.
 *
 * The weighbridge file: deliveries as comma-separated text by RFC 4180, a
 * header line and a row a delivery, without a byte 0 at its end. CRLF or LF
 * ends a line; the last end may be missing. A field may stand in quotes;
 * commas, line ends and doubled quotes, each read as one quote, are then part
 * of it. A quote is broken if it is never closed, if anything but a comma, a
 * line end or the end of the text follows the closing one, or if it stands in a
 * field that does not begin with one. The columns grower, weight and yield are
 * found by these names, to the byte and in any order; others are skipped. Their
 * numbers are plain digits with any leading zeros: a grower is at most
 * 4,294,967,295, a weight 100,000, a yield 10,000. A CR that no LF follows, and
 * any other byte, is part of its field; an empty line is a row of one empty
 * field. A file has no days.
 */
#ifndef MELTUSK_H
#define MELTUSK_H

#include <stddef.h>
#include <stdint.h>

#ifdef __cplusplus
extern "C" {
#endif

/* The version: a host made for another major one does not fit. */
#define MELTUSK_VERSION_MAJOR 2
#define MELTUSK_VERSION_MINOR 0
/* The numbers of a directory, the counts of the histograms, the most partitions. */
#define MELTUSK_DIRECTORY 130
#define MELTUSK_HISTOGRAMS 640
#define MELTUSK_PARTITIONS 64
/* The last day: 31 December 2099. */
#define MELTUSK_MOST_DAY 36524
/* Where a directory's numbers stand: block length, partition count, lengths, fences. */
#define MELTUSK_BLOCK 0
#define MELTUSK_COUNT 1
#define MELTUSK_LENGTHS 2
#define MELTUSK_FENCES (MELTUSK_LENGTHS + MELTUSK_PARTITIONS)
/* Bytes that are enough for a listing of a set of n blocks, n 1 to 12: those of
 * all its layouts. */
#define MELTUSK_LISTING_BYTES(n) (((size_t)1 << (n)) * (75 + 11 * (size_t)(n)) / 4)
/* The bytes of a snapshot of m deliveries in k partitions. */
#define MELTUSK_SNAPSHOT_BYTES(m, k) (34 + 23 * (size_t)(k) + 34 * (size_t)(m))
/* The bytes of a sheet of n growers; with n the deliveries they are always enough. */
#define MELTUSK_SHEET_BYTES(n) (61 + 81 * (size_t)(n))
/* Bytes that are enough for a weighbridge file of m deliveries. */
#define MELTUSK_CSV_BYTES(m) (21 + 25 * (size_t)(m))

/* The refusals, by what has failed. */
enum {
    MELTUSK_ACCEPTED = 0,
    MELTUSK_REFUSED_PRICES = 1,
    MELTUSK_REFUSED_BLOCK_LENGTH = 2,
    MELTUSK_REFUSED_SLICES = 3,
    MELTUSK_REFUSED_USED_SLOTS = 4,
    MELTUSK_REFUSED_ORDER = 5,
    MELTUSK_REFUSED_SHAPE = 6,
    MELTUSK_REFUSED_RANGE = 7,
    MELTUSK_REFUSED_VALUES = 8,
    MELTUSK_REFUSED_HISTOGRAMS = 9,
    MELTUSK_REFUSED_OVERFLOW = 10,
    MELTUSK_REFUSED_NO_LAYOUT = 11,
    MELTUSK_REFUSED_FULL = 12,
    MELTUSK_REFUSED_ABSENT = 13,
    MELTUSK_REFUSED_SNAPSHOT = 14,
    MELTUSK_REFUSED_ROOM = 15,
    MELTUSK_REFUSED_NAME_ABSENT = 16,
    MELTUSK_REFUSED_NAME_TWICE = 17,
    MELTUSK_REFUSED_ROW = 18,
    MELTUSK_REFUSED_DAYS = 19,
    MELTUSK_REFUSED_LISTED_BLOCKS = 23
};

/* Matching records, their weight in kg, and their oil: the sum of weight times
 * yield, of which 10,000 are 1 kg. */
typedef struct {
    uint64_t records;
    uint64_t weight;
    uint64_t oil;
} meltusk_totals;

/* Random reads, sequential reads and random writes of one call. */
typedef struct {
    uint64_t rr;
    uint64_t sr;
    uint64_t rw;
} meltusk_counts;

/* The counts of many calls, added up. A tally begins with all three 0. */
typedef struct {
    uint64_t rr;
    uint64_t sr;
    uint64_t rw;
} meltusk_tally;

/* What find, range, insert, delete and move answer. */
typedef struct {
    uint32_t refusal;
    meltusk_counts counts;
    meltusk_totals totals; /* of find and range */
} meltusk_answer;

/* What the next and the previous grower answer: the grower and how many records
 * he has; 0 and 0 if there is none. */
typedef struct {
    uint32_t refusal;
    uint32_t grower;
    uint64_t records;
    meltusk_counts counts;
} meltusk_grower_answer;

/* What applying a layout and reading a snapshot answer: the directory, all 0 when refused. */
typedef struct {
    uint32_t refusal;
    uint32_t directory[MELTUSK_DIRECTORY];
} meltusk_applied;

/* Where a grower's partition lies in the growers: its first slot and its
 * records; 0 and 0 when refused. */
typedef struct {
    uint32_t refusal;
    uint32_t start;
    uint32_t count;
} meltusk_partition_slice;

/* The cost of a layout under recorded counts. */
typedef struct {
    uint32_t refusal;
    int64_t cost;
} meltusk_costed;

/* What the planner answers: how many ends it wrote, and their cost. */
typedef struct {
    uint32_t refusal;
    uint32_t count;
    int64_t cost;
} meltusk_planned;

/* What listing answers: how many layouts, and the bytes of their lines. */
typedef struct {
    uint32_t refusal;
    uint32_t layouts;
    uint64_t bytes;
} meltusk_listed;

/* What writing a snapshot or a sheet and an export answer: how many bytes they wrote. */
typedef struct {
    uint32_t refusal;
    uint64_t bytes;
} meltusk_written;

/* What an import answers: how many rows it stored. */
typedef struct {
    uint32_t refusal;
    uint64_t rows;
} meltusk_imported;

/* The day number of a date; 0 when refused. */
typedef struct {
    uint32_t refusal;
    uint32_t day;
} meltusk_day_answer;

/* The date of a day number, 1 March 2024 as 2024, 3, 1; all 0 when refused. */
typedef struct {
    uint32_t refusal;
    uint32_t year;
    uint32_t month;
    uint32_t day;
} meltusk_date_answer;

/* The first and the last day of a term, both counted; 0 and 0 when refused. */
typedef struct {
    uint32_t refusal;
    uint32_t first;
    uint32_t last;
} meltusk_term_answer;

/*
 * Applies a layout to an unpartitioned set: block length, used slots, the four
 * slices, and the end block of each partition. Checks 2 3 4 5 6 8 19 (8 and 19:
 * the set). Writes to no slice: the directory is answered by value, and no
 * record moves.
 */
meltusk_applied meltusk_apply_layout(uint32_t block, uint32_t used,
                                     const uint32_t *growers, size_t growers_count,
                                     const uint32_t *weights, size_t weights_count,
                                     const uint32_t *yields, size_t yields_count,
                                     const uint32_t *days, size_t days_count,
                                     const uint32_t *ends, size_t ends_count);

/*
 * The records of one grower, which may be none. Checks 2 3 6 8 19 (8 and 19:
 * the partition scanned, which is the grower's). Writes to no slice.
 */
meltusk_answer meltusk_find(const uint32_t *directory, size_t directory_count,
                            const uint32_t *growers, size_t growers_count,
                            const uint32_t *weights, size_t weights_count,
                            const uint32_t *yields, size_t yields_count,
                            const uint32_t *days, size_t days_count,
                            uint32_t grower);

/*
 * The records of the growers lo to hi, both included. Checks 2 3 6 7 8 19 (8
 * and 19: the partitions scanned, which are lo's to hi's). Writes to no slice.
 */
meltusk_answer meltusk_range(const uint32_t *directory, size_t directory_count,
                             const uint32_t *growers, size_t growers_count,
                             const uint32_t *weights, size_t weights_count,
                             const uint32_t *yields, size_t yields_count,
                             const uint32_t *days, size_t days_count,
                             uint32_t lo, uint32_t hi);

/*
 * The records of the growers lo to hi on the days first to last, all four
 * included; none if last is earlier than first. Checks as range (19: both days
 * too). Scans and counts what range does, whatever the days. Writes to no
 * slice.
 */
meltusk_answer meltusk_range_days(const uint32_t *directory, size_t directory_count,
                                  const uint32_t *growers, size_t growers_count,
                                  const uint32_t *weights, size_t weights_count,
                                  const uint32_t *yields, size_t yields_count,
                                  const uint32_t *days, size_t days_count,
                                  uint32_t lo, uint32_t hi,
                                  uint32_t first, uint32_t last);

/*
 * Inserts a delivery. Checks 2 3 6 8 19 12 (8 and 19: the delivery). Writes the
 * partition's length and, in each slice, one slot a partition from the
 * grower's on: the first record of each later partition goes just past its
 * end, and the delivery just past the end of its own. Scans nothing; counts 1
 * rr and 1 rw, and as much for each partition from the grower's to the last.
 */
meltusk_answer meltusk_insert(uint32_t *directory, size_t directory_count,
                              uint32_t *growers, size_t growers_count,
                              uint32_t *weights, size_t weights_count,
                              uint32_t *yields, size_t yields_count,
                              uint32_t *days, size_t days_count,
                              uint32_t grower, uint32_t weight, uint32_t oil_yield,
                              uint32_t day);

/*
 * Deletes the first equal delivery of the grower's partition. Checks 2 3 6 8 19
 * 13 (8 and 19: the delivery and the partition). Writes the partition's length
 * and, in each slice, one slot a partition from the grower's on: the
 * partition's last record fills the gap, the last record of each later one goes
 * just before its start, and the freed slot becomes 0, 0, 0, 0. Equal is equal
 * in grower, weight, yield and day; first is the lowest slot. Counts the scan
 * of the partition, 1 rw, and 1 rr and 1 rw for each partition from the
 * grower's to the last.
 */
meltusk_answer meltusk_delete(uint32_t *directory, size_t directory_count,
                              uint32_t *growers, size_t growers_count,
                              uint32_t *weights, size_t weights_count,
                              uint32_t *yields, size_t yields_count,
                              uint32_t *days, size_t days_count,
                              uint32_t grower, uint32_t weight, uint32_t oil_yield,
                              uint32_t day);

/*
 * Moves the first equal delivery of the grower's partition to a new grower; its
 * weight, yield and day stay. Checks as delete; the new grower's partition is
 * not scanned. Writes the two partitions' lengths and, in each slice, at most
 * two slots of the old partition and one of each partition passed. Needs no
 * free slot. Counts the scan of the old partition, 1 rr and 2 rw, and 1 rr and
 * 1 rw for each partition from the old to the new, the old not counted.
 */
meltusk_answer meltusk_move(uint32_t *directory, size_t directory_count,
                            uint32_t *growers, size_t growers_count,
                            uint32_t *weights, size_t weights_count,
                            uint32_t *yields, size_t yields_count,
                            uint32_t *days, size_t days_count,
                            uint32_t grower, uint32_t weight, uint32_t oil_yield,
                            uint32_t day, uint32_t new_grower);

/*
 * The smallest grower at or above `grower` who has a record. Checks 2 3 6 8 19
 * (8 and 19: the partitions scanned). Scans from `grower`'s partition to the
 * first that holds such a record, or to the last partition if there is none;
 * counts as a range over the partitions scanned. Writes to no slice.
 *
 * To step through all growers, begin with 0 and go on with the grower answered
 * plus 1, until records is 0; stop at 4,294,967,295, which has no successor.
 */
meltusk_grower_answer meltusk_next_grower(const uint32_t *directory, size_t directory_count,
                                          const uint32_t *growers, size_t growers_count,
                                          const uint32_t *weights, size_t weights_count,
                                          const uint32_t *yields, size_t yields_count,
                                          const uint32_t *days, size_t days_count,
                                          uint32_t grower);

/*
 * The largest grower at or below `grower` who has a record. As the next grower,
 * but downward: scans from `grower`'s partition back, to the first partition if
 * there is none. Begin with 4,294,967,295, go on with the grower answered less
 * 1, and stop at 0.
 */
meltusk_grower_answer meltusk_previous_grower(const uint32_t *directory, size_t directory_count,
                                              const uint32_t *growers, size_t growers_count,
                                              const uint32_t *weights, size_t weights_count,
                                              const uint32_t *yields, size_t yields_count,
                                              const uint32_t *days, size_t days_count,
                                              uint32_t grower);

/*
 * Where the grower's partition lies in the growers. Checks 2 3 6 (3: the
 * growers alone). Writes to no slice.
 */
meltusk_partition_slice meltusk_partition(const uint32_t *directory, size_t directory_count,
                                          const uint32_t *growers, size_t growers_count,
                                          uint32_t grower);

/*
 * Records a call against an unpartitioned set (block length, used slots, the
 * four slices) into the histograms, and answers its refusal. Checks 2 3 4 5 7 8
 * 19 9 10 (7: the ranges; 8 and 19: the set, and the delivery; 19: both days of
 * a range over days). Writes only the counts that the call raises, each by 1;
 * the set stays as it is:
 *
 *   find    pq at the grower's block
 *   range   rs at lo's block, re at hi's, sc at each between; pq if they are
 *           one; a range over days likewise, whatever the days
 *   insert  in at the grower's block
 *   delete  de at the grower's block
 *   move    udf at the old grower's block and utf at the new one's, or, to a
 *           smaller grower, udb and utb
 *
 * A delete or move of a delivery that is not in the set is recorded as a find.
 */
uint32_t meltusk_record_find(uint32_t *histograms, size_t histograms_count,
                              uint32_t block, uint32_t used,
                              const uint32_t *growers, size_t growers_count,
                              const uint32_t *weights, size_t weights_count,
                              const uint32_t *yields, size_t yields_count,
                              const uint32_t *days, size_t days_count,
                              uint32_t grower);

uint32_t meltusk_record_range(uint32_t *histograms, size_t histograms_count,
                              uint32_t block, uint32_t used,
                              const uint32_t *growers, size_t growers_count,
                              const uint32_t *weights, size_t weights_count,
                              const uint32_t *yields, size_t yields_count,
                              const uint32_t *days, size_t days_count,
                              uint32_t lo, uint32_t hi);

uint32_t meltusk_record_range_days(uint32_t *histograms, size_t histograms_count,
                              uint32_t block, uint32_t used,
                              const uint32_t *growers, size_t growers_count,
                              const uint32_t *weights, size_t weights_count,
                              const uint32_t *yields, size_t yields_count,
                              const uint32_t *days, size_t days_count,
                              uint32_t lo, uint32_t hi,
                              uint32_t first, uint32_t last);

uint32_t meltusk_record_insert(uint32_t *histograms, size_t histograms_count,
                              uint32_t block, uint32_t used,
                              const uint32_t *growers, size_t growers_count,
                              const uint32_t *weights, size_t weights_count,
                              const uint32_t *yields, size_t yields_count,
                              const uint32_t *days, size_t days_count,
                              uint32_t grower, uint32_t weight, uint32_t oil_yield,
                              uint32_t day);

uint32_t meltusk_record_delete(uint32_t *histograms, size_t histograms_count,
                              uint32_t block, uint32_t used,
                              const uint32_t *growers, size_t growers_count,
                              const uint32_t *weights, size_t weights_count,
                              const uint32_t *yields, size_t yields_count,
                              const uint32_t *days, size_t days_count,
                              uint32_t grower, uint32_t weight, uint32_t oil_yield,
                              uint32_t day);

uint32_t meltusk_record_move(uint32_t *histograms, size_t histograms_count,
                              uint32_t block, uint32_t used,
                              const uint32_t *growers, size_t growers_count,
                              const uint32_t *weights, size_t weights_count,
                              const uint32_t *yields, size_t yields_count,
                              const uint32_t *days, size_t days_count,
                              uint32_t grower, uint32_t weight, uint32_t oil_yield,
                              uint32_t day, uint32_t new_grower);

/*
 * The cost of a layout, given as the end block of each partition, under the
 * prices rr, sr and rw. Checks 1 2 3 4 5 6 8 19 9 (1: the prices; 8 and 19: the
 * set). Writes to no slice.
 */
meltusk_costed meltusk_cost(uint32_t rr, uint32_t sr, uint32_t rw,
                            uint32_t block, uint32_t used,
                            const uint32_t *growers, size_t growers_count,
                            const uint32_t *weights, size_t weights_count,
                            const uint32_t *yields, size_t yields_count,
                            const uint32_t *days, size_t days_count,
                            const uint32_t *ends, size_t ends_count,
                            const uint32_t *histograms, size_t histograms_count);

/*
 * The cheapest layout that the read limit and the insert limit permit under the
 * prices rr, sr and rw; of equal costs the fewest partitions, then the smaller
 * end at the first difference. Checks 1 2 3 4 5 8 19 9 11 15. Writes the end
 * block of each partition to `ends` (64 are always enough); what lies past them
 * stays.
 *
 * Permitted are partitions of at most (read - rr) / sr, rounded down, plus 1
 * blocks, and none if read is less than rr; and at most insert / (rr + rw),
 * rounded down, less 1 partitions. With a free slot these are exactly the
 * layouts on whose column, just laid, no find costs more than read and no insert
 * more than insert, whatever the grower; ranges, deletes and moves may cost more.
 * Limits of 1,000,000 permit every layout, at any prices.
 */
meltusk_planned meltusk_plan(uint32_t rr, uint32_t sr, uint32_t rw,
                             uint32_t read, uint32_t insert,
                             uint32_t block, uint32_t used,
                             const uint32_t *growers, size_t growers_count,
                             const uint32_t *weights, size_t weights_count,
                             const uint32_t *yields, size_t yields_count,
                             const uint32_t *days, size_t days_count,
                             const uint32_t *histograms, size_t histograms_count,
                             uint32_t *ends, size_t ends_count);

/*
 * Writes the listing of a set of at most 12 blocks: every layout that
 * meltusk_plan chooses from, and no other. Checks 1 2 3 4 5 8 19 9 23 11 15.
 * Writes 32 + 11 * K bytes a layout of K partitions to `text`; what lies past
 * them stays. MELTUSK_LISTING_BYTES of the set's blocks are always enough: 43
 * for one block, 211,968 for 12.
 *
 * The line of the least cost, of equal costs of the fewest partitions, then of the
 * smaller end at the first difference, is what meltusk_plan answers. Where there
 * would be no line both give 11.
 */
meltusk_listed meltusk_list_layouts(uint32_t rr, uint32_t sr, uint32_t rw,
                                    uint32_t read, uint32_t insert,
                                    uint32_t block, uint32_t used,
                                    const uint32_t *growers, size_t growers_count,
                                    const uint32_t *weights, size_t weights_count,
                                    const uint32_t *yields, size_t yields_count,
                                    const uint32_t *days, size_t days_count,
                                    const uint32_t *histograms, size_t histograms_count,
                                    uint8_t *text, size_t text_count);

/*
 * Adds a call's counts to the three numbers of a tally; those of a refused
 * call can be added too:
 *
 *     meltusk_tally_add(&t.rr, &t.sr, &t.rw, a.counts.rr, a.counts.sr, a.counts.rw)
 *
 * Check 10; refused, the tally stays as it was, all three numbers of it.
 * Answers the refusal. The three pointers are to three different numbers, and
 * none is null.
 */
uint32_t meltusk_tally_add(uint64_t *rr, uint64_t *sr, uint64_t *rw,
                           uint64_t more_rr, uint64_t more_sr, uint64_t more_rw);

/*
 * Writes a column as a snapshot. Checks 2 3 6 8 19 15 (8: all records; 19: the
 * day of each is 0). Writes MELTUSK_SNAPSHOT_BYTES(M, K) bytes to `text`; what
 * lies past them stays.
 */
meltusk_written meltusk_write_snapshot(const uint32_t *directory, size_t directory_count,
                                       const uint32_t *growers, size_t growers_count,
                                       const uint32_t *weights, size_t weights_count,
                                       const uint32_t *yields, size_t yields_count,
                                       const uint32_t *days, size_t days_count,
                                       uint8_t *text, size_t text_count);

/*
 * Writes the settlement sheet of a column. Checks 2 3 6 8 19 15 (8 and 19: all
 * records; 15: `text` has as many bytes as the sheet, `order` and `work` a
 * number for each of the M used slots). Writes MELTUSK_SHEET_BYTES of the
 * growers who have a record to `text`; the used slots, in rising order of
 * grower and those of one grower in rising order, to the first M numbers of
 * `order`; and 0 to the first M of `work`, which the call needs to sort. What
 * lies past them stays. With room for MELTUSK_SHEET_BYTES(M) it is faster: with
 * less, the growers are counted first, so that a text that is too short is
 * refused before anything is written.
 */
meltusk_written meltusk_write_sheet(const uint32_t *directory, size_t directory_count,
                                    const uint32_t *growers, size_t growers_count,
                                    const uint32_t *weights, size_t weights_count,
                                    const uint32_t *yields, size_t yields_count,
                                    const uint32_t *days, size_t days_count,
                                    uint8_t *text, size_t text_count,
                                    uint32_t *order, size_t order_count,
                                    uint32_t *work, size_t work_count);

/*
 * Writes the settlement sheet of the term that holds `day`, from that term's
 * records alone. Checks 2 3 6 8 19 15 (8: all records, whatever their days; 19:
 * these and `day`; 15: as for the sheet of the column, but `order` and `work`
 * have a number for each of the term's records). Writes to `text`, `order` and
 * `work` as the sheet of the column does, of the term's slots alone. A term
 * without records has one line of zeros. To settle a month, write the sheets of
 * its days 1 and 16.
 */
meltusk_written meltusk_write_term_sheet(const uint32_t *directory, size_t directory_count,
                                         const uint32_t *growers, size_t growers_count,
                                         const uint32_t *weights, size_t weights_count,
                                         const uint32_t *yields, size_t yields_count,
                                         const uint32_t *days, size_t days_count,
                                         uint32_t day,
                                         uint8_t *text, size_t text_count,
                                         uint32_t *order, size_t order_count,
                                         uint32_t *work, size_t work_count);

/*
 * Reads a snapshot. Checks 3 12 14; 12 goes ahead of 14 only where line 1 is
 * three numbers in range. 14 also refuses values out of range, fences that do
 * not rise, a grower outside its partition, an M that is not the sum of the
 * lengths, and a text that is shorter or longer. Writes the first M slots of
 * each slice, 0 as the days, once the whole text is judged; what lies past them
 * stays. The directory is answered by value.
 */
meltusk_applied meltusk_read_snapshot(const uint8_t *text, size_t text_count,
                                      uint32_t *growers, size_t growers_count,
                                      uint32_t *weights, size_t weights_count,
                                      uint32_t *yields, size_t yields_count,
                                      uint32_t *days, size_t days_count);

/*
 * Imports a weighbridge file. Checks 3 16 17 18 12 (18: all rows). Writes the
 * rows, in their order, to the first slots of each slice, 0 as the days, once
 * the whole text is judged; what lies past them stays.
 */
meltusk_imported meltusk_import_csv(const uint8_t *text, size_t text_count,
                                    uint32_t *growers, size_t growers_count,
                                    uint32_t *weights, size_t weights_count,
                                    uint32_t *yields, size_t yields_count,
                                    uint32_t *days, size_t days_count);

/*
 * Exports the first `used` slots as a weighbridge file. Checks 3 4 8 19 15 (8
 * and 19: the slots to be exported). Writes the header line grower,weight,yield
 * and a row a slot to `text`, with CRLF and neither quotes nor leading zeros;
 * what lies past them stays. MELTUSK_CSV_BYTES(used) bytes are always enough.
 * Importing what was written gives the same deliveries but for the days, which
 * are 0.
 */
meltusk_written meltusk_export_csv(uint32_t used,
                                   const uint32_t *growers, size_t growers_count,
                                   const uint32_t *weights, size_t weights_count,
                                   const uint32_t *yields, size_t yields_count,
                                   const uint32_t *days, size_t days_count,
                                   uint8_t *text, size_t text_count);

/*
 * The day number of a date, year, month and day of the month as they are
 * written: 2024, 2, 29 is 8,825. Check 19.
 */
meltusk_day_answer meltusk_day_of(uint32_t year, uint32_t month, uint32_t day);

/*
 * The date of a day number, whose day number it is. Check 19.
 */
meltusk_date_answer meltusk_date_of(uint32_t day);

/*
 * The term that holds a day. Check 19. The next term begins the day after its
 * last.
 */
meltusk_term_answer meltusk_term_of(uint32_t day);

#ifdef __cplusplus
}
#endif

#endif
