/*
 * What find's scan takes written by hand for SSE2: judges the weights and
 * yields of a part and counts one grower's records, eight records a step.
 *
 * With `room` the largest signed number less `most`, x is at most `most` just
 * if neither x nor x + room has its top bit set. These are joined over the
 * whole part and looked at once. Of the orders tried, this was the fastest.
 */
#include <emmintrin.h>
#include <stddef.h>
#include <stdint.h>

#define LANES 4
#define STEP (2 * LANES)

static inline __m128i load(const uint32_t *from)
{
    return _mm_loadu_si128((const __m128i *)from);
}

/* The top bits of four numbers, as they are and with the room added. */
struct seen {
    __m128i as_is, added;
};

static inline void judge(struct seen *seen, __m128i room, const uint32_t *from)
{
    const __m128i x = load(from);
    seen->as_is = _mm_or_si128(seen->as_is, x);
    seen->added = _mm_or_si128(seen->added, _mm_add_epi32(x, room));
}

static inline int outside(struct seen seen)
{
    return _mm_movemask_ps(_mm_castsi128_ps(_mm_or_si128(seen.as_is, seen.added)));
}

/* The records of `grower`, or -1 if a value or a day is out of range. */
int64_t sse2_count_days(const uint32_t *growers, const uint32_t *weights, const uint32_t *yields,
                        const uint32_t *days, size_t count, uint32_t grower, uint32_t most_weight,
                        uint32_t most_yield, uint32_t most_day)
{
    const __m128i zero = _mm_setzero_si128(), wanted = _mm_set1_epi32((int)grower);
    const __m128i weight_room = _mm_set1_epi32(INT32_MAX - (int)most_weight);
    const __m128i yield_room = _mm_set1_epi32(INT32_MAX - (int)most_yield);
    const __m128i day_room = _mm_set1_epi32(INT32_MAX - (int)most_day);
    struct seen weight = {zero, zero}, yield = {zero, zero}, day = {zero, zero};
    __m128i found = zero;
    size_t i = 0;
    for (; i + STEP <= count; i += STEP) {
        found = _mm_sub_epi32(found, _mm_cmpeq_epi32(load(growers + i), wanted));
        judge(&weight, weight_room, weights + i);
        judge(&yield, yield_room, yields + i);
        judge(&day, day_room, days + i);
        found = _mm_sub_epi32(found, _mm_cmpeq_epi32(load(growers + i + LANES), wanted));
        judge(&weight, weight_room, weights + i + LANES);
        judge(&yield, yield_room, yields + i + LANES);
        judge(&day, day_room, days + i + LANES);
    }
    uint32_t lanes[LANES];
    _mm_storeu_si128((__m128i *)lanes, found);
    int64_t records = (int64_t)lanes[0] + lanes[1] + lanes[2] + lanes[3];
    int bad = outside(weight) | outside(yield) | outside(day);
    for (; i < count; i++) {
        records += growers[i] == grower;
        bad |= weights[i] > most_weight || yields[i] > most_yield || days[i] > most_day;
    }
    return bad ? -1 : records;
}

/* The same without the days. */
int64_t sse2_count(const uint32_t *growers, const uint32_t *weights, const uint32_t *yields,
                   size_t count, uint32_t grower, uint32_t most_weight, uint32_t most_yield)
{
    const __m128i zero = _mm_setzero_si128(), wanted = _mm_set1_epi32((int)grower);
    const __m128i weight_room = _mm_set1_epi32(INT32_MAX - (int)most_weight);
    const __m128i yield_room = _mm_set1_epi32(INT32_MAX - (int)most_yield);
    struct seen weight = {zero, zero}, yield = {zero, zero};
    __m128i found = zero;
    size_t i = 0;
    for (; i + STEP <= count; i += STEP) {
        found = _mm_sub_epi32(found, _mm_cmpeq_epi32(load(growers + i), wanted));
        judge(&weight, weight_room, weights + i);
        judge(&yield, yield_room, yields + i);
        found = _mm_sub_epi32(found, _mm_cmpeq_epi32(load(growers + i + LANES), wanted));
        judge(&weight, weight_room, weights + i + LANES);
        judge(&yield, yield_room, yields + i + LANES);
    }
    uint32_t lanes[LANES];
    _mm_storeu_si128((__m128i *)lanes, found);
    int64_t records = (int64_t)lanes[0] + lanes[1] + lanes[2] + lanes[3];
    int bad = outside(weight) | outside(yield);
    for (; i < count; i++) {
        records += growers[i] == grower;
        bad |= weights[i] > most_weight || yields[i] > most_yield;
    }
    return bad ? -1 : records;
}
