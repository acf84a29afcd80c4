// A row of 16 words in registers: one of AVX2, or two of SSE2.
#ifndef LANES_H
#define LANES_H
#include <immintrin.h>
#include <stdbool.h>
#include <stdint.h>

#ifdef __AVX2__
typedef __m256i lanes;

static inline lanes load(const uint16_t *p) { return _mm256_loadu_si256((const lanes *)p); }
static inline void store(uint16_t *p, lanes x) { _mm256_storeu_si256((lanes *)p, x); }
static inline lanes every(uint16_t x) { return _mm256_set1_epi16((short)x); }
static inline lanes either(lanes a, lanes b) { return _mm256_or_si256(a, b); }
static inline lanes both(lanes a, lanes b) { return _mm256_and_si256(a, b); }
static inline lanes without(lanes a, lanes b) { return _mm256_andnot_si256(b, a); }
static inline lanes same(lanes a, lanes b) { return _mm256_cmpeq_epi16(a, b); }
// by how much a is above b, 0 where it is not
static inline lanes excess(lanes a, lanes b) { return _mm256_subs_epu16(a, b); }
static inline lanes greater(lanes a, lanes b) { return _mm256_max_epu16(a, b); }
static inline bool any(lanes x) { return !_mm256_testz_si256(x, x); }
// a bit for each lane, of lanes that are all ones or 0
static inline unsigned bits(lanes x)
{
    return (unsigned)_mm_movemask_epi8(_mm_packs_epi16(_mm256_castsi256_si128(x), _mm256_extracti128_si256(x, 1)));
}
#else
typedef struct {
    __m128i low, high;
} lanes;

static inline lanes load(const uint16_t *p)
{
    return (lanes){_mm_loadu_si128((const __m128i *)p), _mm_loadu_si128((const __m128i *)(p + 8))};
}
static inline void store(uint16_t *p, lanes x)
{
    _mm_storeu_si128((__m128i *)p, x.low);
    _mm_storeu_si128((__m128i *)(p + 8), x.high);
}
static inline lanes every(uint16_t x) { return (lanes){_mm_set1_epi16((short)x), _mm_set1_epi16((short)x)}; }
static inline lanes either(lanes a, lanes b) { return (lanes){_mm_or_si128(a.low, b.low), _mm_or_si128(a.high, b.high)}; }
static inline lanes both(lanes a, lanes b) { return (lanes){_mm_and_si128(a.low, b.low), _mm_and_si128(a.high, b.high)}; }
static inline lanes without(lanes a, lanes b) { return (lanes){_mm_andnot_si128(b.low, a.low), _mm_andnot_si128(b.high, a.high)}; }
static inline lanes same(lanes a, lanes b) { return (lanes){_mm_cmpeq_epi16(a.low, b.low), _mm_cmpeq_epi16(a.high, b.high)}; }
// by how much a is above b, 0 where it is not
static inline lanes excess(lanes a, lanes b) { return (lanes){_mm_subs_epu16(a.low, b.low), _mm_subs_epu16(a.high, b.high)}; }
static inline lanes greater(lanes a, lanes b)
{
    lanes more = excess(a, b);
    return (lanes){_mm_add_epi16(more.low, b.low), _mm_add_epi16(more.high, b.high)};
}
static inline bool any(lanes x)
{
    return _mm_movemask_epi8(_mm_cmpeq_epi8(_mm_or_si128(x.low, x.high), _mm_setzero_si128())) != 0xffff;
}
// a bit for each lane, of lanes that are all ones or 0
static inline unsigned bits(lanes x) { return (unsigned)_mm_movemask_epi8(_mm_packs_epi16(x.low, x.high)); }
#endif

static inline lanes none(void) { return every(0); }
#endif
