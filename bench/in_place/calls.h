// The calls as the bench makes them: the exported ones, and those of crates/bench_in_place and crates/bench_by_value.
#ifndef CALLS_H
#define CALLS_H
#include "../../bindings/c/lemidrosy.h"

enum { WORDS = LEMIDROSY_WORDS };

// The records of a whole trace as calls without the test, after a start of n processes; and as calls by value. How many records were accepted.
uint64_t timing_untested(uint16_t *words, size_t size, size_t n, const uint8_t *trace, size_t trace_size);
uint64_t timing_by_value(size_t n, const uint8_t *trace, size_t trace_size);
#endif
