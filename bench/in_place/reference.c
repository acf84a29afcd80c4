#include "reference.h"
#include "lanes.h"
#include <string.h>

enum { BASIC = 1, FORCED = 2, LIVE = -1 };

static const unsigned ALL_LANES = 0xffff;

static answer accepted(bool stores, unsigned gone, unsigned value, unsigned rose)
{
    return (answer)stores << 8 | (answer)gone << 16 | (answer)value << 32 | (answer)rose << 48;
}

answer reference_start(struct reference *s, uint32_t n, const uint32_t *blocks)
{
    memset(s, 0, sizeof *s);
    if (n < 1 || n > PROCESSES)
        return 1;
    for (uint32_t p = 0; p < n; p++)
        if (blocks[p] < 1 || blocks[p] > UINT16_MAX)
            return 15;
    s->count = n;
    for (uint32_t p = 0; p < n; p++) {
        s->vectors[p][p] = 1;
        s->pins[p][p] = 1;
        s->indexes[p][0] = 1;
        s->held[p] = 1;
        s->blocks[p] = (uint16_t)blocks[p];
        s->written += blocks[p];
    }
    return 0;
}

static inline bool is_named(const uint16_t *pins, uint16_t word)
{
    return bits(same(load(pins), every(word))) != 0;
}

static inline void put_kept(struct reference *s, unsigned p, unsigned k, uint16_t own, uint8_t cause, lanes vector)
{
    s->indexes[p][k] = own + 1;
    s->causes[p][k] = cause;
    store(s->stored[p][k], vector);
}

// The checkpoints of p that no pin names go, and the others close up; the pairs go after the `gone` before them.
static unsigned collect(struct reference *s, unsigned p, uint16_t *deleted, unsigned gone)
{
    unsigned held = s->held[p], to = 0;
    for (unsigned k = 0; k < held; k++) {
        uint16_t word = s->indexes[p][k];
        if (!is_named(s->pins[p], word)) {
            deleted[2 * gone] = (uint16_t)p;
            deleted[2 * gone + 1] = word - 1;
            gone++;
            continue;
        }
        if (to != k)
            put_kept(s, p, to, word - 1, s->causes[p][k], load(s->stored[p][k]));
        to++;
    }
    s->deleted += (uint64_t)(held - to) * s->blocks[p];
    for (unsigned k = to; k < held; k++) {
        s->indexes[p][k] = 0;
        s->causes[p][k] = 0;
        memset(s->stored[p][k], 0, sizeof(row));
    }
    s->held[p] = (uint8_t)to;
    return gone;
}

answer reference_checkpoint_on(struct reference *s, uint32_t i, uint16_t *deleted, size_t size)
{
    size_t n = s->count;
    if (size < 2 * n * n)
        return 3;
    if (i >= n)
        return 4;
    uint16_t own = s->vectors[i][i];
    if (own == LAST_INTERVAL)
        return 11;
    if (s->written + s->blocks[i] > MOST_BLOCKS)
        return 16;
    unsigned k = s->held[i], gone = 0;
    s->pins[i][i] = own + 1;
    // only the own pin moves, so only the last one stored can lose its name
    if (!is_named(s->pins[i], own)) {
        k--;
        gone = 1;
        deleted[0] = (uint16_t)i;
        deleted[1] = own - 1;
        s->deleted += s->blocks[i];
    }
    put_kept(s, i, k, own, BASIC, load(s->vectors[i]));
    s->held[i] = (uint8_t)(k + 1);
    s->vectors[i][i] = own + 1;
    s->marks[i] = 0;
    s->written += s->blocks[i];
    return accepted(true, gone, own, 0);
}

answer reference_send_on(struct reference *s, uint32_t i, uint32_t j)
{
    uint32_t n = s->count, k = s->underway;
    if (i >= n || j >= n)
        return 4;
    if (i == j)
        return 5;
    if (k == MESSAGES)
        return 9;
    if (s->last == MOST_NUMBER)
        return 10;
    s->numbers[k] = ++s->last;
    s->senders[k] = (uint8_t)i;
    s->receivers[k] = (uint8_t)j;
    memcpy(s->carried[k], s->vectors[i], sizeof(row));
    s->underway = k + 1;
    s->marks[i] = 1;
    return (answer)s->last << 8;
}

// The place of message m, or -1.
static inline int place_of(const struct reference *s, uint32_t m)
{
    uint32_t k = 0;
    while (k < s->underway && s->numbers[k] < m)
        k++;
    return k < s->underway && s->numbers[k] == m ? (int)k : -1;
}

static inline void clear_message(struct reference *s, unsigned k)
{
    s->numbers[k] = 0;
    s->senders[k] = 0;
    s->receivers[k] = 0;
    memset(s->carried[k], 0, sizeof(row));
}

// The message in place k goes, and those after it close up.
static inline void take_out(struct reference *s, unsigned k)
{
    unsigned after = --s->underway - k;
    memmove(s->numbers + k, s->numbers + k + 1, after * sizeof *s->numbers);
    memmove(s->senders + k, s->senders + k + 1, after);
    memmove(s->receivers + k, s->receivers + k + 1, after);
    memmove(s->carried[k], s->carried[k + 1], after * sizeof(row));
    clear_message(s, k + after);
}

// Process i takes `carried` in: where an entry rises, its pin becomes the own pin.
static inline void take_in(struct reference *s, unsigned i, lanes carried)
{
    uint16_t *vector = s->vectors[i], *pins = s->pins[i];
    lanes own = load(vector), stays = same(excess(carried, own), none());
    store(pins, either(both(load(pins), stays), without(every(pins[i]), stays)));
    store(vector, greater(carried, own));
}

answer reference_deliver_on(struct reference *s, uint32_t m, uint16_t *deleted, size_t size)
{
    size_t n = s->count;
    if (size < 2 * n * n)
        return 3;
    int k = place_of(s, m);
    if (k < 0)
        return 8;
    unsigned i = s->receivers[k];
    lanes carried = load(s->carried[k]), before = load(s->vectors[i]);
    unsigned rose = ALL_LANES ^ bits(same(excess(carried, before), none()));
    if (rose == 0) {
        take_out(s, (unsigned)k);
        return 0;
    }
    bool forced = s->marks[i];
    uint16_t own = s->vectors[i][i];
    if (forced) {
        if (own == LAST_INTERVAL)
            return 11;
        if (s->written + s->blocks[i] > MOST_BLOCKS)
            return 16;
        s->vectors[i][i] = own + 1;
        s->pins[i][i] = own + 1;
        s->written += s->blocks[i];
        s->marks[i] = 0;
    }
    take_out(s, (unsigned)k);
    take_in(s, i, carried);
    unsigned gone = collect(s, i, deleted, 0);
    if (forced) {
        put_kept(s, i, s->held[i], own, FORCED, before);
        s->held[i]++;
    }
    return accepted(forced, gone, own, rose);
}

answer reference_lose_on(struct reference *s, uint32_t m)
{
    int k = place_of(s, m);
    if (k < 0)
        return 8;
    take_out(s, (unsigned)k);
    return 0;
}

// The place of each process's member, or LIVE. Whether every process has one.
static bool find_members(const struct reference *s, uint32_t failed, int *members)
{
    row limits;
    for (unsigned f = 0; f < PROCESSES; f++)
        limits[f] = failed >> f & 1 ? s->vectors[f][f] - 1 : UINT16_MAX;
    lanes most = load(limits);
    for (unsigned p = 0; p < s->count; p++) {
        members[p] = LIVE;
        if (!any(excess(load(s->vectors[p]), most)))
            continue;
        int k = s->held[p];
        do {
            if (--k < 0)
                return false;
        } while (any(excess(load(s->stored[p][k]), most)));
        members[p] = k;
    }
    return true;
}

// Each process goes back to its member, whose index goes to the line; `owns` are the own entries after it. How many roll back.
static unsigned go_back(struct reference *s, const int *members, uint16_t *line, uint16_t *owns)
{
    unsigned back = 0;
    for (unsigned p = 0; p < s->count; p++) {
        if (members[p] == LIVE) {
            line[p] = s->vectors[p][p];
        } else {
            line[p] = s->indexes[p][members[p]] - 1;
            memcpy(s->vectors[p], s->stored[p][members[p]], sizeof(row));
            s->vectors[p][p]++;
            s->marks[p] = 0;
            back++;
        }
        owns[p] = s->vectors[p][p];
    }
    return back;
}

// The pins of a process that rolled back to place k: each at the latest checkpoint that f's failure leaves.
static lanes found_pins(const struct reference *s, unsigned p, int k, lanes owns)
{
    lanes found = none();
    for (int j = 0; j <= k; j++) {
        lanes not_below = same(excess(owns, load(s->stored[p][j])), none());
        found = either(without(every(s->indexes[p][j]), not_below), both(found, not_below));
    }
    return found;
}

// The pins of p move, and what none of them names is deleted. How many are deleted with those before.
static unsigned restore(struct reference *s, unsigned p, int member, lanes owns, uint16_t *deleted, unsigned gone)
{
    lanes old = load(s->pins[p]), known = same(load(s->vectors[p]), owns);
    if (member == LIVE) {
        lanes pins = both(old, known);
        if (!any(without(old, pins)))
            return gone;
        store(s->pins[p], pins);
    } else {
        store(s->pins[p], both(found_pins(s, p, member, owns), known));
    }
    return collect(s, p, deleted, gone);
}

// The messages that were sent after the line go.
static void sift(struct reference *s, const uint16_t *line)
{
    unsigned to = 0;
    for (unsigned k = 0; k < s->underway; k++) {
        unsigned from = s->senders[k];
        if (s->carried[k][from] > line[from])
            continue;
        if (to != k) {
            s->numbers[to] = s->numbers[k];
            s->senders[to] = s->senders[k];
            s->receivers[to] = s->receivers[k];
            memcpy(s->carried[to], s->carried[k], sizeof(row));
        }
        to++;
    }
    for (unsigned k = to; k < s->underway; k++)
        clear_message(s, k);
    s->underway = to;
}

answer reference_recover_on(struct reference *s, uint32_t failed, uint16_t *deleted, size_t size, uint16_t *line, size_t line_size)
{
    size_t n = s->count;
    if (size < 2 * n * n || line_size < n)
        return 3;
    if (failed >> n)
        return 7;
    int members[PROCESSES];
    if (!find_members(s, failed, members))
        return 2;
    row owns = {0};
    unsigned back = go_back(s, members, line, owns), gone = 0;
    for (unsigned p = 0; p < n; p++)
        gone = restore(s, p, members[p], load(owns), deleted, gone);
    sift(s, line);
    return accepted(false, gone, back, 0);
}

// The checkpoints of p and its rows; `beyond` has ones at n and above.
static inline bool is_process_sound(const struct reference *s, unsigned p, const uint16_t *own_row, lanes owns, lanes beyond)
{
    unsigned held = s->held[p], before = 0;
    const uint16_t *words = s->indexes[p];
    if (held < 1 || held > s->count || s->marks[p] > 1 || s->blocks[p] == 0)
        return false;
    if (own_row[p] == 0 || s->pins[p][p] != own_row[p] || words[held - 1] != own_row[p])
        return false;
    lanes pins = load(s->pins[p]), met = same(pins, none());
    lanes off = either(excess(load(s->vectors[p]), owns), both(pins, beyond));
    for (unsigned k = 0; k < held; k++) {
        unsigned word = words[k], cause = s->causes[p][k];
        if (word <= before || s->stored[p][k][p] != word - 1 || (cause == 0) != (word == 1) || cause > FORCED)
            return false;
        before = word;
        lanes named = same(pins, every((uint16_t)word));
        if (bits(named) == 0)
            return false;
        met = either(met, named);
        off = either(off, excess(load(s->stored[p][k]), owns));
    }
    return !any(off) && bits(met) == ALL_LANES;
}

static inline bool are_messages_sound(const struct reference *s, lanes owns)
{
    uint32_t before = 0;
    lanes over = none();
    for (unsigned k = 0; k < s->underway; k++) {
        if (s->numbers[k] <= before || s->senders[k] >= s->count || s->receivers[k] >= s->count || s->senders[k] == s->receivers[k])
            return false;
        before = s->numbers[k];
        over = either(over, excess(load(s->carried[k]), owns));
    }
    return before <= s->last && !any(over);
}

bool reference_is_sound(const struct reference *s)
{
    if (s->count < 1 || s->count > PROCESSES || s->underway > MESSAGES || s->last > MOST_NUMBER)
        return false;
    row own_row, beyond;
    for (unsigned p = 0; p < PROCESSES; p++) {
        own_row[p] = s->vectors[p][p];
        beyond[p] = p < s->count ? 0 : UINT16_MAX;
    }
    lanes owns = load(own_row);
    uint64_t blocks = 0;
    for (unsigned p = 0; p < s->count; p++) {
        if (!is_process_sound(s, p, own_row, owns, load(beyond)))
            return false;
        blocks += (uint64_t)s->held[p] * s->blocks[p];
    }
    if (!are_messages_sound(s, owns))
        return false;
    return s->written <= MOST_BLOCKS && s->deleted <= s->written && s->written - s->deleted == blocks;
}

answer reference_checkpoint(struct reference *s, uint32_t i, uint16_t *deleted, size_t size)
{
    return reference_is_sound(s) ? reference_checkpoint_on(s, i, deleted, size) : 2;
}

answer reference_send(struct reference *s, uint32_t i, uint32_t j)
{
    return reference_is_sound(s) ? reference_send_on(s, i, j) : 2;
}

answer reference_deliver(struct reference *s, uint32_t m, uint16_t *deleted, size_t size)
{
    return reference_is_sound(s) ? reference_deliver_on(s, m, deleted, size) : 2;
}

answer reference_lose(struct reference *s, uint32_t m)
{
    return reference_is_sound(s) ? reference_lose_on(s, m) : 2;
}

answer reference_recover(struct reference *s, uint32_t failed, uint16_t *deleted, size_t size, uint16_t *line, size_t line_size)
{
    return reference_is_sound(s) ? reference_recover_on(s, failed, deleted, size, line, line_size) : 2;
}
