/*
 * Every exported function from C, on the map of the paper's example: 15 managed
 * pages, the last at 0x10F000. The exit status is 1 where an answer differs.
 */
#include <inttypes.h>
#include <stdio.h>
#include <string.h>

#include "jilakkor.h"

enum { PAGES = 15, PLACES = 4 };

static union jilakkor_words store;
static uint8_t records[PAGES * JILAKKOR_RECORD_BYTES];
static uint8_t memory[PAGES * JILAKKOR_PAGE_BYTES];
static uint64_t queue[PLACES];
static uint64_t answer[2];

static int failed;

/* For calls that take no bytes. */
static uint8_t none[1];

#define LENT_BESIDE_WORDS                                                                          \
    records, sizeof records, memory, sizeof memory, queue, PLACES, answer, 2
#define LENT store.words, JILAKKOR_WORDS, LENT_BESIDE_WORDS

/* The last page in the memory. */
#define LAST (memory + (PAGES - 1) * JILAKKOR_PAGE_BYTES)

static const uint64_t frame = 0x10F000, other = 0x10E000, page = JILAKKOR_PAGE_BYTES;

static void answered(int line, uint32_t returned, uint64_t address, uint64_t bytes)
{
    if (returned == JILAKKOR_ACCEPTED && answer[0] == address && answer[1] == bytes) {
        return;
    }
    printf("test.c, line %d: returned %" PRIu32 ", answered %" PRIu64 " and %" PRIu64 "\n", line,
           returned, answer[0], answer[1]);
    failed = 1;
}

static void holds(int line, int fact)
{
    if (!fact) {
        printf("test.c, line %d: does not hold\n", line);
        failed = 1;
    }
}

#define ANSWERED(call, address, bytes) answered(__LINE__, call, address, bytes)
#define HOLDS(fact) holds(__LINE__, fact)

static void boot(void)
{
    const struct jilakkor_region map[2] = {
        {0x100000, 0x10000, JILAKKOR_USABLE_RAM},
        {0, 0x100000, JILAKKOR_RESERVED},
    };
    const struct jilakkor_row *row = &store.state.rows[0];
    const struct jilakkor_lists *small = &row->levels[0];
    memset(&store, 0xA5, sizeof store);
    memset(memory, 0xA5, sizeof memory);
    ANSWERED(jilakkor_boot(map, 2, LENT), 0, PAGES * page);
    HOLDS(store.state.version == JILAKKOR_VERSION && store.state.used == 1);
    HOLDS(row->start == 0x100000 && row->pages == 16);
    HOLDS(small->ends[0].front == 1 && small->ends[0].back == 15 && small->count[0] == 15);
    HOLDS(small->ends[1].front == 0 && small->count[1] == 0);
    HOLDS(store.state.rows[1].pages == 0 && store.state.queued == 0);
    HOLDS(store.state.counters.idle == 16 && store.state.counters.total == 16);
    HOLDS(jilakkor_audit(store.words, JILAKKOR_WORDS, records, sizeof records, sizeof memory,
                         PLACES) == JILAKKOR_ACCEPTED);
}

static void grants(void)
{
    ANSWERED(jilakkor_alloc(LENT, page, page, JILAKKOR_ZEROED + JILAKKOR_KERNEL), frame, page);
    HOLDS(LAST[0] == 0 && LAST[page - 1] == 0 && LAST[-1] == 0xA5);
    HOLDS(store.state.counters.kernel_used == 1 && store.state.counters.allocated == 1);
    ANSWERED(jilakkor_take(LENT, 1, 1, 0), other, page);
    ANSWERED(jilakkor_split(LENT, frame), frame, page);
    ANSWERED(jilakkor_find(LENT, frame + 9), frame, page);
}

static void contents(void)
{
    static const uint8_t bytes[5] = {'b', 'y', 't', 'e', 's'};
    ANSWERED(jilakkor_fill(LENT, frame, 4, 8, 256 + 'x'), frame, 8);
    ANSWERED(jilakkor_write(LENT, frame, 6, bytes, sizeof bytes), frame, 5);
    HOLDS(memcmp(LAST + 3, "\0xxbytesx\0", 10) == 0);
    ANSWERED(jilakkor_read(LENT, frame, 6, 5), (uint64_t)(LAST + 6 - memory), 5);
    ANSWERED(jilakkor_copy(LENT, frame, 8, frame, 6, 5), frame, 5);
    HOLDS(memcmp(LAST + 3, "\0xxbybytes\0", 11) == 0);
    ANSWERED(jilakkor_pcopy(LENT, other, 0, frame + 8, 5), other, 5);
    HOLDS(memcmp(LAST - page, bytes, 5) == 0);
    ANSWERED(jilakkor_zero(LENT, other), other, page);
    HOLDS(LAST[-1] == 0 && *(LAST - page) == 0);
    ANSWERED(jilakkor_dirty(LENT, other), other, page);
}

static void reclaim(void)
{
    uint64_t next;
    for (next = 0x10D000; next >= 0x10A000; next -= page) {
        ANSWERED(jilakkor_low(LENT), 0, 0);
        ANSWERED(jilakkor_alloc(LENT, page, page, 0), next, page);
    }
    ANSWERED(jilakkor_low(LENT), 0, 1);
    ANSWERED(jilakkor_queue(LENT, other), other, page);
    HOLDS(store.state.queued == 1 && queue[0] == other);
    ANSWERED(jilakkor_round(LENT), 1, 1);
    HOLDS(store.state.rounds == 1 && store.state.freed == 1 && store.state.queued == 0);
    ANSWERED(jilakkor_round(LENT), 1, 1);
    HOLDS(store.state.rounds == 0 && store.state.counters.reclaimed == 1);
}

static void counts(void)
{
    static const char expected[] = "memory status (in frames):\n"
                                   "       total: 16 -- a: 6 f: 1 r: 1, 0 waiters\n"
                                   "        idle: 11 68%\n"
                                   "      kernel: 1 6%\n"
                                   "        page: 4 25% (2 loaned)\n";
    uint8_t text[JILAKKOR_STATS_BYTES];
    ANSWERED(jilakkor_lend(LENT, 3), 0, 3);
    ANSWERED(jilakkor_back(LENT, 1), 0, 2);
    ANSWERED(jilakkor_stats(LENT, text, sizeof text), 0, sizeof expected - 1);
    HOLDS(memcmp(text, expected, sizeof expected - 1) == 0);
}

#define BY_NUMBER(op, numbers, count, bytes, length)                                               \
    jilakkor_call(&counters, LENT, op, numbers, count, bytes, length)

/* With the counters copied out and back, both forms serve the same store. */
static void by_number(void)
{
    const uint64_t asked[2] = {page, page};
    struct jilakkor_counters counters = store.state.counters;
    ANSWERED(BY_NUMBER(JILAKKOR_OP_ALLOC, asked, 2, none, 0), other, page);
    HOLDS(counters.page_data == 5 && counters.allocated == 7);
    HOLDS(store.state.counters.page_data == 4 && store.state.counters.allocated == 6);
    HOLDS(BY_NUMBER(JILAKKOR_OP_BOOT + 1, asked, 2, none, 0) == JILAKKOR_BAD_LINE);
    store.state.counters = counters;
    ANSWERED(jilakkor_free(LENT, other), other, page);
}

/* The reserved words are as they were before the boot. */
static void reserved(void)
{
    size_t i;
    for (i = 0; i < sizeof store.state.reserved / sizeof store.state.reserved[0]; i++) {
        HOLDS(store.state.reserved[i] == UINT64_C(0xA5A5A5A5A5A5A5A5));
    }
}

/* The calls over bytes, and a boot, with counters that are in no words. */
static void bytes_by_number(void)
{
    static const char expected[] = "memory status (in frames):\n"
                                   "       total: 16 -- a: 1 f: 0 r: 0, 0 waiters\n"
                                   "        idle: 15 93%\n"
                                   "      kernel: 0 0%\n"
                                   "        page: 1 6% (0 loaned)\n";
    static struct jilakkor_counters counters = {1, 2, 3, 4, 5, 6, 7, 8, 9};
    const uint64_t map[6] = {
        0x100000, 0x10000, JILAKKOR_USABLE_RAM, 0, 0x100000, JILAKKOR_RESERVED,
    };
    const uint64_t asked[2] = {page, page}, range[3] = {frame, 6, 5};
    uint8_t text[JILAKKOR_STATS_BYTES] = {'b', 'y', 't', 'e', 's'};
    HOLDS(BY_NUMBER(JILAKKOR_OP_BOOT, map, 5, none, 0) == JILAKKOR_BAD_LINE);
    HOLDS(counters.total == 4);
    ANSWERED(BY_NUMBER(JILAKKOR_OP_BOOT, map, 6, none, 0), 0, PAGES * page);
    HOLDS(counters.total == 16 && counters.idle == 16 && counters.pager_outstanding == 0);
    ANSWERED(BY_NUMBER(JILAKKOR_OP_ALLOC, asked, 2, none, 0), frame, page);
    ANSWERED(BY_NUMBER(JILAKKOR_OP_WRITE, range, 2, text, 5), frame, 5);
    HOLDS(memcmp(LAST + 6, "bytes", 5) == 0 && memcmp(text, "bytes", 5) == 0);
    ANSWERED(BY_NUMBER(JILAKKOR_OP_READ, range, 3, none, 0), (uint64_t)(LAST + 6 - memory), 5);
    HOLDS(BY_NUMBER(JILAKKOR_OP_STATS, asked, 0, text, sizeof text - 1) == JILAKKOR_TORN);
    HOLDS(memcmp(text, "bytes", 5) == 0);
    ANSWERED(BY_NUMBER(JILAKKOR_OP_STATS, asked, 0, text, sizeof text), 0, sizeof expected - 1);
    HOLDS(memcmp(text, expected, sizeof expected) == 0);
}

/* A refused call changes nothing. */
static void refusals(void)
{
    static union jilakkor_words before;
    before = store;
    answer[0] = answer[1] = 77;
    HOLDS(jilakkor_free(LENT, other) == JILAKKOR_NOT_HELD);
    HOLDS(jilakkor_alloc(LENT, page, 3, 0) == JILAKKOR_BAD_LAYOUT);
    HOLDS(jilakkor_low(store.words, JILAKKOR_WORDS - 1, LENT_BESIDE_WORDS) == JILAKKOR_TORN);
    HOLDS(jilakkor_low(store.words, 101, LENT_BESIDE_WORDS) == JILAKKOR_TORN);
    HOLDS(memcmp(&before, &store, sizeof store) == 0);
    HOLDS(answer[0] == 77 && answer[1] == 77);
    store.state.counters.idle += 1;
    HOLDS(jilakkor_low(LENT) == JILAKKOR_TORN);
}

int main(void)
{
    boot();
    grants();
    contents();
    reclaim();
    counts();
    by_number();
    refusals();
    bytes_by_number();
    reserved();
    if (!failed) {
        printf("kernel: every exported function from C, as expected\n");
    }
    return failed;
}
