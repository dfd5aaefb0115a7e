/*
 * Jilakkor, a physical-frame store: it gives out, splits, takes back and reclaims
 * frames of 4 KiB, 2 MiB and 1 GiB. These are the functions of libstore.a, which
 * `tools/archive store` proves and writes for x86-64.
 *
 * All state is lent by the caller, a slice as its address and its length in
 * elements. The slices of one call share no byte, and nobody else writes them
 * while it runs. No call keeps an address, allocates, locks or waits, and each
 * ends on every input.
 *
 *   words    the state, JILAKKOR_WORDS words (struct jilakkor_state)
 *   records  JILAKKOR_RECORD_BYTES bytes for each managed page
 *   memory   JILAKKOR_PAGE_BYTES bytes for each managed page: the managed bytes
 *            of the regions, one region behind the other in the order of the map
 *   queue    places of the reclaim queue
 *   answer   two places, for an address and a number of bytes
 *
 * Longer slices do no harm, and what lies behind is left alone. Every function
 * returns 0 where the call was accepted, else the number of the refusal, enum
 * jilakkor_refusal; the first of these that applies. A refused call changes nothing
 * that was lent. Each call tests all that it is lent and is refused 6 where that is no
 * whole state: after a write by somebody else, with fewer words, another version
 * or over 8 rows in the first, or an answer of fewer than two places. The boot reads no
 * state; what is too short for it is refused 5.
 */
#ifndef JILAKKOR_H
#define JILAKKOR_H

#include <stddef.h>
#include <stdint.h>

#ifdef __cplusplus
extern "C" {
#endif

/* ---- sizes */

#define JILAKKOR_VERSION 2       /* of the state's layout */
#define JILAKKOR_WORDS 512       /* of the state */
#define JILAKKOR_ROWS 8          /* kept regions at most, and entries of a map */
#define JILAKKOR_LEVELS 3        /* of frames */
#define JILAKKOR_RECORD_BYTES 16 /* of a managed page's record */
#define JILAKKOR_PAGE_BYTES 4096 /* of a page, the smallest frame */
#define JILAKKOR_LARGE_BYTES 2097152
#define JILAKKOR_HUGE_BYTES 1073741824
#define JILAKKOR_STATS_BYTES 368 /* that the statistics need */

/* ---- refusals: the word, and when */

enum jilakkor_refusal {
    JILAKKOR_ACCEPTED = 0,
    JILAKKOR_LONG_MAP = 1,        /* long map: over 8 entries */
    JILAKKOR_FAR_ADDRESS = 2,     /* far address: a usable entry ends past 2^40 */
    JILAKKOR_OVERLAP = 3,         /* overlap: two kept regions share a byte */
    JILAKKOR_TOO_MANY_PAGES = 4,  /* too many pages: kept pages over 1,048,576 */
    JILAKKOR_SHORT_LOAN = 5,      /* short loan: boot, something lent is too short */
    JILAKKOR_TORN = 6,            /* torn: later call, what is lent is no whole state */
    JILAKKOR_BAD_LAYOUT = 7,      /* bad layout: alignment no power of two, or size */
                                  /* rounded up to it over 2^63 - 1 */
    JILAKKOR_NO_LEVEL = 8,        /* no level: size or alignment over 1 GiB */
    JILAKKOR_NO_FRAME = 9,        /* no frame: nothing listed at the level or above */
    JILAKKOR_MUST_WAIT = 10,      /* must wait: as 9, JILAKKOR_WAIT_OK set */
    JILAKKOR_OUTSIDE = 11,        /* outside: address not managed */
    JILAKKOR_NO_FRAME_START = 12, /* no frame start: no page edge, or no frame starts there */
    JILAKKOR_NOT_HELD = 13,       /* not held: nobody holds the frame */
    JILAKKOR_PAST_THE_END = 14,   /* past the end: range leaves its frame, or its region */
    JILAKKOR_PAGER_LOW = 15,      /* pager low: more given back than is out */
    JILAKKOR_QUEUE_FULL = 16,     /* queue full: no place left in the lent queue */
    JILAKKOR_BAD_LINE = 17        /* bad line: jilakkor_call, no such op or map */
};

/* ---- what a grant asks for, added up */

enum jilakkor_flags {
    JILAKKOR_ZEROED = 1, /* the frame is zero in every byte */
    JILAKKOR_KERNEL = 2, /* the frame counts as the kernel's */
    JILAKKOR_WAIT_OK = 4 /* the caller would wait: 10 in place of 9 */
};

/* ---- the boot map */

enum jilakkor_kind {
    JILAKKOR_USABLE_RAM = 0,
    JILAKKOR_RESERVED = 1,
    JILAKKOR_BOOTLOADER_RESERVED = 2
};

/* An entry of the map. All kinds but 0 are passed by. */
struct jilakkor_region {
    uint64_t start;
    uint64_t length;
    uint64_t kind;
};

/* ---- the state */

/* The nine counters, in pages but for reclaimed, which counts frames, and waiting. */
struct jilakkor_counters {
    size_t kernel_used;       /* held, granted with JILAKKOR_KERNEL */
    size_t page_data;         /* held, granted without it */
    size_t idle;              /* held by nobody, tables included */
    size_t total;             /* of all regions, tables included */
    size_t allocated;         /* granted so far; wraps */
    size_t freed;             /* freed so far; wraps */
    size_t reclaimed;         /* frames that ended passes freed; wraps */
    size_t waiting;           /* always 0 */
    size_t pager_outstanding; /* lent to the pager; wraps upwards */
};

/* The ends of a list of free frames: 0 for none, else a page number plus 1. */
struct jilakkor_ends {
    uint32_t front;
    uint32_t back;
};

/* The two lists of a level: the dirty frames', then the zeroed ones'. */
struct jilakkor_lists {
    struct jilakkor_ends ends[2];
    uint32_t count[2];
};

/* A kept region. */
struct jilakkor_row {
    uint64_t start; /* rounded up to a page */
    uint64_t pages; /* tables included */
    struct jilakkor_lists levels[JILAKKOR_LEVELS];
};

/*
 * What the words hold, on a little-endian machine. A caller may read it; a write
 * tears it, unless it is one that a call could have made.
 */
struct jilakkor_state {
    uint32_t version;
    uint32_t used; /* rows, at most 8; the words of the others are nothing's */
    struct jilakkor_row rows[JILAKKOR_ROWS];
    uint64_t queued; /* places of the queue that are taken */
    uint64_t rounds; /* of the pass of reclaim rounds under way, */
    uint64_t freed;  /* and frames that they freed */
    struct jilakkor_counters counters;
    uint64_t reserved[411]; /* no meaning yet: no call reads or writes them */
};

/* The state by both its names. */
union jilakkor_words {
    uint64_t words[JILAKKOR_WORDS];
    struct jilakkor_state state;
};

/* A size or a place that differs makes an array of negative length. */
typedef char jilakkor_state_has_4096_bytes[sizeof(struct jilakkor_state) == 4096 ? 1 : -1];
typedef char jilakkor_words_are_the_state[sizeof(union jilakkor_words) == 8 * JILAKKOR_WORDS ? 1 : -1];
typedef char jilakkor_row_has_88_bytes[sizeof(struct jilakkor_row) == 88 ? 1 : -1];
typedef char jilakkor_counters_start_at_word_92[
    offsetof(struct jilakkor_state, counters) == 8 * 92 ? 1 : -1];
typedef char jilakkor_reserved_starts_at_word_101[
    offsetof(struct jilakkor_state, reserved) == 8 * 101 ? 1 : -1];

/* ---- the boot and the audit */

/*
 * The store of a map: nothing is held or queued. What the words and the records
 * hold before is of no matter; the memory and the queue stay as they are. Answers
 * 0 and the managed bytes. Refused 1 to 5.
 */
uint32_t jilakkor_boot(const struct jilakkor_region *map, size_t map_len,
                       uint64_t *words, size_t words_len, uint8_t *records, size_t records_len,
                       const uint8_t *memory, size_t memory_len, const uint64_t *queue, size_t queue_len,
                       uint64_t *answer, size_t answer_len);

/* 0 where the state and the loans are whole, else 6. */
uint32_t jilakkor_audit(const uint64_t *words, size_t words_len, const uint8_t *records, size_t records_len,
                        size_t memory_len, size_t queue_len);

/* ---- grants and frees: they answer the frame's address and its bytes */

/* A frame for a size and an alignment. Refused 7 to 10. */
uint32_t jilakkor_alloc(uint64_t *words, size_t words_len, uint8_t *records, size_t records_len,
                        uint8_t *memory, size_t memory_len, uint64_t *queue, size_t queue_len,
                        uint64_t *answer, size_t answer_len, uint64_t size, uint64_t align, uint64_t flags);

/*
 * The same, and a frame larger than a page is split into 512 held ones; answers
 * its bytes before that.
 */
uint32_t jilakkor_take(uint64_t *words, size_t words_len, uint8_t *records, size_t records_len,
                       uint8_t *memory, size_t memory_len, uint64_t *queue, size_t queue_len,
                       uint64_t *answer, size_t answer_len, uint64_t size, uint64_t align, uint64_t flags);

/*
 * A held frame becomes 512 held ones; a page stays as it is. Answers its bytes
 * before that. Refused 11 to 13.
 */
uint32_t jilakkor_split(uint64_t *words, size_t words_len, uint8_t *records, size_t records_len,
                        uint8_t *memory, size_t memory_len, uint64_t *queue, size_t queue_len,
                        uint64_t *answer, size_t answer_len, uint64_t address);

/* A held frame is taken back. Refused 11 to 13. */
uint32_t jilakkor_free(uint64_t *words, size_t words_len, uint8_t *records, size_t records_len,
                       uint8_t *memory, size_t memory_len, uint64_t *queue, size_t queue_len,
                       uint64_t *answer, size_t answer_len, uint64_t address);

/*
 * The page of an address, and the bytes of the frame that starts there, or 0
 * where none does. Refused 11.
 */
uint32_t jilakkor_find(uint64_t *words, size_t words_len, uint8_t *records, size_t records_len,
                       uint8_t *memory, size_t memory_len, uint64_t *queue, size_t queue_len,
                       uint64_t *answer, size_t answer_len, uint64_t address);

/* ---- contents of held frames: refused 11 to 13, and 14 where a range is given */

/* A frame is filled with zeros and marked as zeroed. Answers it and its bytes. */
uint32_t jilakkor_zero(uint64_t *words, size_t words_len, uint8_t *records, size_t records_len,
                       uint8_t *memory, size_t memory_len, uint64_t *queue, size_t queue_len,
                       uint64_t *answer, size_t answer_len, uint64_t address);

/* A frame's mark is taken off; its bytes stay. Answers it and its bytes. */
uint32_t jilakkor_dirty(uint64_t *words, size_t words_len, uint8_t *records, size_t records_len,
                        uint8_t *memory, size_t memory_len, uint64_t *queue, size_t queue_len,
                        uint64_t *answer, size_t answer_len, uint64_t address);

/*
 * len bytes of a frame, from offset on, become byte modulo 256, and its mark is
 * taken off. Answers the frame and len.
 */
uint32_t jilakkor_fill(uint64_t *words, size_t words_len, uint8_t *records, size_t records_len,
                       uint8_t *memory, size_t memory_len, uint64_t *queue, size_t queue_len,
                       uint64_t *answer, size_t answer_len,
                       uint64_t address, uint64_t offset, uint64_t len, uint64_t byte);

/*
 * The bytes are written to a frame, from offset on, and its mark is taken off.
 * Answers the frame and their number.
 */
uint32_t jilakkor_write(uint64_t *words, size_t words_len, uint8_t *records, size_t records_len,
                        uint8_t *memory, size_t memory_len, uint64_t *queue, size_t queue_len,
                        uint64_t *answer, size_t answer_len,
                        uint64_t address, uint64_t offset, const uint8_t *bytes, size_t bytes_len);

/*
 * Where len bytes of a frame, from offset on, stand: answers their place in the
 * lent memory, counted from its first byte, and their number.
 */
uint32_t jilakkor_read(uint64_t *words, size_t words_len, uint8_t *records, size_t records_len,
                       uint8_t *memory, size_t memory_len, uint64_t *queue, size_t queue_len,
                       uint64_t *answer, size_t answer_len, uint64_t address, uint64_t offset, uint64_t len);

/*
 * len bytes of a frame go to another, or elsewhere in the same, as if all was
 * read first; from a frame that is marked as zeroed, zeros go. Answers the target
 * and len.
 */
uint32_t jilakkor_copy(uint64_t *words, size_t words_len, uint8_t *records, size_t records_len,
                       uint8_t *memory, size_t memory_len, uint64_t *queue, size_t queue_len,
                       uint64_t *answer, size_t answer_len,
                       uint64_t target, uint64_t target_offset, uint64_t source, uint64_t source_offset, uint64_t len);

/*
 * len bytes from an address of a region go to a frame, whoever holds them, and
 * its mark is taken off. Of the source, 11 and 14 are asked alone. Answers the
 * target and len.
 */
uint32_t jilakkor_pcopy(uint64_t *words, size_t words_len, uint8_t *records, size_t records_len,
                        uint8_t *memory, size_t memory_len, uint64_t *queue, size_t queue_len,
                        uint64_t *answer, size_t answer_len,
                        uint64_t target, uint64_t target_offset, uint64_t source, uint64_t len);

/* ---- the reclaim queue, the pager and the counters */

/* A held frame may be freed by later rounds. Answers it and its bytes. Refused 11 to 13 and 16. */
uint32_t jilakkor_queue(uint64_t *words, size_t words_len, uint8_t *records, size_t records_len,
                        uint8_t *memory, size_t memory_len, uint64_t *queue, size_t queue_len,
                        uint64_t *answer, size_t answer_len, uint64_t address);

/*
 * One turn of the reclaim loop: where memory is low, up to 100 queued frames are
 * freed, the last first; else, or with the 1,002nd round, the pass ends. Answers
 * the pass's rounds and the frames that they freed.
 */
uint32_t jilakkor_round(uint64_t *words, size_t words_len, uint8_t *records, size_t records_len,
                        uint8_t *memory, size_t memory_len, uint64_t *queue, size_t queue_len,
                        uint64_t *answer, size_t answer_len);

/* So many pages are lent to the pager. Answers 0 and how many are out. */
uint32_t jilakkor_lend(uint64_t *words, size_t words_len, uint8_t *records, size_t records_len,
                       uint8_t *memory, size_t memory_len, uint64_t *queue, size_t queue_len,
                       uint64_t *answer, size_t answer_len, uint64_t count);

/* So many pages are given back. Answers 0 and how many are out. Refused 15. */
uint32_t jilakkor_back(uint64_t *words, size_t words_len, uint8_t *records, size_t records_len,
                       uint8_t *memory, size_t memory_len, uint64_t *queue, size_t queue_len,
                       uint64_t *answer, size_t answer_len, uint64_t count);

/* Answers 0, and 1 where memory is low, else 0. */
uint32_t jilakkor_low(uint64_t *words, size_t words_len, uint8_t *records, size_t records_len,
                      uint8_t *memory, size_t memory_len, uint64_t *queue, size_t queue_len,
                      uint64_t *answer, size_t answer_len);

/*
 * The five lines of the statistics are written to the front of text, which has
 * at least JILAKKOR_STATS_BYTES, else 6. Answers 0 and their length.
 */
uint32_t jilakkor_stats(uint64_t *words, size_t words_len, uint8_t *records, size_t records_len,
                        uint8_t *memory, size_t memory_len, uint64_t *queue, size_t queue_len,
                        uint64_t *answer, size_t answer_len, uint8_t *text, size_t text_len);

/* ---- the counters lent apart */

/* The calls by number, and what each takes. */
enum jilakkor_op {
    JILAKKOR_OP_ALLOC = 0,  /* size, align, flags */
    JILAKKOR_OP_TAKE = 1,   /* size, align, flags */
    JILAKKOR_OP_SPLIT = 2,  /* address */
    JILAKKOR_OP_FREE = 3,   /* address */
    JILAKKOR_OP_ZERO = 4,   /* address */
    JILAKKOR_OP_DIRTY = 5,  /* address */
    JILAKKOR_OP_FIND = 6,   /* address */
    JILAKKOR_OP_QUEUE = 7,  /* address */
    JILAKKOR_OP_FILL = 8,   /* address, offset, len, byte */
    JILAKKOR_OP_COPY = 9,   /* target, target_offset, source, source_offset, len */
    JILAKKOR_OP_PCOPY = 10, /* target, target_offset, source, len */
    JILAKKOR_OP_ROUND = 11,
    JILAKKOR_OP_LEND = 12, /* count */
    JILAKKOR_OP_BACK = 13, /* count */
    JILAKKOR_OP_LOW = 14,
    JILAKKOR_OP_WRITE = 15, /* address, offset: all of bytes is written there */
    JILAKKOR_OP_READ = 16,  /* address, offset, len: answered as jilakkor_read does */
    JILAKKOR_OP_STATS = 17, /* the statistics go to the front of bytes */
    JILAKKOR_OP_BOOT = 18   /* start, length, kind of each entry of the map */
};

/*
 * The call of a number, with the counters as a struct of their own beside all
 * JILAKKOR_WORDS words; it shares no byte with them, and the words' own counters
 * are neither read nor written. Missing numbers count as 0. Answers and is refused
 * as the call is; 17, whatever is lent, where there is no such op, and for a boot
 * whose numbers do not come in threes. A write reads bytes and the statistics are
 * written there, which takes JILAKKOR_STATS_BYTES, else 6; every other call leaves
 * bytes alone, and their length may be 0.
 */
uint32_t jilakkor_call(struct jilakkor_counters *counters,
                       uint64_t *words, size_t words_len, uint8_t *records, size_t records_len,
                       uint8_t *memory, size_t memory_len, uint64_t *queue, size_t queue_len,
                       uint64_t *answer, size_t answer_len, uint64_t op, const uint64_t *numbers, size_t numbers_len,
                       uint8_t *bytes, size_t bytes_len);

#ifdef __cplusplus
}
#endif

#endif
