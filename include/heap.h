/* A collected heap over memory that the caller lends, one call at a time.
 *
 * Every function takes the number of pages P and four buffers, each as a pointer and a length. The
 * lengths have to be exactly those below; anything else is refused, and a refused call changes no
 * word, but for heap_alloc refused 9. The buffers and `values` must not overlap, and each pointer
 * must be that of `length` words, which may be written where it is not `const`. What the buffers hold
 * is not trusted: every call but heap_setup audits them first.
 *
 *   arena     1024 * P words of 64 bits
 *   table        3 * P numbers of 32 bits
 *   bitmaps     64 * P words of 64 bits
 *   roots          562 words of 64 bits
 *
 * The result is 0 where the call is accepted, or the refusal's number (HEAP_..). `values` takes the
 * answer's three values; those that a call does not have are 0, and all are 0 where it is refused.
 *
 * Every other number is a full 64-bit number: slot 2^32 is refused, never cut to slot 0. A record
 * is named by its address, 8192 + 8 * w for word w of the arena; 0 is nil. A call keeps nothing
 * beyond the buffers: calls on different buffers do not know of one another, and two calls on the
 * same buffers must not run at the same time.
 */
#ifndef SUJAQLIK_HEAP_H
#define SUJAQLIK_HEAP_H

#include <stddef.h>
#include <stdint.h>

#ifdef __cplusplus
extern "C" {
#endif

/* The lengths of the buffers for P pages, 1 to 256. */
#define HEAP_MAX_PAGES 256
#define HEAP_ARENA_WORDS(p) (1024 * (size_t)(p))
#define HEAP_TABLE_NUMBERS(p) (3 * (size_t)(p))
#define HEAP_BITMAP_WORDS(p) (64 * (size_t)(p))
#define HEAP_ROOT_WORDS 562

/* Refusals, in the order in which they are tested; 8 is no refusal any more. */
enum {
    HEAP_BAD_BUFFERS = 1, /* P or a length is not as above */
    HEAP_DAMAGED = 12,    /* the audit says no (not asked by heap_setup) */
    HEAP_WRONG_PHASE = 2, /* the call is not for this phase */
    HEAP_BAD_STACK = 3,   /* number above 15; not open; for opening, already open */
    HEAP_BAD_SLOT = 4,    /* a slot or global above 31 */
    HEAP_BAD_SIZE = 5,    /* size 0 or above 1,048,576, or more pointer words than size / 8 */
    HEAP_NIL = 6,         /* the slot that should name a record holds nil */
    HEAP_BAD_FIELD = 7,   /* field outside the range that the call names */
    HEAP_NO_ROOM = 9,     /* no room, and no unswept span is left that could make some */
    HEAP_UNFINISHED = 10  /* finish with a gray stack, gray globals or a gray record */
};

/* P and the four buffers, as every call takes them: for arena, table, bitmaps and roots in this
 * order `const` where the call never writes, HEAP_WRITES where it may. */
#define HEAP_WRITES
#define HEAP_BUFFERS(of_arena, of_table, of_bitmaps, of_roots)                                     \
    uint64_t p, of_arena uint64_t *arena, size_t arena_length, of_table uint32_t *table,           \
        size_t table_length, of_bitmaps uint64_t *bitmaps, size_t bitmaps_length,                  \
        of_roots uint64_t *roots, size_t roots_length

/* An empty heap: zeroes the page table, the bitmaps and the roots, and leaves the arena alone. */
uint64_t heap_setup(HEAP_BUFFERS(const, HEAP_WRITES, HEAP_WRITES, HEAP_WRITES),
                    uint64_t values[3]);

/* Accepted where the buffers hold a heap; 12 where not. */
uint64_t heap_audit(HEAP_BUFFERS(const, const, const, const),
                    uint64_t values[3]);

/* Open stack s, 0 to 15, with its 32 slots nil; close it. */
uint64_t heap_open(HEAP_BUFFERS(const, const, const, HEAP_WRITES),
                   uint64_t s, uint64_t values[3]);
uint64_t heap_close(HEAP_BUFFERS(const, const, const, HEAP_WRITES),
                    uint64_t s, uint64_t values[3]);

/* A record of `size` bytes whose first `pointers` words hold pointers, all words 0, into slot i of
 * stack s. values[0] is its address. In the sweep phase the call sweeps unswept spans where it needs
 * room; refused 9 it has swept them all, and it is the one refused call that may change words: of
 * the page table and the bitmaps. */
uint64_t heap_alloc(HEAP_BUFFERS(HEAP_WRITES, HEAP_WRITES, HEAP_WRITES, HEAP_WRITES),
                    uint64_t s, uint64_t i, uint64_t size, uint64_t pointers, uint64_t values[3]);

/* Slot i of stack s becomes slot j; it becomes nil. values[0] is the slot's new value. */
uint64_t heap_copy(HEAP_BUFFERS(const, const, const, HEAP_WRITES),
                   uint64_t s, uint64_t i, uint64_t j, uint64_t values[3]);
uint64_t heap_clear(HEAP_BUFFERS(const, const, const, HEAP_WRITES),
                    uint64_t s, uint64_t i, uint64_t values[3]);

/* Slot i of stack s becomes pointer word f of the record in slot j. values[0] is its new value. */
uint64_t heap_load(HEAP_BUFFERS(const, const, const, HEAP_WRITES),
                   uint64_t s, uint64_t i, uint64_t j, uint64_t f, uint64_t values[3]);

/* Pointer word f of the record in slot j of stack s becomes slot k. */
uint64_t heap_store(HEAP_BUFFERS(HEAP_WRITES, const, HEAP_WRITES, const),
                    uint64_t s, uint64_t j, uint64_t f, uint64_t k, uint64_t values[3]);

/* Number word f of the record in slot j of stack s becomes v; values[0] is the number there. The
 * number words come behind the pointer words, up to the element's last word. */
uint64_t heap_put(HEAP_BUFFERS(HEAP_WRITES, const, const, const),
                  uint64_t s, uint64_t j, uint64_t f, uint64_t v, uint64_t values[3]);
uint64_t heap_get(HEAP_BUFFERS(const, const, const, const),
                  uint64_t s, uint64_t j, uint64_t f, uint64_t values[3]);

/* Slot i of stack s becomes global g, 0 to 31 (values[0] is its new value); global g becomes
 * slot i. */
uint64_t heap_load_global(HEAP_BUFFERS(const, const, const, HEAP_WRITES),
                          uint64_t s, uint64_t i, uint64_t g, uint64_t values[3]);
uint64_t heap_store_global(HEAP_BUFFERS(const, const, HEAP_WRITES, HEAP_WRITES),
                           uint64_t s, uint64_t g, uint64_t i, uint64_t values[3]);

/* One cycle: start it; scan each open stack and the globals (values[0] counts the mark bits that
 * turned on); mark steps (values[0] is the record's address) until one answers 0; finish; sweep
 * steps (start page + 1, elements freed, pages returned) until one answers 0, 0, 0. */
uint64_t heap_start(HEAP_BUFFERS(const, const, const, HEAP_WRITES),
                    uint64_t values[3]);
uint64_t heap_scan_stack(HEAP_BUFFERS(const, const, HEAP_WRITES, HEAP_WRITES),
                         uint64_t s, uint64_t values[3]);
uint64_t heap_scan_globals(HEAP_BUFFERS(const, const, HEAP_WRITES, HEAP_WRITES),
                           uint64_t values[3]);
uint64_t heap_mark_step(HEAP_BUFFERS(const, const, HEAP_WRITES, const),
                        uint64_t values[3]);
uint64_t heap_finish(HEAP_BUFFERS(const, HEAP_WRITES, const, HEAP_WRITES),
                     uint64_t values[3]);
uint64_t heap_sweep_step(HEAP_BUFFERS(const, HEAP_WRITES, HEAP_WRITES, HEAP_WRITES),
                         uint64_t values[3]);

#ifdef __cplusplus
}
#endif

#endif
