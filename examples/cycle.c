/* Allocates two linked records, stores and reads through the header, cuts the link, and runs one
 * whole cycle, which frees the record that nothing names any more. It prints what it sees and ends
 * with status 1 where that is not what the calls promise. */
#include <inttypes.h>
#include <stdio.h>
#include <stdlib.h>

#include "heap.h"

#define PAGES 1

static uint64_t arena[HEAP_ARENA_WORDS(PAGES)];
static uint32_t table[HEAP_TABLE_NUMBERS(PAGES)];
static uint64_t bitmaps[HEAP_BITMAP_WORDS(PAGES)];
static uint64_t roots[HEAP_ROOT_WORDS];
static uint64_t values[3];

#define LENT                                                                                       \
    PAGES, arena, HEAP_ARENA_WORDS(PAGES), table, HEAP_TABLE_NUMBERS(PAGES), bitmaps,              \
        HEAP_BITMAP_WORDS(PAGES), roots, HEAP_ROOT_WORDS

/* A call that has to answer `refusal` and, as its first value, `value`. */
static void expect(const char *call, uint64_t answer, uint64_t refusal, uint64_t value) {
    printf("%s: %" PRIu64 ", %" PRIu64 "\n", call, answer, values[0]);
    if (answer != refusal || values[0] != value) {
        printf("expected %" PRIu64 ", %" PRIu64 "\n", refusal, value);
        exit(1);
    }
}

int main(void) {
    expect("audit before setup", heap_audit(LENT, values), HEAP_DAMAGED, 0);
    expect("setup", heap_setup(LENT, values), 0, 0);
    expect("open 0", heap_open(LENT, 0, values), 0, 0);
    /* Two records of 24 bytes with one pointer word each: elements of 32 bytes. */
    expect("alloc", heap_alloc(LENT, 0, 0, 24, 1, values), 0, 8192);
    expect("alloc", heap_alloc(LENT, 0, 1, 24, 1, values), 0, 8224);
    expect("store", heap_store(LENT, 0, 0, 0, 1, values), 0, 0);
    expect("put", heap_put(LENT, 0, 1, 2, 1250, values), 0, 0);
    expect("clear", heap_clear(LENT, 0, 1, values), 0, 0);
    expect("load", heap_load(LENT, 0, 2, 0, 0, values), 0, 8224);
    expect("get", heap_get(LENT, 0, 2, 2, values), 0, 1250);
    expect("field of pointers", heap_get(LENT, 0, 2, 0, values), HEAP_BAD_FIELD, 0);
    expect("slot 2^32", heap_clear(LENT, 0, UINT64_C(1) << 32, values), HEAP_BAD_SLOT, 0);
    /* The second record loses both names: its slot, and the link from the first (slot 5 is nil). */
    expect("clear", heap_clear(LENT, 0, 2, values), 0, 0);
    expect("cut", heap_store(LENT, 0, 0, 0, 5, values), 0, 0);
    expect("start", heap_start(LENT, values), 0, 0);
    expect("scan stack", heap_scan_stack(LENT, 0, values), 0, 1);
    expect("scan globals", heap_scan_globals(LENT, values), 0, 0);
    expect("mark step", heap_mark_step(LENT, values), 0, 8192);
    expect("mark step", heap_mark_step(LENT, values), 0, 0);
    expect("finish", heap_finish(LENT, values), 0, 0);
    expect("sweep step", heap_sweep_step(LENT, values), 0, 1);
    if (values[1] != 1 || values[2] != 0) {
        printf("one element has to be freed and no page returned\n");
        return 1;
    }
    expect("sweep step", heap_sweep_step(LENT, values), 0, 0);
    expect("alloc in its room", heap_alloc(LENT, 0, 3, 24, 1, values), 0, 8224);
    expect("short arena",
           heap_audit(PAGES, arena, HEAP_ARENA_WORDS(PAGES) - 1, table, HEAP_TABLE_NUMBERS(PAGES),
                      bitmaps, HEAP_BITMAP_WORDS(PAGES), roots, HEAP_ROOT_WORDS, values),
           HEAP_BAD_BUFFERS, 0);
    printf("as promised\n");
    return 0;
}
