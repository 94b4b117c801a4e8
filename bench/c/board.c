/* Every service where there is no operating system, no C library and no heap: linked with nothing but the two functions below.
   The fader is typed, judged, proposed for, judged with that map and written; and judged for ARMv8 with its fences in version 2. */
#include <nyekushiro.h>

/* All that the archive asks of a board. A compiler would make these loops calls of themselves, if it weren't told not to. */
void *memcpy(void *to, const void *from, size_t n) {
    for (size_t i = 0; i < n; i++) ((volatile uint8_t *)to)[i] = ((const uint8_t *)from)[i];
    return to;
}

void *memset(void *to, int byte, size_t n) {
    for (size_t i = 0; i < n; i++) ((volatile uint8_t *)to)[i] = (uint8_t)byte;
    return to;
}

static const char fader[] = "routine { w 1 w 2 } routine { r 2 r 1 }";
static uint8_t listing[NYEKUSHIRO_LISTING_BUFFER], written[NYEKUSHIRO_LISTING_BUFFER];
static uint8_t map[NYEKUSHIRO_MAP_BUFFER], chain[NYEKUSHIRO_CHAIN_BUFFER];

/* The number of the first service that answers otherwise than it must, 0 where none does. */
static int first_wrong(void) {
    enum { QUESTION = NYEKUSHIRO_X86_ON_ARMV7, NODES = 4, LENGTH = 7 + 6 * NODES };
    nyekushiro_answer a = nyekushiro_text((const uint8_t *)fader, sizeof fader - 1, listing, sizeof listing);
    if (a.kind != NYEKUSHIRO_DONE || a.count != LENGTH) return 1;
    a = nyekushiro_read(listing, LENGTH);
    if (a.kind != NYEKUSHIRO_DONE || a.first != NODES || a.second != 2) return 2;
    a = nyekushiro_judge(QUESTION, listing, LENGTH, chain, sizeof chain);
    if (a.kind != NYEKUSHIRO_OPEN || a.first != 0 || a.second != 1 || a.count != 2 || chain[2] != 2 || chain[3] != 3) return 3;
    a = nyekushiro_propose(QUESTION, listing, LENGTH, map, sizeof map);
    if (a.kind != NYEKUSHIRO_DONE || a.count != 2 || !map[0] || map[1] || !map[2] || map[3]) return 4;
    a = nyekushiro_judge_patch(QUESTION, listing, LENGTH, map, NODES, chain, sizeof chain);
    if (a.kind != NYEKUSHIRO_ROBUST) return 5;
    a = nyekushiro_write(listing, LENGTH, map, NODES, written, sizeof written);
    if (a.kind != NYEKUSHIRO_DONE || a.count != LENGTH + 2 * 6) return 6;
    /* a store fence is enough between the two writes, and a load fence between the two reads */
    written[3] = 2;
    written[LENGTH + 1] = NYEKUSHIRO_NODE_STORE_FENCE;
    written[LENGTH + 6 + 1] = NYEKUSHIRO_NODE_LOAD_FENCE;
    a = nyekushiro_judge(NYEKUSHIRO_SC_ON_ARMV8, written, LENGTH + 2 * 6, chain, sizeof chain);
    if (a.kind != NYEKUSHIRO_ROBUST) return 3;
    a = nyekushiro_judge(NYEKUSHIRO_SC_ON_ARMV7, written, LENGTH + 2 * 6, chain, sizeof chain);
    if (a.kind != NYEKUSHIRO_OPEN || a.first != 0 || a.second != 1) return 3;
    return 0;
}

/* A board would go on; here Linux is told how it went, by its call 60, exit. */
__attribute__((force_align_arg_pointer, noreturn)) void _start(void) {
    __asm__ volatile("syscall" : : "a"(60), "D"(first_wrong()));
    __builtin_unreachable();
}
