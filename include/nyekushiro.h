/* nyekushiro.h: the proved judge of memory fences, for C and C++.
 *
 * What each service answers is proved to be what the rules (docs/RULES.md) give. The archive libnyekushiro.a is for x86-64 Linux.
 * docs/ and examples/ are those of the repository.
 * `tools/install PREFIX` puts it, this header and a pkg-config file under PREFIX; then
 *
 *     cc FILE.c $(PKG_CONFIG_PATH=PREFIX/lib/pkgconfig pkg-config --cflags --libs nyekushiro)
 *
 * Every service takes any bytes of any length and any question. What it asks of its caller:
 * - a pointer is not null, even where its length is 0;
 * - it points to at least as many bytes as its length says;
 * - a lent buffer overlaps no other argument.
 * No call that was measured took more than 12 KiB of stack (docs/DECISIONS.md, "Stack"); no theorem bounds it. Of its surroundings the archive
 * needs memcpy and memset: no heap, no floating point, no operating system.
 *
 * A refusal leaves every lent buffer as it was. Bytes of a lent buffer beyond what is said here keep their values.
 */
#ifndef NYEKUSHIRO_H
#define NYEKUSHIRO_H

#include <stddef.h>
#include <stdint.h>

#define NYEKUSHIRO_VERSION "1.5.0"
#define NYEKUSHIRO_VERSION_MAJOR 1
#define NYEKUSHIRO_VERSION_MINOR 5
#define NYEKUSHIRO_VERSION_PATCH 0

#ifdef __cplusplus
extern "C" {
#endif

/* What a service answers; the fields that its comment does not name are 0. */
typedef struct {
    uint64_t kind;   /* one of enum nyekushiro_kind */
    uint64_t first;  /* REFUSED: one of enum nyekushiro_refusal */
    uint64_t second; /* REFUSED: its place, where one is named there, else 0 */
    uint64_t count;
} nyekushiro_answer;

enum nyekushiro_kind {
    NYEKUSHIRO_DONE = 0,
    NYEKUSHIRO_ROBUST = 0,
    NYEKUSHIRO_OPEN = 1,
    NYEKUSHIRO_REFUSED = 2
};

/* Why a service refuses, and in brackets what its place is: a node of the listing, an index of the map, or a byte of the text, or its length.
 * The checks run in the order of these numbers, but 18 after 12 and before 13, and 17 before 5. */
enum nyekushiro_refusal {
    NYEKUSHIRO_REFUSED_QUESTION = 1,          /* question not 1 to 6 */
    NYEKUSHIRO_REFUSED_HEADING = 2,           /* fewer than 7 bytes */
    NYEKUSHIRO_REFUSED_MARK = 3,              /* mark wrong */
    NYEKUSHIRO_REFUSED_VERSION = 4,           /* version not 1 or 2 */
    NYEKUSHIRO_REFUSED_ROUTINES = 5,          /* F is 0 or over 16 */
    NYEKUSHIRO_REFUSED_NODES = 6,             /* N over 128 */
    NYEKUSHIRO_REFUSED_LENGTH = 7,            /* length not 7 + 6N */
    NYEKUSHIRO_REFUSED_ROUTINE = 8,           /* node's routine not below F [node] */
    NYEKUSHIRO_REFUSED_KIND = 9,              /* kind over 4 in version 1, over 9 in version 2 [node] */
    NYEKUSHIRO_REFUSED_LOCATION = 10,         /* kind 0, 4, 7 or 8 with a location other than 0 [node] */
    NYEKUSHIRO_REFUSED_SUCCESSOR = 11,        /* successor neither 255 nor below N, or in another routine [node] */
    NYEKUSHIRO_REFUSED_SECOND_SUCCESSOR = 12, /* second successor without a first, or not larger than it [node] */
    NYEKUSHIRO_REFUSED_MAP_LENGTH = 13,       /* map length not N */
    NYEKUSHIRO_REFUSED_MAP_BYTE = 14,         /* map byte not 0 or 1 [index] */
    NYEKUSHIRO_REFUSED_PLACES = 15,           /* N + places over 128 */
    NYEKUSHIRO_REFUSED_BUFFER = 16,           /* lent output buffer too short */
    NYEKUSHIRO_REFUSED_TEXT = 17,             /* bad text [byte] */
    NYEKUSHIRO_REFUSED_UNREACHED = 18         /* node neither its routine's entry nor reached from it [node] */
};

/* The questions. Each may be asked of a listing of either version. */
enum nyekushiro_question {
    NYEKUSHIRO_SC_ON_X86 = 1,
    NYEKUSHIRO_SC_ON_ARMV7 = 2,
    NYEKUSHIRO_X86_ON_ARMV7 = 3,
    NYEKUSHIRO_ARMV8_ON_ARMV7 = 4,
    NYEKUSHIRO_SC_ON_ARMV8 = 5,
    NYEKUSHIRO_X86_ON_ARMV8 = 6
};

/* Room that is enough for every listing: for a chain, a map, and a listing. */
enum nyekushiro_room {
    NYEKUSHIRO_CHAIN_BUFFER = 258,
    NYEKUSHIRO_MAP_BUFFER = 128,
    NYEKUSHIRO_LISTING_BUFFER = 775
};

/* The kinds of nodes in a listing, whose format is docs/LISTING.md. Those after the fence are for listings of version 2, whose byte 3
 * is 2. Under the questions 5 and 6 they say what ARMv8 keeps in order; under the others acquire and acquirePC count as reads, a
 * release counts as a write, and load and store fences count as plain.
 *
 * An RMW always completes. A compare-and-swap that may fail is no barrier under question 1, and listed as an RMW it wrongly counts
 * as one. Until there is a kind for it, write a plain node with two successors, the RMW and a read of the same cell, which both
 * lead on; examples/may-fail.txt is one.
 *
 * Whoever writes a shared cell while the routines run must be in the listing, be it a loader or a device that writes it once: reads
 * of a cell that nobody in the listing writes are taken not to matter.
 *
 * The lowest-numbered node of a routine is its entry. Every other node must be reached from it by successors; the lowest one that is not
 * is refused by NYEKUSHIRO_REFUSED_UNREACHED. */
enum nyekushiro_node {
    NYEKUSHIRO_NODE_PLAIN = 0,
    NYEKUSHIRO_NODE_READ = 1,
    NYEKUSHIRO_NODE_WRITE = 2,
    NYEKUSHIRO_NODE_RMW = 3,
    NYEKUSHIRO_NODE_FENCE = 4,
    NYEKUSHIRO_NODE_ACQUIRE = 5,
    NYEKUSHIRO_NODE_RELEASE = 6,
    NYEKUSHIRO_NODE_LOAD_FENCE = 7,
    NYEKUSHIRO_NODE_STORE_FENCE = 8,
    NYEKUSHIRO_NODE_ACQUIRE_PC = 9
};

enum nyekushiro_mark {
    NYEKUSHIRO_UNKNOWN_LOCATION = 0, /* of an access: may be any cell */
    NYEKUSHIRO_NO_SUCCESSOR = 255
};

/* Reads a listing. DONE: first = the number of nodes N, second = the number of routines F. */
nyekushiro_answer nyekushiro_read(const uint8_t *listing, size_t listing_len);

/* Judges a listing. ROBUST, or OPEN: first and second = the nodes of the first failing pair, count = the number of pairs in its
 * chain, which is put as two bytes a pair at the start of `chain`. ROBUST writes nothing.
 * `chain` must have 258 bytes, also where the answer is ROBUST. */
nyekushiro_answer nyekushiro_judge(uint64_t question, const uint8_t *listing, size_t listing_len,
                                   uint8_t *chain, size_t chain_len);

/* Judges a listing with a fence after every node whose byte of `map` is 1; the other bytes are 0, and there are N of them.
 * Answers as nyekushiro_judge, in the old node numbers. The patch is accepted if the answer is ROBUST. */
nyekushiro_answer nyekushiro_judge_patch(uint64_t question, const uint8_t *listing, size_t listing_len,
                                         const uint8_t *map, size_t map_len, uint8_t *chain, size_t chain_len);

/* Proposes a patch. DONE: the first N bytes of `map` hold 1 for the first node of every failing pair and 0 elsewhere,
 * count = how many hold 1. `map` must have N bytes. */
nyekushiro_answer nyekushiro_propose(uint64_t question, const uint8_t *listing, size_t listing_len,
                                     uint8_t *map, size_t map_len);

/* Writes the patched listing, in the version that it has; a fence put in is NYEKUSHIRO_NODE_FENCE. DONE: count = its length,
 * 7 + 6(N + places), and so many bytes at the start of `out` are it. `out` must have that many. */
nyekushiro_answer nyekushiro_write(const uint8_t *listing, size_t listing_len, const uint8_t *map, size_t map_len,
                                   uint8_t *out, size_t out_len);

/* Reads a typed text, parts `routine { block }` (docs/LISTING.md), and writes its version 1 listing. DONE: count = its length, 7 + 6N, and
 * so many bytes at the start of `out` are it. `out` must have that many.
 * REFUSED by NYEKUSHIRO_REFUSED_TEXT: second = the first byte of the first word that can't stand there, or text_len if the text
 * breaks off; then by _ROUTINES if it has no words or more than 16 parts, by _NODES and by _BUFFER. */
nyekushiro_answer nyekushiro_text(const uint8_t *text, size_t text_len, uint8_t *out, size_t out_len);

#ifdef __cplusplus
}
#endif

#endif
