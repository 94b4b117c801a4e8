/* How deep the services reach into the stack, held to limits: each runs on a painted stack of its own, on full listings or on texts, and the
   deepest touched byte is looked for. */
#include <pthread.h>
#include <stdio.h>
#include <stdlib.h>
#include <string.h>

#include "nyekushiro.h"

enum { NODES = NYEKUSHIRO_MAP_BUFFER, HEADING = 7, RECORD = 6, LISTING = NYEKUSHIRO_LISTING_BUFFER, ROOM = 1 << 20, PAINT = 0xA5 };
enum { QUESTIONS = 6, SHAPES = 24, LEVELS = 8, LONG = 64 << 20 };

/* The services, and the bytes of stack that each may take at most. */
enum { THREAD, READ, JUDGE, JUDGE_PATCH, PROPOSE, WRITE, TEXT, SERVICES };
static const struct {
    const char *name;
    size_t most;
} services[SERVICES] = {{"an empty thread", 0},   {"read", 199},  {"judge", 12 << 10}, {"judge_patch", 12 << 10},
                        {"propose", 12 << 10}, {"write", 199}, {"text", 1023}};

static uint8_t listing[LISTING], map[NODES], chain[NYEKUSHIRO_CHAIN_BUFFER], proposed[NODES], written[LISTING];
static size_t listing_length;
static char *text;
static size_t text_length;
static nyekushiro_answer answer;
static uint64_t question;
static int service;
static size_t deepest[SERVICES];
static int shown[QUESTIONS + 1][3]; /* how often judging showed a chain, by question and version */

static void *call(void *unused) {
    (void)unused;
    switch (service) {
    case THREAD: break;
    case READ: answer = nyekushiro_read(listing, listing_length); break;
    case JUDGE: answer = nyekushiro_judge(question, listing, listing_length, chain, sizeof chain); break;
    case JUDGE_PATCH: answer = nyekushiro_judge_patch(question, listing, listing_length, map, listing[6], chain, sizeof chain); break;
    case PROPOSE: answer = nyekushiro_propose(question, listing, listing_length, proposed, sizeof proposed); break;
    case WRITE: answer = nyekushiro_write(listing, listing_length, map, listing[6], written, sizeof written); break;
    case TEXT: answer = nyekushiro_text((const uint8_t *)text, text_length, written, sizeof written); break;
    }
    return NULL;
}

/* Calls the service, and keeps how deep it reached where that is deeper than before. */
static void measure(int called) {
    uint8_t *stack;
    pthread_t thread;
    pthread_attr_t attributes;
    size_t untouched = 0;
    service = called;
    if (posix_memalign((void **)&stack, 4096, ROOM)) exit(2);
    memset(stack, PAINT, ROOM);
    pthread_attr_init(&attributes);
    pthread_attr_setstack(&attributes, stack, ROOM);
    if (pthread_create(&thread, &attributes, call, NULL)) exit(2);
    pthread_join(thread, NULL);
    while (untouched < ROOM && stack[untouched] == PAINT) untouched++;
    pthread_attr_destroy(&attributes);
    free(stack);
    if (ROOM - untouched > deepest[called]) deepest[called] = ROOM - untouched;
}

/* The kinds of version 2's nodes in turn: every access, load and store fences. */
static const uint8_t version_2[] = {
    NYEKUSHIRO_NODE_WRITE,   NYEKUSHIRO_NODE_STORE_FENCE, NYEKUSHIRO_NODE_WRITE, NYEKUSHIRO_NODE_READ,
    NYEKUSHIRO_NODE_READ,    NYEKUSHIRO_NODE_LOAD_FENCE,  NYEKUSHIRO_NODE_READ,  NYEKUSHIRO_NODE_RELEASE,
    NYEKUSHIRO_NODE_ACQUIRE, NYEKUSHIRO_NODE_ACQUIRE_PC,  NYEKUSHIRO_NODE_RMW,
};

/* Routines of 8 nodes in a line; the cells by `cells`, and the last node of a routine leads back where `loops` is set. */
static void fill(int version, int nodes, int cells, int loops) {
    memcpy(listing, "ORD\1\0\20", 6);
    listing[3] = (uint8_t)version;
    listing[6] = (uint8_t)nodes;
    for (int i = 0; i < nodes; i++) {
        uint8_t *record = listing + HEADING + RECORD * i;
        int last = i % 8 == 7 || i == nodes - 1;
        record[0] = (uint8_t)(i / 8);
        record[1] = version == 1 ? (uint8_t)(1 + (i * 7 / 3) % 3) : version_2[(size_t)i % sizeof version_2];
        int fence = record[1] == NYEKUSHIRO_NODE_LOAD_FENCE || record[1] == NYEKUSHIRO_NODE_STORE_FENCE;
        record[2] = (uint8_t)(fence ? 0 : 1 + i * 5 % cells);
        record[3] = 0;
        record[4] = (uint8_t)(last ? (loops ? i / 8 * 8 : 255) : i + 1);
        record[5] = 255;
    }
    listing_length = (size_t)(HEADING + RECORD * nodes);
}

static void measure_listings(void) {
    for (int shape = 0; shape < SHAPES; shape++) {
        int version = 1 + shape / (SHAPES / 2), of_version = shape % (SHAPES / 2);
        fill(version, shape % 2 ? NODES : NODES - 16, 2 + of_version * of_version, shape % 3 == 0);
        memset(map, 0, sizeof map);
        if (shape % 2 == 0) memset(map, 1, 16);
        for (question = 1; question <= QUESTIONS; question++)
            for (int called = THREAD; called <= WRITE; called++) {
                measure(called);
                shown[question][version] += called == JUDGE && answer.kind == NYEKUSHIRO_OPEN;
                /* a full listing takes no further fence, and propose says so only once it has looked at every pair */
                int full = called == PROPOSE && answer.kind == NYEKUSHIRO_REFUSED && answer.first == NYEKUSHIRO_REFUSED_PLACES;
                if (answer.kind == NYEKUSHIRO_REFUSED && !full) {
                    printf("%s refused listing %d: nothing was measured\n", services[called].name, shape);
                    exit(1);
                }
            }
    }
}

static void add(const char *words) {
    size_t length = strlen(words);
    memcpy(text + text_length, words, length);
    text_length += length;
}

/* A block of so many levels more: an item, and at its end a loop ('l') or an either with the rest in its first or second block ('1', '2'),
   as `kinds` says in turn. */
static void add_block(int levels, const char *kinds, int at) {
    char kind = kinds[at % (int)strlen(kinds)];
    add("{ r 65535 ");
    if (levels > 0) {
        add(kind == 'l' ? "loop " : "either ");
        if (kind == '2') add("{ f } ");
        add_block(levels - 1, kinds, at + 1);
        if (kind == '1') add("{ f } ");
    }
    add("} ");
}

/* Measures the text; its answer must be that refusal, or a listing for 0. */
static void measure_text(const char *name, uint64_t refusal) {
    measure(TEXT);
    if (answer.first != refusal || answer.kind != (refusal ? NYEKUSHIRO_REFUSED : NYEKUSHIRO_DONE)) {
        printf("text, %s: answered otherwise than it must be\n", name);
        exit(1);
    }
}

static void measure_texts(void) {
    static const char *kinds[] = {"1", "2", "l", "1l", "2l", "12", "l12"};
    text = malloc(LONG + 64);
    if (!text) exit(2);
    for (size_t i = 0; i < sizeof kinds / sizeof *kinds; i++)
        for (int levels = 0; levels <= LEVELS + 1; levels++) {
            text_length = 0;
            for (int part = 0; part < 3; part++) add("routine "), add_block(levels, kinds[i], part);
            measure_text(kinds[i], levels > LEVELS ? NYEKUSHIRO_REFUSED_TEXT : 0);
            text_length -= 2;
            measure_text("broken off", NYEKUSHIRO_REFUSED_TEXT);
        }
    text_length = 0, add("routine { ");
    while (text_length < LONG) add("r 1 ");
    add("}"), measure_text("64 MiB of items", NYEKUSHIRO_REFUSED_NODES);
    memset(text, 'r', LONG), text_length = LONG, measure_text("a word of 64 MiB", NYEKUSHIRO_REFUSED_TEXT);
    memset(text, ' ', LONG), text_length = LONG, add("routine "), add_block(LEVELS, "12", 0), measure_text("64 MiB of blanks", 0);
    free(text);
}

int main(void) {
    int over = 0;
    measure_listings();
    for (question = 1; question <= QUESTIONS; question++)
        for (int version = 1; version <= 2; version++)
            if (!shown[question][version]) {
                printf("question %d, version %d: judge showed no chain, and how deep that reaches was not measured\n", (int)question, version);
                return 1;
            }
    measure_texts();
    for (int i = READ; i < SERVICES; i++) {
        if (deepest[i] < deepest[THREAD]) {
            printf("%s: less stack than an empty thread touches\n", services[i].name);
            return 1;
        }
        size_t taken = deepest[i] - deepest[THREAD];
        over += taken > services[i].most;
        printf("%s: %zu bytes of stack, %s %zu\n", services[i].name, taken, taken > services[i].most ? "MORE THAN" : "at most", services[i].most);
    }
    return over > 0;
}
