/* Case A from C: judge a listing, ask for a patch, write the patched listing, judge it again. Then the fader, typed; and once more with
   a release and an acquire, which ARMv8 keeps in order. */
#include <stdio.h>

#include <nyekushiro.h>

enum { WRITE = NYEKUSHIRO_NODE_WRITE, READ = NYEKUSHIRO_NODE_READ, NONE = NYEKUSHIRO_NO_SUCCESSOR };
enum { RELEASE = NYEKUSHIRO_NODE_RELEASE, ACQUIRE = NYEKUSHIRO_NODE_ACQUIRE };

static void say(nyekushiro_answer answer, const uint8_t *chain)
{
    if (answer.kind == NYEKUSHIRO_REFUSED && answer.first == NYEKUSHIRO_REFUSED_QUESTION) {
        printf("REFUSED: there is no such question\n");
    } else if (answer.kind == NYEKUSHIRO_REFUSED) {
        printf("REFUSED %llu %llu\n", (unsigned long long)answer.first, (unsigned long long)answer.second);
    } else if (answer.kind == NYEKUSHIRO_ROBUST) {
        printf("ROBUST\n");
    } else {
        printf("OPEN %llu %llu %llu", (unsigned long long)answer.first, (unsigned long long)answer.second,
               (unsigned long long)answer.count);
        for (uint64_t pair = 0; pair < answer.count; pair++)
            printf(" %d-%d", chain[2 * pair], chain[2 * pair + 1]);
        printf("\n");
    }
}

static void type_the_fader(uint8_t *chain)
{
    const char panel_and_mixing[] = "routine { w 1 w 2 } routine { r 2 r 1 }";
    const uint8_t *text = (const uint8_t *)panel_and_mixing;
    const size_t length = sizeof panel_and_mixing - 1;
    uint8_t listing[NYEKUSHIRO_LISTING_BUFFER] = {0};

    nyekushiro_answer typed = nyekushiro_text(text, length, listing, sizeof listing);
    printf("%llu bytes from %llu typed ones\n", (unsigned long long)typed.count, (unsigned long long)length);
    say(nyekushiro_judge(NYEKUSHIRO_X86_ON_ARMV7, listing, typed.count, chain, NYEKUSHIRO_CHAIN_BUFFER), chain);
    /* without its last brace it breaks off */
    say(nyekushiro_text(text, length - 1, listing, sizeof listing), chain);
}

static void release_the_fader(uint8_t *chain)
{
    /* version 2: 0 write x, 1 release y; 2 acquire y, 3 read x */
    const uint8_t listing[31] = {
        0x4F, 0x52, 0x44, 2, 0, 2, 4,
        0, WRITE, 1, 0, 1, NONE,
        0, RELEASE, 2, 0, NONE, NONE,
        1, ACQUIRE, 2, 0, 3, NONE,
        1, READ, 1, 0, NONE, NONE,
    };
    say(nyekushiro_judge(NYEKUSHIRO_SC_ON_ARMV8, listing, sizeof listing, chain, NYEKUSHIRO_CHAIN_BUFFER), chain);
    say(nyekushiro_judge(NYEKUSHIRO_SC_ON_ARMV7, listing, sizeof listing, chain, NYEKUSHIRO_CHAIN_BUFFER), chain);
}

int main(void)
{
    /* 0 write x, 1 read y; 2 write y, 3 read x */
    const uint8_t listing[31] = {
        0x4F, 0x52, 0x44, 1, 0, 2, 4,
        0, WRITE, 1, 0, 1, NONE,
        0, READ, 2, 0, NONE, NONE,
        1, WRITE, 2, 0, 3, NONE,
        1, READ, 1, 0, NONE, NONE,
    };
    uint8_t chain[NYEKUSHIRO_CHAIN_BUFFER] = {0};
    uint8_t map[NYEKUSHIRO_MAP_BUFFER] = {0};
    uint8_t patched[NYEKUSHIRO_LISTING_BUFFER] = {0};

    nyekushiro_answer size = nyekushiro_read(listing, sizeof listing);
    printf("%llu nodes, %llu routines\n", (unsigned long long)size.first, (unsigned long long)size.second);
    say(nyekushiro_judge(NYEKUSHIRO_SC_ON_X86, listing, sizeof listing, chain, sizeof chain), chain);
    say(nyekushiro_judge(7, listing, sizeof listing, chain, sizeof chain), chain);
    say(nyekushiro_judge(NYEKUSHIRO_SC_ON_X86, listing, sizeof listing - 1, chain, sizeof chain), chain);

    nyekushiro_answer proposal = nyekushiro_propose(NYEKUSHIRO_SC_ON_X86, listing, sizeof listing, map, sizeof map);
    printf("%llu places: %d %d %d %d\n", (unsigned long long)proposal.count, map[0], map[1], map[2], map[3]);
    say(nyekushiro_judge_patch(NYEKUSHIRO_SC_ON_X86, listing, sizeof listing, map, 4, chain, sizeof chain), chain);

    nyekushiro_answer written = nyekushiro_write(listing, sizeof listing, map, 4, patched, sizeof patched);
    printf("%llu bytes written\n", (unsigned long long)written.count);
    say(nyekushiro_judge(NYEKUSHIRO_SC_ON_X86, patched, written.count, chain, sizeof chain), chain);

    type_the_fader(chain);
    release_the_fader(chain);
    return 0;
}
