/* The services for another processor than x86-64, for measuring: the compiled module takes where its answer goes as a first
   argument, which is how x86-64 returns a struct of this size and no other processor does. bench/host-archive renames its functions. */
#include "nyekushiro.h"

void *host_read(nyekushiro_answer *, const uint8_t *, size_t);
void *host_judge(nyekushiro_answer *, uint64_t, const uint8_t *, size_t, uint8_t *, size_t);
void *host_judge_patch(nyekushiro_answer *, uint64_t, const uint8_t *, size_t, const uint8_t *, size_t, uint8_t *, size_t);
void *host_propose(nyekushiro_answer *, uint64_t, const uint8_t *, size_t, uint8_t *, size_t);
void *host_write(nyekushiro_answer *, const uint8_t *, size_t, const uint8_t *, size_t, uint8_t *, size_t);
void *host_text(nyekushiro_answer *, const uint8_t *, size_t, uint8_t *, size_t);

nyekushiro_answer nyekushiro_read(const uint8_t *listing, size_t listing_len)
{
    nyekushiro_answer answer;
    host_read(&answer, listing, listing_len);
    return answer;
}

nyekushiro_answer nyekushiro_judge(uint64_t question, const uint8_t *listing, size_t listing_len,
                                   uint8_t *chain, size_t chain_len)
{
    nyekushiro_answer answer;
    host_judge(&answer, question, listing, listing_len, chain, chain_len);
    return answer;
}

nyekushiro_answer nyekushiro_judge_patch(uint64_t question, const uint8_t *listing, size_t listing_len,
                                         const uint8_t *map, size_t map_len, uint8_t *chain, size_t chain_len)
{
    nyekushiro_answer answer;
    host_judge_patch(&answer, question, listing, listing_len, map, map_len, chain, chain_len);
    return answer;
}

nyekushiro_answer nyekushiro_propose(uint64_t question, const uint8_t *listing, size_t listing_len,
                                     uint8_t *map, size_t map_len)
{
    nyekushiro_answer answer;
    host_propose(&answer, question, listing, listing_len, map, map_len);
    return answer;
}

nyekushiro_answer nyekushiro_write(const uint8_t *listing, size_t listing_len, const uint8_t *map, size_t map_len,
                                   uint8_t *out, size_t out_len)
{
    nyekushiro_answer answer;
    host_write(&answer, listing, listing_len, map, map_len, out, out_len);
    return answer;
}

nyekushiro_answer nyekushiro_text(const uint8_t *text, size_t text_len, uint8_t *out, size_t out_len)
{
    nyekushiro_answer answer;
    host_text(&answer, text, text_len, out, out_len);
    return answer;
}
