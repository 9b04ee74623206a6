/* The command line's tidy spelling beside the library's, which takes 32 letters of each part: all words over two letters with up to 5 letters
 * of lead-in and 7 of cycle, and words of 32. Longer words are held to what tidy means: the same sequence, no shorter cycle, no shorter
 * lead-in. */
#include "tool.h"

#include <stdlib.h>
#include <string.h>

enum { MOST = 300 };

void *room(size_t size)
{
    void *at = calloc(size, 1);
    if (!at)
        abort();
    return at;
}

static uint8_t letter_at(const uint8_t *lead, size_t lead_len, const uint8_t *cycle, size_t cycle_len, size_t step)
{
    return step < lead_len ? lead[step] : cycle[(step - lead_len) % cycle_len];
}

/* Whether from step `from` on the word repeats with this period. */
static int repeats(const uint8_t *lead, size_t lead_len, const uint8_t *cycle, size_t cycle_len, size_t from, size_t period)
{
    for (size_t i = from; i < from + lead_len + period * cycle_len; i++)
        if (letter_at(lead, lead_len, cycle, cycle_len, i) != letter_at(lead, lead_len, cycle, cycle_len, i + period))
            return 0;
    return 1;
}

static void fail(const char *what, size_t lead_len, size_t cycle_len)
{
    fprintf(stderr, "spelling: lead-in %zu, cycle %zu: %s\n", lead_len, cycle_len, what);
    exit(1);
}

static void try_word(const uint8_t *letters, size_t lead_len, size_t cycle_len)
{
    uint8_t own[MOST], out[MULGREDDI_PLACES_MAX];
    const uint8_t *cycle = letters + lead_len;
    memcpy(own, letters, lead_len + cycle_len);
    word w = {lead_len, cycle_len, own, own + lead_len};
    tidy_spelling(&w);
    if (lead_len <= MULGREDDI_LEAD_MAX && cycle_len <= MULGREDDI_CYCLE_MAX) {
        mulgreddi_answer a = mulgreddi_tidy_word(letters, lead_len, cycle, cycle_len, out, sizeof out);
        if (a.refusal || a.first != w.lead_len || a.second != w.cycle_len || memcmp(out, w.lead, w.lead_len) != 0
            || memcmp(out + a.first, w.cycle, w.cycle_len) != 0)
            fail("not the library's", lead_len, cycle_len);
        return;
    }
    for (size_t i = 0; i < lead_len + 2 * cycle_len; i++)
        if (letter_at(letters, lead_len, cycle, cycle_len, i) != letter_at(w.lead, w.lead_len, w.cycle, w.cycle_len, i))
            fail("another sequence", lead_len, cycle_len);
    for (size_t period = 1; period < w.cycle_len; period++)
        if (repeats(letters, lead_len, cycle, cycle_len, lead_len, period))
            fail("a shorter cycle", lead_len, cycle_len);
    if (w.lead_len > 0 && repeats(letters, lead_len, cycle, cycle_len, w.lead_len - 1, w.cycle_len))
        fail("a shorter lead-in", lead_len, cycle_len);
}

static uint32_t seed = 1;

static size_t below(size_t bound)
{
    seed = seed * 1664525u + 1013904223u;
    return (seed >> 8) % bound;
}

int main(void)
{
    uint8_t letters[MOST];
    size_t small = 0, large = 0;
    for (size_t lead = 0; lead <= 5; lead++)
        for (size_t cycle = 1; cycle <= 7; cycle++)
            for (unsigned bits = 0; bits < 1u << (lead + cycle); bits++, small++) {
                for (size_t i = 0; i < lead + cycle; i++)
                    letters[i] = bits >> i & 1;
                try_word(letters, lead, cycle);
            }
    for (; large < 4000; large++) {
        /* a short word repeated, so that there is something to tidy, now and then with a letter changed */
        size_t period = 1 + below(9), most = large % 2 ? 32 : 99, lead = below(most + 1), cycle = 1 + below(most);
        if (below(3))
            cycle = period * (1 + below(most / period));
        for (size_t i = 0; i < lead + cycle; i++)
            letters[i] = (uint8_t)(i < period ? below(2) : letters[i - period]);
        if (below(3) == 0)
            letters[below(lead + cycle)] ^= 1;
        try_word(letters, lead, cycle);
    }
    printf("spelling: %zu words of all and %zu at random, tidy as by the library, or by what tidy means\n", small, large);
    return 0;
}
