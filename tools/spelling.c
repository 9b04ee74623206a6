/* The tidy spelling of a word of any length; the library's takes 32 letters of lead-in and of cycle. */
#include "tool.h"

#include <stdlib.h>
#include <string.h>

/* The length of the shortest word that, repeated, is the cycle: it divides the cycle's length. */
static size_t shortest_cycle(const uint8_t *cycle, size_t length)
{
    size_t period = 1;
    while (period < length && (length % period != 0 || memcmp(cycle, cycle + period, length - period) != 0))
        period++;
    return period;
}

void tidy_spelling(word *w)
{
    size_t period = shortest_cycle(w->cycle, w->cycle_len), rolled = 0;
    /* a last letter of the lead-in that is the cycle's last goes into the cycle, whose last letter then comes first */
    while (rolled < w->lead_len && w->lead[w->lead_len - 1 - rolled] == w->cycle[period - 1 - rolled % period])
        rolled++;
    uint8_t *turned = room(period);
    for (size_t i = 0; i < period; i++)
        turned[i] = w->cycle[(i + period - rolled % period) % period];
    memcpy(w->cycle, turned, period);
    free(turned);
    w->lead_len -= rolled;
    w->cycle_len = period;
}
