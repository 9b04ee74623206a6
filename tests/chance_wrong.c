/* chance_wrong ARGUMENT..: examples/chance.c over tables that are not right. With SPOILT=lost in the environment the table of the
 * accepted words loses its transitions over letter 0, with SPOILT=added it has one more, from another core. */
#define _XOPEN_SOURCE 700
#include <mulgreddi.h>

#include <stdlib.h>
#include <string.h>

static mulgreddi_answer spoilt_build(const uint8_t *file, size_t file_len, uint64_t *codes, size_t codes_count, uint64_t *transitions,
                                     size_t transitions_count)
{
    const char *spoilt = getenv("SPOILT");
    mulgreddi_answer a = mulgreddi_build_trimmed(file, file_len, codes, codes_count, transitions, transitions_count);
    size_t all = a.second;
    for (size_t i = 0; spoilt && strcmp(spoilt, "lost") == 0 && i < all; i++) {
        a.second -= i == 0 ? all : 0;
        if (mulgreddi_letter(transitions[i]) != 0)
            transitions[a.second++] = transitions[i];
    }
    for (uint64_t q = 0; spoilt && strcmp(spoilt, "added") == 0 && q < a.first; q++)
        if ((codes[q] ^ codes[mulgreddi_source(transitions[0])]) << 24 != 0) { /* the first transition, from a macrostate of another core too */
            transitions[a.second++] = q << 24 | (transitions[0] & 0xffffff);
            break;
        }
    return a;
}
#define mulgreddi_build_trimmed spoilt_build
#include "../examples/chance.c"
