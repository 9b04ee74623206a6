/* The rooms that tables are built in. */
#include "tool.h"

uint64_t codes[MULGREDDI_MACROSTATES_MAX], transitions[MULGREDDI_TRANSITIONS_MAX];

mulgreddi_answer build_of(const rule *r)
{
    mulgreddi_answer a;
    begin_work("building");
    if (option("trimmed"))
        a = mulgreddi_build_trimmed(r->file.at, r->file.len, codes, MULGREDDI_MACROSTATES_MAX, transitions, MULGREDDI_TRANSITIONS_MAX);
    else
        a = mulgreddi_build(r->file.at, r->file.len, codes, MULGREDDI_MACROSTATES_MAX, transitions, MULGREDDI_TRANSITIONS_MAX);
    end_work();
    return a;
}

uint8_t *low_first(const uint64_t *numbers, uint64_t count)
{
    uint8_t *out = room(8 * count);
    for (uint64_t i = 0; i < 8 * count; i++)
        out[i] = (uint8_t)(numbers[i / 8] >> 8 * (i % 8));
    return out;
}
