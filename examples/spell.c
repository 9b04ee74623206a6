/* Spells words tidily and compares them: one endless sequence has many spellings.
 * Run: spell */
#include <mulgreddi.h>
#include <stdio.h>

static void spell(const uint8_t *lead, size_t lead_len, const uint8_t *cycle, size_t cycle_len)
{
    uint8_t out[64];
    mulgreddi_answer a = mulgreddi_tidy_word(lead, lead_len, cycle, cycle_len, out, sizeof out);
    if (a.refusal) {
        printf("refused %llu\n", (unsigned long long)a.refusal);
        return;
    }
    printf("lead-in");
    for (size_t i = 0; i < a.first; i++)
        printf(" %u", out[i]);
    printf(", cycle");
    for (size_t i = 0; i < a.second; i++)
        printf(" %u", out[a.first + i]);
    printf("\n");
}

int main(void)
{
    if (!mulgreddi_version_serves(mulgreddi_version())) {
        fprintf(stderr, "the library is version %u, too old or too new for the header, %u\n", (unsigned)mulgreddi_version(), (unsigned)MULGREDDI_VERSION_NUMBER);
        return 1;
    }
    const uint8_t zero[] = {0}, one_zero[] = {1, 0}, zero_one[] = {0, 1}, two_one[] = {2, 1}, twice[] = {0, 1, 0, 1};
    spell(zero, 1, one_zero, 2);
    spell(zero, 0, zero_one, 2);
    spell(two_one, 2, twice, 4);
    spell(zero, 1, zero, 0);
    mulgreddi_answer a = mulgreddi_same_words(zero, 1, one_zero, 2, zero, 0, zero_one, 2);
    printf("lead-in 0, cycle 1 0 and cycle 0 1: %s\n", a.first ? "the same" : "different");
    a = mulgreddi_same_words(zero, 0, one_zero, 2, zero, 0, zero_one, 2);
    printf("cycle 1 0 and cycle 0 1: %s\n", a.first ? "the same" : "different");
    return 0;
}
