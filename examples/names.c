/* Writes rule F, "some time letter 1", with a name for each letter, reads it back and compares it with the rule without names.
 * Run: names */
#include <mulgreddi.h>
#include <stdio.h>

int main(void)
{
    if (!mulgreddi_version_serves(mulgreddi_version())) {
        fprintf(stderr, "the library is version %u, too old or too new for the header, %u\n", (unsigned)mulgreddi_version(), (unsigned)MULGREDDI_VERSION_NUMBER);
        return 1;
    }
    const uint8_t counts[] = {1, 1}, clauses[] = {1, 0};
    const uint8_t names[] = "WAIT    GO      ";
    uint8_t named[64], plain[64];
    mulgreddi_answer a = mulgreddi_write_named(1, 2, 0, 0, counts, 2, clauses, 2, names, 16, named, sizeof named);
    mulgreddi_answer b = mulgreddi_write(1, 2, 0, 0, counts, 2, clauses, 2, plain, sizeof plain);
    if (a.refusal || b.refusal)
        return 1;
    mulgreddi_answer c = mulgreddi_check(named, a.first);
    printf("%llu bytes, preface %llu, of it names %llu\n", (unsigned long long)a.first, (unsigned long long)c.first, (unsigned long long)c.second);
    for (unsigned letter = 0; letter < mulgreddi_letters(named, a.first); letter++)
        printf("letter %u: %.8s\n", letter, mulgreddi_letter_name(named, c, letter));
    a = mulgreddi_same_rules(named, a.first, plain, b.first);
    printf("with and without names: %s\n", a.first ? "the same" : "different");
    a = mulgreddi_write_named(1, 2, 0, 0, counts, 2, clauses, 2, names, 15, named, sizeof named);
    printf("15 name bytes: refused %llu\n", (unsigned long long)a.refusal);
    return 0;
}
