/* Reads the rule files beside it, writes one of them anew, and compares rules and words.
 * Run: rules FOLDER */
#include <mulgreddi.h>
#include <stdio.h>
#include <string.h>

static uint8_t file[65536];

/* The length of the file FOLDER/NAME, which is then in `file`. */
static size_t load(const char *folder, const char *name)
{
    char path[4096];
    snprintf(path, sizeof path, "%s/%s", folder, name);
    FILE *f = fopen(path, "rb");
    if (!f)
        return 0;
    size_t n = fread(file, 1, sizeof file, f);
    fclose(f);
    return n;
}

int main(int argc, char **argv)
{
    if (!mulgreddi_version_serves(mulgreddi_version())) {
        fprintf(stderr, "the library is version %u, too old or too new for the header, %u\n", (unsigned)mulgreddi_version(), (unsigned)MULGREDDI_VERSION_NUMBER);
        return 1;
    }
    const char *folder = argc > 1 ? argv[1] : ".";
    const char *names[] = {"F.rule", "D.rule", "E.rule", "I.rule", "Z.rule"};
    for (size_t i = 0; i < 5; i++) {
        size_t n = load(folder, names[i]);
        mulgreddi_answer a = mulgreddi_check(file, n);
        printf("%s: refusal %llu, preface of %llu bytes\n", names[i], (unsigned long long)a.refusal, (unsigned long long)a.first);
    }

    /* Rule F, "some time letter 1", from its numbers. */
    const uint8_t counts[] = {1, 1}, clauses[] = {0x01, 0x00};
    uint8_t out[16];
    memset(out, 0xee, sizeof out);
    mulgreddi_answer w = mulgreddi_write(1, 2, 0, 0, counts, sizeof counts, clauses, sizeof clauses, out, sizeof out);
    printf("written: refusal %llu, %llu bytes:", (unsigned long long)w.refusal, (unsigned long long)w.first);
    for (size_t i = 0; i < sizeof out; i++)
        printf(" %02x", out[i]);
    printf("\n");

    size_t n = load(folder, "F.rule");
    mulgreddi_answer same = mulgreddi_same_rules(out, w.first, file, n);
    printf("the file F is the rule that was written: %llu\n", (unsigned long long)same.first);
    n = load(folder, "D.rule");
    same = mulgreddi_same_rules(out, w.first, file, n);
    printf("the file D is: %llu\n", (unsigned long long)same.first);

    /* A rule with a clause that names a state it does not have. */
    const uint8_t wrong[] = {0x02, 0x00};
    w = mulgreddi_write(1, 2, 0, 0, counts, sizeof counts, wrong, sizeof wrong, out, sizeof out);
    printf("a clause out of range: refusal %llu\n", (unsigned long long)w.refusal);

    const uint8_t lead[] = {0, 1}, cycle[] = {0};
    mulgreddi_answer words = mulgreddi_same_words(lead, 2, cycle, 1, lead, 2, cycle, 1);
    printf("a word and itself: %llu\n", (unsigned long long)words.first);
    words = mulgreddi_same_words(lead, 2, cycle, 1, lead, 1, cycle, 1);
    printf("with a shorter lead-in: %llu\n", (unsigned long long)words.first);
    words = mulgreddi_same_words(lead, 2, cycle, 1, lead, 2, cycle, 0);
    printf("with an empty cycle: refusal %llu\n", (unsigned long long)words.refusal);
    return 0;
}
