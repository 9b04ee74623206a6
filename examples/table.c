/* Judges a word on the table that is built from a rule: the answer tells in which macrostate its one accepting run begins.
 * Run: table FOLDER */
#include <mulgreddi.h>
#include <stdio.h>

static uint64_t codes[512], transitions[4096];
static uint8_t scratch[512 * MULGREDDI_PLACES_MAX];

int main(int argc, char **argv)
{
    if (!mulgreddi_version_serves(mulgreddi_version())) {
        fprintf(stderr, "the library is version %u, too old or too new for the header, %u\n", (unsigned)mulgreddi_version(), (unsigned)MULGREDDI_VERSION_NUMBER);
        return 1;
    }
    char path[4096];
    uint8_t file[4096];
    snprintf(path, sizeof path, "%s/F.rule", argc > 1 ? argv[1] : ".");
    FILE *f = fopen(path, "rb");
    if (!f) {
        perror(path);
        return 1;
    }
    size_t n = fread(file, 1, sizeof file, f);
    fclose(f);

    mulgreddi_answer built = mulgreddi_build(file, n, codes, 512, transitions, 4096);
    if (built.refusal) {
        printf("refused %llu: %s\n", (unsigned long long)built.refusal, mulgreddi_refusal_text(built.refusal));
        return 1;
    }
    /* a table is read as bytes: 8 for each number that the build has written, and no more */
    const uint8_t lead[] = {0, 1}, cycle[] = {0};
    for (size_t lead_len = 0; lead_len <= 2; lead_len += 2) {
        mulgreddi_answer a = mulgreddi_judge_table(file, n, lead, lead_len, cycle, 1, (const uint8_t *)codes, 8 * built.first,
                                                   (const uint8_t *)transitions, 8 * built.second, scratch, sizeof scratch);
        if (a.first)
            printf("lead-in of %zu letters: yes, from macrostate %llu\n", lead_len, (unsigned long long)a.second);
        else
            printf("lead-in of %zu letters: no\n", lead_len);
    }

    /* the whole room is no table: what the build did not use is zero, and codes ascend */
    mulgreddi_answer a = mulgreddi_judge_table(file, n, lead, 2, cycle, 1, (const uint8_t *)codes, sizeof codes,
                                               (const uint8_t *)transitions, 8 * built.second, scratch, sizeof scratch);
    printf("refused %llu: %s\n", (unsigned long long)a.refusal, mulgreddi_refusal_text(a.refusal));
    return 0;
}
