/* Judges a month's sheet of duty words on rule I, "letter 1 again and again": a line a word, then how many cycles had to be filled.
 * Run: month FOLDER */
#include <mulgreddi.h>
#include <stdio.h>

static size_t load(const char *folder, const char *name, uint8_t *bytes, size_t room)
{
    char path[4096];
    snprintf(path, sizeof path, "%s/%s", folder, name);
    FILE *f = fopen(path, "rb");
    if (!f) {
        perror(path);
        return 0;
    }
    size_t n = fread(bytes, 1, room, f);
    fclose(f);
    return n;
}

int main(int argc, char **argv)
{
    if (!mulgreddi_version_serves(mulgreddi_version())) {
        fprintf(stderr, "the library is version %u, too old or too new for the header, %u\n", (unsigned)mulgreddi_version(), (unsigned)MULGREDDI_VERSION_NUMBER);
        return 1;
    }
    const char *folder = argc > 1 ? argv[1] : ".";
    uint8_t file[4096], answers[64], masks[64 * 64];
    size_t file_len = load(folder, "I.rule", file, sizeof file);

    /* for each word two length bytes, lead-in and cycle, then its letters */
    const uint8_t sheet[] = {
        0, 2, 0, 1,       /* cycle 0 1 */
        1, 2, 0, 1, 0,    /* the same sequence: lead-in 0, cycle 1 0 */
        3, 4, 1, 0, 0, 0, 1, 0, 1, /* lead-in 1 0 0, and the cycle 0 1 spelled twice */
        1, 1, 1, 0,       /* lead-in 1, cycle 0 */
        0, 1, 0,          /* cycle 0 alone */
        2, 0, 1, 1,       /* no cycle: 12 */
        0, 1, 2,          /* letter 2, and the rule has 0 and 1: 14 */
        0, 2, 1,          /* the sheet's end cuts the word off: 13 */
    };
    mulgreddi_answer a = mulgreddi_judge_sheet(file, file_len, sheet, sizeof sheet, answers, sizeof answers, masks, sizeof masks);
    if (a.refusal) {
        printf("refused %llu\n", (unsigned long long)a.refusal);
        return 0;
    }
    size_t at = 0;
    for (size_t i = 0; i < a.first; i++) {
        size_t lead = sheet[at], cycle = at + 1 < sizeof sheet ? sheet[at + 1] : 0;
        printf("word %zu: ", i);
        if (answers[i] > 1)
            printf("faulty, %u\n", answers[i]);
        else {
            printf("%s, masks", answers[i] ? "yes" : "no");
            for (size_t p = 0; p < lead + cycle; p++)
                printf(" %02x", masks[64 * i + p]);
            printf("\n");
        }
        at += 2 + lead + cycle;
    }
    printf("%llu words, %llu cycles filled\n", (unsigned long long)a.first, (unsigned long long)a.second);

    /* 65 words of one letter */
    uint8_t many[65 * 3];
    for (size_t i = 0; i < 65; i++) {
        many[3 * i] = 0;
        many[3 * i + 1] = 1;
        many[3 * i + 2] = 1;
    }
    a = mulgreddi_judge_sheet(file, file_len, many, sizeof many, answers, sizeof answers, masks, sizeof masks);
    printf("65 words: refused %llu\n", (unsigned long long)a.refusal);
    return 0;
}
