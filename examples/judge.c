/* Judges duty words on rule I, "letter 1 again and again", and prints for each place the states from which the rule accepts.
 * Run: judge FOLDER */
#include <mulgreddi.h>
#include <stdio.h>

static void judge(const uint8_t *file, size_t file_len, const uint8_t *lead, size_t lead_len, const uint8_t *cycle, size_t cycle_len)
{
    uint8_t masks[64];
    mulgreddi_answer a = mulgreddi_judge(file, file_len, lead, lead_len, cycle, cycle_len, masks, sizeof masks);
    printf("lead-in");
    for (size_t i = 0; i < lead_len; i++)
        printf(" %u", lead[i]);
    printf(", cycle");
    for (size_t i = 0; i < cycle_len; i++)
        printf(" %u", cycle[i]);
    if (a.refusal) {
        printf(": refused %llu\n", (unsigned long long)a.refusal);
        return;
    }
    printf(": %s, masks", a.first ? "yes" : "no");
    for (size_t i = 0; i < lead_len + cycle_len; i++)
        printf(" %02x", masks[i]);
    printf("\n");
}

int main(int argc, char **argv)
{
    if (!mulgreddi_version_serves(mulgreddi_version())) {
        fprintf(stderr, "the library is version %u, too old or too new for the header, %u\n", (unsigned)mulgreddi_version(), (unsigned)MULGREDDI_VERSION_NUMBER);
        return 1;
    }
    char path[4096];
    snprintf(path, sizeof path, "%s/I.rule", argc > 1 ? argv[1] : ".");
    FILE *f = fopen(path, "rb");
    if (!f) {
        perror(path);
        return 1;
    }
    uint8_t file[4096];
    size_t n = fread(file, 1, sizeof file, f);
    fclose(f);

    const uint8_t zero[] = {0}, one[] = {1}, both[] = {0, 1}, two[] = {2};
    judge(file, n, one, 1, zero, 1);
    judge(file, n, zero, 0, both, 2);
    judge(file, n, both, 2, one, 1);
    judge(file, n, one, 1, two, 1);
    return 0;
}
