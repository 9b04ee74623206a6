/* Mends rule files: one that has a clause inside another is tidied, and of one with a mixed component the shortest mixed loop is shown.
 * Run: mend FOLDER */
#include <mulgreddi.h>
#include <stdio.h>

static size_t load(const char *folder, const char *name, uint8_t *file, size_t room)
{
    char path[4096];
    snprintf(path, sizeof path, "%s/%s", folder, name);
    FILE *f = fopen(path, "rb");
    if (!f) {
        perror(path);
        return 0;
    }
    size_t n = fread(file, 1, room, f);
    fclose(f);
    return n;
}

static void say(const char *what, const uint8_t *file, size_t n)
{
    mulgreddi_answer a = mulgreddi_check(file, n);
    printf("%s:", what);
    for (size_t i = 0; i < n; i++)
        printf(" %02x", file[i]);
    if (a.refusal)
        printf(": refused %llu\n", (unsigned long long)a.refusal);
    else
        printf(": accepted\n");
}

int main(int argc, char **argv)
{
    if (!mulgreddi_version_serves(mulgreddi_version())) {
        fprintf(stderr, "the library is version %u, too old or too new for the header, %u\n", (unsigned)mulgreddi_version(), (unsigned)MULGREDDI_VERSION_NUMBER);
        return 1;
    }
    const char *folder = argc > 1 ? argv[1] : ".";
    uint8_t file[4096], out[4096], loop[MULGREDDI_LONGEST_LOOP];

    size_t n = load(folder, "nested.rule", file, sizeof file);
    say("nested.rule", file, n);
    mulgreddi_answer a = mulgreddi_tidy(file, n, out, sizeof out);
    if (a.refusal)
        return 1;
    say("tidied", out, a.first);

    n = load(folder, "mixed.rule", file, sizeof file);
    say("mixed.rule", file, n);
    a = mulgreddi_mixed_loop(file, n, loop, sizeof loop);
    if (a.refusal)
        return 1;
    unsigned accepting = mulgreddi_accepting_mask(file, n);
    printf("shortest mixed loop:");
    for (size_t i = 0; i < a.first; i++)
        printf(" %u (%s),", loop[i], accepting >> loop[i] & 1 ? "accepting" : "rejecting");
    printf(" and again\n");
    return 0;
}
