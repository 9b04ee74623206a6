/* Follows a log without end on rule E, "letter 0 for ever": the set of macrostates is all that is kept, letters come in parts of any length,
 * and the event after which no continuation is accepted is told by its number.
 * Run: endless FOLDER */
#include <mulgreddi.h>
#include <stdio.h>

static uint64_t codes[512], transitions[4096];
static uint8_t file[4096], set[512], letters[1000];

int main(int argc, char **argv)
{
    if (!mulgreddi_version_serves(mulgreddi_version())) {
        fprintf(stderr, "the library is version %u, too old or too new for the header, %u\n", (unsigned)mulgreddi_version(), (unsigned)MULGREDDI_VERSION_NUMBER);
        return 1;
    }
    char path[4096];
    snprintf(path, sizeof path, "%s/E.rule", argc > 1 ? argv[1] : ".");
    FILE *f = fopen(path, "rb");
    if (!f) {
        perror(path);
        return 1;
    }
    size_t len = fread(file, 1, sizeof file, f);
    fclose(f);
    mulgreddi_answer built = mulgreddi_build_trimmed(file, len, codes, 512, transitions, 4096);
    if (built.refusal)
        return 1;
    const uint8_t *c = (const uint8_t *)codes, *t = (const uint8_t *)transitions;
    size_t cs = 8 * built.first, ts = 8 * built.second;

    mulgreddi_answer a = mulgreddi_follow_start(file, len, c, cs, t, ts, set, sizeof set);
    printf("start: %llu of %llu macrostates\n", (unsigned long long)a.first, (unsigned long long)built.first);

    /* a million letters 0 in parts of a thousand, then a 1 as the 400th of the last part */
    uint64_t before = 0;
    for (int part = 0; part <= 1000 && a.first; part++) {
        if (part == 1000)
            letters[399] = 1;
        a = mulgreddi_follow(file, len, letters, sizeof letters, c, cs, t, ts, set, sizeof set);
        if (part == 999)
            printf("%llu letters: %llu left\n", (unsigned long long)before + a.second, (unsigned long long)a.first);
        if (!a.first)
            printf("broken at event %llu, whatever comes\n", (unsigned long long)before + a.second);
        before += a.second;
    }

    /* a letter that is none of the rule's, anywhere in a part: nothing changes */
    letters[7] = 9;
    a = mulgreddi_follow(file, len, letters, sizeof letters, c, cs, t, ts, set, sizeof set);
    printf("refused %llu: %s\n", (unsigned long long)a.refusal, mulgreddi_refusal_text(a.refusal));
    return 0;
}
