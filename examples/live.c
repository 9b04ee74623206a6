/* Follows a log live on rule D, and on rule E, "letter 0 for ever": after each event it says whether a continuation is left that the rule
 * accepts. Then a drill: marks a moment, tries a branch, comes back.
 * Run: live FOLDER */
#include <mulgreddi.h>
#include <stdio.h>

static uint64_t codes[512], transitions[4096];
static uint8_t file[4096], state[MULGREDDI_LIVE_STATE], set[512];
static size_t file_len, codes_bytes, transitions_bytes;

/* reads a rule and builds its trimmed table; 0 if it is refused */
static int load(const char *folder, const char *name)
{
    char path[4096];
    snprintf(path, sizeof path, "%s/%s", folder, name);
    FILE *f = fopen(path, "rb");
    if (!f) {
        perror(path);
        return 0;
    }
    file_len = fread(file, 1, sizeof file, f);
    fclose(f);
    mulgreddi_answer built = mulgreddi_build_trimmed(file, file_len, codes, 512, transitions, 4096);
    codes_bytes = 8 * built.first;
    transitions_bytes = 8 * built.second;
    printf("%s: %llu macrostates, %llu transitions\n", name, (unsigned long long)built.first, (unsigned long long)built.second);
    return built.refusal == 0;
}

/* what every call is lent */
#define TABLE (const uint8_t *)codes, codes_bytes, (const uint8_t *)transitions, transitions_bytes
#define SLICES state, sizeof state, set, sizeof set

static void say(const char *call, mulgreddi_answer a)
{
    printf("  %-11s ", call);
    if (a.refusal) {
        printf("refused %llu: %s\n", (unsigned long long)a.refusal, mulgreddi_refusal_text(a.refusal));
        return;
    }
    printf("%llu letters, set", (unsigned long long)a.first);
    for (size_t i = 0; i < codes_bytes / 8; i++)
        printf(" %d", set[i]);
    printf(a.second ? "\n" : ": no continuation is accepted\n");
}

static void start(void) { say("start", mulgreddi_live_start(file, file_len, TABLE, SLICES)); }
static void withdraw(void) { say("withdraw", mulgreddi_live_withdraw(file, file_len, TABLE, SLICES)); }

static void arrive(uint32_t letter)
{
    char call[16];
    snprintf(call, sizeof call, "arrive %u", (unsigned)letter);
    say(call, mulgreddi_live_arrive(file, file_len, letter, TABLE, SLICES));
}

static void mark(uint32_t number)
{
    char call[16];
    snprintf(call, sizeof call, "mark %u", (unsigned)number);
    say(call, mulgreddi_live_mark(file, file_len, number, TABLE, SLICES));
}

static void back(uint32_t number)
{
    char call[16];
    snprintf(call, sizeof call, "return %u", (unsigned)number);
    say(call, mulgreddi_live_return(file, file_len, number, TABLE, SLICES));
}

int main(int argc, char **argv)
{
    if (!mulgreddi_version_serves(mulgreddi_version())) {
        fprintf(stderr, "the library is version %u, too old or too new for the header, %u\n", (unsigned)mulgreddi_version(), (unsigned)MULGREDDI_VERSION_NUMBER);
        return 1;
    }
    const char *folder = argc > 1 ? argv[1] : ".";

    /* a log, and a sensor that corrects itself */
    if (!load(folder, "D.rule"))
        return 1;
    start();
    withdraw();
    arrive(1);
    withdraw();
    arrive(0);
    arrive(1);
    arrive(1);
    arrive(2);

    /* a drill */
    if (!load(folder, "E.rule"))
        return 1;
    start();
    arrive(0);
    back(3);
    mark(3);
    arrive(1);
    mark(4);
    arrive(0);
    back(3);
    withdraw();
    back(4);
    back(3);
    mark(16);
    start();
    back(3);
    return 0;
}
