/* Builds the automata of the rule files beside it, whole and with only the macrostates that matter, and prints those of rule F and of a rule
 * whose initial state is not state 0.
 * Run: build FOLDER */
#include <mulgreddi.h>
#include <stdio.h>

enum { MACROSTATES = MULGREDDI_MACROSTATES_MAX, TRANSITIONS = MULGREDDI_TRANSITIONS_MAX };

static uint64_t codes[MACROSTATES], transitions[TRANSITIONS];
static uint8_t file[4096];
static size_t file_len;

typedef unsigned long long number;

/* The file FOLDER/NAME; one that cannot be read is empty, which is refused by 1. */
static void load(const char *folder, const char *name)
{
    char path[4096];
    snprintf(path, sizeof path, "%s/%s", folder, name);
    file_len = 0;
    FILE *f = fopen(path, "rb");
    if (f) {
        file_len = fread(file, 1, sizeof file, f);
        fclose(f);
    }
}

static void print_table(mulgreddi_answer built)
{
    for (uint64_t m = 0; m < built.first; m++)
        printf("macrostate %llu: code %llu%s%s\n", (number)m, (number)codes[m],
               mulgreddi_code_initial(codes[m], mulgreddi_initial_state(file, file_len)) ? ", initial" : "",
               mulgreddi_code_accepting(codes[m]) ? ", accepting" : "");
    for (uint64_t t = 0; t < built.second; t++)
        printf("%llu over letter %u to %llu\n", (number)mulgreddi_source(transitions[t]), mulgreddi_letter(transitions[t]),
               (number)mulgreddi_target(transitions[t]));
}

int main(int argc, char **argv)
{
    if (!mulgreddi_version_serves(mulgreddi_version())) {
        fprintf(stderr, "the library is version %u, too old or too new for the header, %u\n", (unsigned)mulgreddi_version(), (unsigned)MULGREDDI_VERSION_NUMBER);
        return 1;
    }
    const char *folder = argc > 1 ? argv[1] : ".";
    const char *names[] = {"D.rule", "E.rule", "I.rule", "Z.rule", "F.rule", "begins.rule"};
    for (size_t i = 0; i < 6; i++) {
        load(folder, names[i]);
        mulgreddi_answer left = mulgreddi_build_trimmed(file, file_len, codes, MACROSTATES, transitions, TRANSITIONS);
        mulgreddi_answer a = mulgreddi_build(file, file_len, codes, MACROSTATES, transitions, TRANSITIONS);
        printf("%s: refusal %llu, %llu macrostates, %llu transitions; %llu and %llu that matter\n", names[i], (number)a.refusal,
               (number)a.first, (number)a.second, (number)left.first, (number)left.second);
        if (i >= 4)
            print_table(a);
    }
    return 0;
}
