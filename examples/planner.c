/* A planner's calls, on the rule files beside it: checks a rule file, judges a duty word on the rule, builds the automaton, judges the same word on
 * the built table, walks the table along the word from the answered number, and prints the run.
 * Run: planner FOLDER */
#include <mulgreddi.h>
#include <stdio.h>
#include <stdlib.h>
#include <string.h>

enum { MACROSTATES = 512, TRANSITIONS = 4096, PLACES = MULGREDDI_PLACES_MAX };

typedef unsigned long long number;

/* A word: a lead-in and a cycle that repeats for ever. */
typedef struct {
    size_t lead_len, cycle_len;
    uint8_t lead[32], cycle[32];
} word;

static uint64_t codes[MACROSTATES], transitions[TRANSITIONS];
static uint8_t scratch[MACROSTATES * PLACES];

static uint8_t letter_at(const word *w, size_t place)
{
    return place < w->lead_len ? w->lead[place] : w->cycle[place - w->lead_len];
}

static size_t next_place(const word *w, size_t place)
{
    return place + 1 < w->lead_len + w->cycle_len ? place + 1 : w->lead_len;
}

/* The bytes of a built table: right where a uint64_t stands low byte first. */
static mulgreddi_answer judge_table(const uint8_t *file, size_t file_len, const word *w, mulgreddi_answer built)
{
    return mulgreddi_judge_table(file, file_len, w->lead, w->lead_len, w->cycle, w->cycle_len, (const uint8_t *)codes, 8 * built.first,
                                 (const uint8_t *)transitions, 8 * built.second, scratch, sizeof scratch);
}

/* Marks in `on` the pairs of macrostate and place that an accepting run may go through: from each such pair others lead on to an accepting one. */
static void mark(const word *w, mulgreddi_answer built, uint8_t *on)
{
    size_t places = w->lead_len + w->cycle_len;
    static uint8_t to[MACROSTATES * PLACES];
    memset(on, 1, built.first * places);
    for (int out = 1; out;) {
        memset(to, 0, sizeof to);
        for (int more = 1; more;) {
            more = 0;
            for (uint64_t i = 0; i < built.second; i++)
                for (size_t p = 0; p < places; p++) {
                    uint64_t t = transitions[i], target = mulgreddi_target(t);
                    size_t x = mulgreddi_source(t) * places + p, y = target * places + next_place(w, p);
                    if (mulgreddi_letter(t) == letter_at(w, p) && on[x] && !to[x] && on[y] && (to[y] || mulgreddi_code_accepting(codes[target])))
                        to[x] = 1, more = 1;
                }
        }
        out = memcmp(on, to, built.first * places) != 0;
        memcpy(on, to, built.first * places);
    }
}

/* Prints the one accepting run from macrostate m: its macrostates up to the first pair of macrostate and place that comes again. */
static void walk(const word *w, mulgreddi_answer built, uint64_t m)
{
    size_t places = w->lead_len + w->cycle_len, p = 0;
    static uint8_t on[MACROSTATES * PLACES], seen[MACROSTATES * PLACES];
    mark(w, built, on);
    memset(seen, 0, sizeof seen);
    printf("  run:");
    while (!seen[m * places + p]) {
        seen[m * places + p] = 1;
        printf(" %llu%s", (number)m, mulgreddi_code_accepting(codes[m]) ? "*" : "");
        const uint64_t *t = transitions;
        while (mulgreddi_source(*t) != m || mulgreddi_letter(*t) != letter_at(w, p) || !on[mulgreddi_target(*t) * places + next_place(w, p)])
            t++;
        m = mulgreddi_target(*t);
        p = next_place(w, p);
    }
    printf(", then again from %llu at place %zu (* accepting)\n", (number)m, p);
}

static void plan(const char *folder, const char *name, const word *w)
{
    char path[4096];
    uint8_t file[4096], masks[PLACES];
    size_t n = 0;
    snprintf(path, sizeof path, "%s/%s", folder, name);
    FILE *f = fopen(path, "rb");
    if (!f) {
        fprintf(stderr, "%s cannot be read; run: planner FOLDER, the folder of Mulgreddi's examples\n", path);
        exit(1);
    }
    n = fread(file, 1, sizeof file, f);
    fclose(f);
    mulgreddi_answer checked = mulgreddi_check(file, n);
    if (checked.refusal) {
        printf("%s: refused %llu\n", name, (number)checked.refusal);
        return;
    }
    mulgreddi_answer on_rule = mulgreddi_judge(file, n, w->lead, w->lead_len, w->cycle, w->cycle_len, masks, sizeof masks);
    mulgreddi_answer built = mulgreddi_build(file, n, codes, MACROSTATES, transitions, TRANSITIONS);
    if (on_rule.refusal || built.refusal) {
        printf("%s: refused %llu\n", name, (number)(on_rule.refusal ? on_rule.refusal : built.refusal));
        return;
    }
    mulgreddi_answer on_table = judge_table(file, n, w, built);
    if (on_table.refusal) {
        printf("%s: refused %llu\n", name, (number)on_table.refusal);
        return;
    }
    printf("%s, lead-in", name);
    for (size_t i = 0; i < w->lead_len; i++)
        printf(" %u", w->lead[i]);
    printf(", cycle");
    for (size_t i = 0; i < w->cycle_len; i++)
        printf(" %u", w->cycle[i]);
    printf(": on the rule %s; %llu macrostates, %llu transitions; on the table %s", on_rule.first ? "yes" : "no", (number)built.first,
           (number)built.second, on_table.first ? "yes" : "no");
    if (on_table.first)
        printf(", from %llu", (number)on_table.second);
    printf("\n");
    if (on_table.first)
        walk(w, built, on_table.second);
}

int main(int argc, char **argv)
{
    if (!mulgreddi_version_serves(mulgreddi_version())) {
        fprintf(stderr, "the library is version %u, too old or too new for the header, %u\n", (unsigned)mulgreddi_version(), (unsigned)MULGREDDI_VERSION_NUMBER);
        return 1;
    }
    const char *folder = argc > 1 ? argv[1] : ".";
    plan(folder, "F.rule", &(word){2, 1, {0, 1}, {0}});
    plan(folder, "F.rule", &(word){0, 1, {0}, {0}});
    plan(folder, "I.rule", &(word){1, 1, {1}, {0}});
    plan(folder, "I.rule", &(word){0, 2, {0}, {0, 1}});
    plan(folder, "D.rule", &(word){0, 1, {0}, {0}});
    plan(folder, "Z.rule", &(word){0, 1, {0}, {0}});
    plan(folder, "F.rule", &(word){0, 1, {0}, {2}});
    return 0;
}
