/* Before a rule is replaced: is the new rule stricter, that is, does every word that it accepts pass the old one? The builds tell how much
 * room the comparison needs; a word that tells the rules apart is judged on both.
 * Run: replace FOLDER */
#include <mulgreddi.h>
#include <stdio.h>
#include <stdlib.h>

enum { MACROSTATES = MULGREDDI_MACROSTATES_MAX, TRANSITIONS = MULGREDDI_TRANSITIONS_MAX };

static uint64_t codes_a[MACROSTATES], transitions_a[TRANSITIONS], codes_b[MACROSTATES], transitions_b[TRANSITIONS];
static uint8_t a[4096], b[4096];

typedef unsigned long long number;

/* The file FOLDER/NAME; one that cannot be read is empty, which is refused by 1. */
static size_t load(const char *folder, const char *name, uint8_t *file, size_t room)
{
    char path[4096];
    snprintf(path, sizeof path, "%s/%s", folder, name);
    FILE *f = fopen(path, "rb");
    if (!f)
        return 0;
    size_t length = fread(file, 1, room, f);
    fclose(f);
    return length;
}

static void print_letters(const uint8_t *letters, uint64_t count)
{
    for (uint64_t i = 0; i < count; i++)
        printf(" %u", letters[i]);
}

/* A word that tells the rules apart: its tidy spelling, and the verdict of each rule. */
static void print_word(mulgreddi_comparison c, const uint8_t *word, size_t a_len, size_t b_len)
{
    if (c.lead > MULGREDDI_LEAD_MAX || c.cycle > MULGREDDI_CYCLE_MAX) {
        printf("  a word of %llu and %llu letters\n", (number)c.lead, (number)c.cycle);
        return;
    }
    uint8_t masks[MULGREDDI_PLACES_MAX], tidy[MULGREDDI_PLACES_MAX];
    mulgreddi_answer t = mulgreddi_tidy_word(word, c.lead, word + c.lead, c.cycle, tidy, sizeof tidy);
    printf("  the word");
    print_letters(tidy, t.first);
    printf(" :");
    print_letters(tidy + t.first, t.second);
    printf(", the new rule says %llu, the old one %llu\n",
           (number)mulgreddi_judge(a, a_len, word, c.lead, word + c.lead, c.cycle, masks, sizeof masks).first,
           (number)mulgreddi_judge(b, b_len, word, c.lead, word + c.lead, c.cycle, masks, sizeof masks).first);
}

static void compare(const char *folder, const char *new_rule, const char *old_rule)
{
    size_t a_len = load(folder, new_rule, a, sizeof a), b_len = load(folder, old_rule, b, sizeof b);
    mulgreddi_answer x = mulgreddi_build(a, a_len, codes_a, MACROSTATES, transitions_a, TRANSITIONS);
    mulgreddi_answer y = mulgreddi_build_rejecting(b, b_len, codes_b, MACROSTATES, transitions_b, TRANSITIONS);
    size_t pairs = x.first * y.first;
    uint8_t *word = malloc(3 * pairs + 1), *scratch = malloc(pairs + 1);
    if (!word || !scratch)
        exit(1);
    mulgreddi_comparison c = mulgreddi_stricter(a, a_len, b, b_len, codes_a, MACROSTATES, transitions_a, TRANSITIONS, codes_b, MACROSTATES,
                                                transitions_b, TRANSITIONS, word, 3 * pairs, scratch, pairs);
    printf("%s for %s: ", new_rule, old_rule);
    if (c.refusal)
        printf("refused %llu, %s\n", (number)c.refusal, mulgreddi_refusal_text(c.refusal));
    else {
        printf("%s; tables of %llu and %llu macrostates\n", c.stricter ? "stricter" : "not stricter",
               (number)c.macrostates_a, (number)c.macrostates_b);
        if (!c.stricter)
            print_word(c, word, a_len, b_len);
    }
    free(word);
    free(scratch);
}

int main(int argc, char **argv)
{
    if (!mulgreddi_version_serves(mulgreddi_version())) {
        fprintf(stderr, "the library is version %u, too old or too new for the header, %u\n", (unsigned)mulgreddi_version(), (unsigned)MULGREDDI_VERSION_NUMBER);
        return 1;
    }
    const char *folder = argc > 1 ? argv[1] : ".";
    compare(folder, "I.rule", "F.rule"); /* letter 1 again and again for some time letter 1 */
    compare(folder, "E.rule", "F.rule"); /* letter 0 for ever: the one word that some time letter 1 rejects */
    compare(folder, "D.rule", "D.rule");
    compare(folder, "F.rule", "Z.rule"); /* two letters for one letter */
    return 0;
}
