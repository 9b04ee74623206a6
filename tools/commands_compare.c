/* Commands that compare the words of rules: stricter, equal. */
#include "tool.h"

#include <stdlib.h>
#include <string.h>

/* Prints the word that tells two rules apart, in its tidy spelling, and what is to be said of it; tells where it is too long to be judged. */
static void print_against(const rule *r, uint8_t *letters, mulgreddi_comparison c, const char *behind)
{
    word w = {c.lead, c.cycle, letters, letters + c.lead};
    tidy_spelling(&w);
    print_word(r, w);
    print_text(stdout, behind);
    printf("\n");
    if (w.lead_len > MULGREDDI_LEAD_MAX || w.cycle_len > MULGREDDI_CYCLE_MAX)
        say("the word is longer than `judge` takes: a lead-in of %zu letters and a cycle of %zu, where each may have %d", w.lead_len,
            w.cycle_len, MULGREDDI_LEAD_MAX);
}

/* Letters are compared by their numbers: tells where two rules name one otherwise. */
static void tell_other_names(const rule *a, const rule *b)
{
    const char *path_a = brief(a->file.path, PATH_SHOWN), *path_b = brief(b->file.path, PATH_SHOWN);
    if (!a->checked.second != !b->checked.second)
        say("letters are compared by number: %s has names for them, %s has none", a->checked.second ? path_a : path_b,
            a->checked.second ? path_b : path_a);
    for (unsigned letter = 0; a->checked.second && b->checked.second && letter < a->letters; letter++) {
        const char *x = mulgreddi_letter_name(a->file.at, a->checked, letter), *y = mulgreddi_letter_name(b->file.at, b->checked, letter);
        if (memcmp(x, y, MULGREDDI_NAME_BYTES) != 0)
            say("letters are compared by number: %u is \"%.*s\" in %s and \"%.*s\" in %s", letter, (int)name_length(x), x, path_a,
                (int)name_length(y), y, path_b);
    }
}

/* A comparison, with the word where it found one. */
typedef struct {
    mulgreddi_comparison c;
    uint8_t *letters;
} compared;

static compared compare(const rule *a, const rule *b)
{
    static uint64_t codes_b[MULGREDDI_MACROSTATES_MAX], transitions_b[MULGREDDI_TRANSITIONS_MAX];
    mulgreddi_answer x = build_of(a), y = mulgreddi_build_rejecting(b->file.at, b->file.len, codes_b, MULGREDDI_MACROSTATES_MAX, transitions_b,
                                                                 MULGREDDI_TRANSITIONS_MAX);
    if (x.refusal)
        exit(refused(a->file.path, x.refusal, NULL));
    if (y.refusal)
        exit(refused(b->file.path, y.refusal, NULL));
    size_t pairs = x.first * y.first;
    compared found = {{0, 0, 0, 0, 0, 0, 0, 0}, room(3 * pairs)};
    uint8_t *scratch = room(pairs);
    begin_work("comparing");
    found.c = mulgreddi_stricter(a->file.at, a->file.len, b->file.at, b->file.len, codes, MULGREDDI_MACROSTATES_MAX, transitions,
                                 MULGREDDI_TRANSITIONS_MAX, codes_b, MULGREDDI_MACROSTATES_MAX, transitions_b, MULGREDDI_TRANSITIONS_MAX,
                                 found.letters, 3 * pairs, scratch, pairs);
    end_work();
    free(scratch);
    if (found.c.refusal)
        exit(refused(b->file.path, found.c.refusal, NULL));
    return found;
}

/* Rules can be compared that have as many letters. */
static void comparable(const rule *a, const rule *b)
{
    if (a->letters != b->letters)
        exit(refused(b->file.path, MULGREDDI_OTHER_LETTERS, NULL));
    tell_other_names(a, b);
}

static int stricter(int count, char **operand)
{
    rule a = open_rule(operand[0]), b = open_rule(operand[1]);
    (void)count;
    comparable(&a, &b);
    compared found = compare(&a, &b);
    if (option("quiet"))
        return found.c.stricter ? YES : NO;
    if (found.c.stricter) {
        printf("stricter\n");
        return YES;
    }
    printf("not stricter: ");
    print_against(&a, found.letters, found.c, "");
    return NO;
}

const command command_stricter = {
    "stricter", "[--quiet] NEW OLD", "quiet",
    "Prints whether every word that the rule NEW accepts, of any length, is accepted by the rule OLD: `stricter`\n"
    "(0), or `not stricter` and a word that NEW accepts and OLD rejects (1).\n"
    "  --quiet              prints no answer: the exit status tells it\n",
    2, 2, stricter,
};

/* Tells a word that one rule accepts and the other rejects. */
static int told_apart(const rule *a, const rule *b, const compared *found)
{
    const char *path_a = a->file.path, *path_b = b->file.path;
    char *behind = room(strlen(path_a) + strlen(path_b) + 32);
    if (option("quiet"))
        return NO;
    sprintf(behind, " accepted by %s, rejected by %s", path_a, path_b);
    printf("not equal: ");
    print_against(a, found->letters, found->c, behind);
    return NO;
}

static int equal(int count, char **operand)
{
    rule a = open_rule(operand[0]), b = open_rule(operand[1]);
    (void)count;
    comparable(&a, &b);
    compared forth = compare(&a, &b);
    if (!forth.c.stricter)
        return told_apart(&a, &b, &forth);
    compared back = compare(&b, &a);
    if (!back.c.stricter)
        return told_apart(&b, &a, &back);
    if (!option("quiet"))
        printf("equal\n");
    return YES;
}

const command command_equal = {
    "equal", "[--quiet] FILE FILE", "quiet",
    "Prints whether two rules accept the same words, of any length: `equal` (0), or `not equal`, a word that one of them\n"
    "accepts and the other rejects, and which (1). `same` compares tables.\n"
    "  --quiet              prints no answer: the exit status tells it\n",
    2, 2, equal,
};
