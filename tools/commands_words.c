/* Commands on words without a rule: same-word, tidy-word. */
#include "tool.h"

#include <stdlib.h>

/* The word that an operand is; one that is misspelt ends the program. */
static word word_of(const rule *r, const char *text)
{
    word w;
    if (!read_word(r, "", text, &w))
        exit(FAULT);
    return w;
}

static int same_word(int count, char **operand)
{
    const rule *r = rule_of_names();
    word a = word_of(r, operand[0]), b = word_of(r, operand[1]);
    (void)count;
    mulgreddi_answer answer = mulgreddi_same_words(a.lead, a.lead_len, a.cycle, a.cycle_len, b.lead, b.lead_len, b.cycle, b.cycle_len);
    if (answer.refusal) {
        int first = mulgreddi_same_words(a.lead, a.lead_len, a.cycle, a.cycle_len, a.lead, a.lead_len, a.cycle, a.cycle_len).refusal != 0;
        return word_refused(r, "", operand[first ? 0 : 1], first ? a : b, answer.refusal);
    }
    printf("%s\n", answer.first ? "same" : "different");
    return answer.first ? YES : NO;
}

const command command_same_word = {
    "same-word", "[--rule=FILE] WORD WORD", "rule=",
    "Prints whether two words are the same endless sequence: `same` (0) or `different` (1).\n"
    "  --rule=FILE          the rule whose names the words use\n",
    2, 2, same_word,
};

static int tidy_word(int count, char **operand)
{
    uint8_t out[MULGREDDI_PLACES_MAX];
    const rule *r = rule_of_names();
    word w = word_of(r, operand[0]);
    (void)count;
    mulgreddi_answer a = mulgreddi_tidy_word(w.lead, w.lead_len, w.cycle, w.cycle_len, out, sizeof out);
    if (a.refusal)
        return word_refused(r, "", operand[0], w, a.refusal);
    print_word(r, (word){a.first, a.second, out, out + a.first});
    printf("\n");
    return YES;
}

const command command_tidy_word = {
    "tidy-word", "[--rule=FILE] WORD", "rule=",
    "Prints the tidy spelling of a word: the shortest cycle, then the shortest lead-in.\n"
    "  --rule=FILE          the rule whose names the word uses\n",
    1, 1, tidy_word,
};
