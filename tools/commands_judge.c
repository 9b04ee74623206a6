/* The command judge: words on a rule, or on a table that was built of it. */
#include "spot.h"

#include <limits.h>

/* Prints the states from which the rule accepts at a place, of those in `only`, and the clause that each one takes. */
static void print_choices_at(const rule *r, const layout *l, size_t place, unsigned letter, const uint8_t *choices, unsigned only)
{
    const char *before = " ";
    printf("  place %zu, letter ", place);
    print_letter(r, letter);
    printf(":");
    for (unsigned state = 0; state < r->states; state++) {
        unsigned choice = choices[place * r->states + state];
        if (choice == 255 || !(only >> state & 1))
            continue;
        printf("%sstate ", before);
        print_state(stdout, l->state_names, state);
        printf(" by clause %u ", choice);
        print_clause(stdout, l, clauses_of(l, state, letter)[choice]);
        before = ", ";
    }
    printf("%s\n", *before == ',' ? "" : " none");
}

static void print_choices(const rule *r, word w, const uint8_t *choices)
{
    layout l = layout_of(&r->file);
    for (size_t place = 0; place < w.lead_len + w.cycle_len; place++)
        print_choices_at(r, &l, place, letter_at(w, place), choices, 255);
}

/* Of the choices only those that the initial state leads to. */
static void print_why_accepted(const rule *r, word w, const uint8_t *choices)
{
    uint8_t reached[MULGREDDI_PLACES_MAX];
    layout l = layout_of(&r->file);
    reached_by_choices(r, w, choices, reached);
    for (size_t place = 0; place < w.lead_len + w.cycle_len; place++)
        if (reached[place])
            print_choices_at(r, &l, place, letter_at(w, place), choices, reached[place]);
}

/* A table that `build` wrote, and scratch for any word on it. */
typedef struct {
    bytes codes, transitions;
    uint8_t *scratch;
    size_t scratch_len;
} table;

static table open_table(void)
{
    table t = {load(option("codes")), load(option("transitions")), NULL, 0};
    /* more codes are refused before the scratch is looked at */
    size_t most = t.codes.len / 8 < MULGREDDI_MACROSTATES_MAX ? t.codes.len / 8 : MULGREDDI_MACROSTATES_MAX;
    t.scratch_len = most * MULGREDDI_PLACES_MAX;
    t.scratch = room(t.scratch_len);
    return t;
}

static int judge_on_table(const rule *r, const table *t, const char *where, const char *text, word w)
{
    begin_work("judging");
    mulgreddi_answer a = mulgreddi_judge_table(r->file.at, r->file.len, w.lead, w.lead_len, w.cycle, w.cycle_len, t->codes.at, t->codes.len,
                                               t->transitions.at, t->transitions.len, t->scratch, t->scratch_len);
    end_work();
    if (a.refusal)
        return a.refusal == MULGREDDI_TABLE ? refused(t->codes.path, a.refusal, NULL) : word_refused(r, where, text, w, a.refusal);
    if (option("quiet"))
        return a.first ? YES : NO;
    print_word(r, w);
    if (a.first)
        printf(" yes from %llu\n", (number)a.second);
    else
        printf(" no\n");
    return a.first ? YES : NO;
}

static int judge_on_rule(const rule *r, const char *where, const char *text, word w)
{
    uint8_t masks[MULGREDDI_PLACES_MAX], choices[MULGREDDI_CHOICES_MAX];
    mulgreddi_answer a = mulgreddi_judge_choices(r->file.at, r->file.len, w.lead, w.lead_len, w.cycle, w.cycle_len, masks, sizeof masks,
                                                 choices, sizeof choices);
    if (a.refusal)
        return word_refused(r, where, text, w, a.refusal);
    if (option("quiet"))
        return a.first ? YES : NO;
    print_word(r, w);
    printf(" %s masks ", a.first ? "yes" : "no");
    print_masks(masks, w.lead_len, w.lead_len + w.cycle_len);
    if (option("choices"))
        print_choices(r, w, choices);
    if (option("why") && a.first)
        print_why_accepted(r, w, choices);
    else if (option("why"))
        print_why_rejected(r, w, masks);
    return a.first ? YES : NO;
}

/* Judges a word on the table, or on the rule where t is NULL; the answer is out before the next word is read. */
static int judge_word(const rule *r, const table *t, const char *where, const char *text)
{
    word w;
    if (!read_word(r, where, text, &w))
        return FAULT;
    int status = t ? judge_on_table(r, t, where, text, w) : judge_on_rule(r, where, text, w);
    free_word(&w);
    answered();
    return status;
}

static int judge_lines(const rule *r, const table *t)
{
    int status = YES, words = 0;
    lines l = open_lines("-");
    for (const char *text; (text = next_line(&l, &status)); words++)
        status = worse(status, judge_word(r, t, place(&l), text));
    if (words == 0 && status == YES)
        usage("standard input has no word");
    return status;
}

static int judge(int count, char **operand)
{
    if (!option("codes") != !option("transitions"))
        usage("--codes and --transitions are given together");
    if (option("codes") && option("choices"))
        usage("--choices is for the rule, and --codes for a table, which has no clauses");
    if (option("codes") && option("why"))
        usage("--why is for the rule, and --codes for a table, which has no clauses");
    if (!option("choices") + !option("why") + !option("quiet") < 2)
        usage("of --choices, --why and --quiet one is given");
    rule r = open_rule(operand[0]);
    table t, *on = NULL;
    int status = YES;
    if (option("codes")) {
        t = open_table();
        on = &t;
    }
    for (int i = 1; i < count; i++)
        status = worse(status, is_standard(operand[i]) ? judge_lines(&r, on) : judge_word(&r, on, "", operand[i]));
    return status;
}

const command command_judge = {
    "judge", "[--choices | --why | --quiet] [--codes=FILE --transitions=FILE] FILE WORD..", "choices why quiet codes= transitions=",
    "Judges words on the rule and prints a line each: the word, yes or no, and the masks: for each place, as\n"
    "two hexadecimal digits, the states from which the rule accepts there, state q having weight 2 to the q.\n"
    "A word - reads words from standard input, a line each. 0 where all are accepted, 1 where one is not,\n"
    "2 where one is refused.\n"
    "  --choices            a line a place more: the clause that carries the verdict of each accepting state\n"
    "  --why                of a word that is rejected, one way from the initial state along claims that fail: by which\n"
    "                       state each clause fails. It ends where a state has no clause, or waits for ever. Of a word\n"
    "                       that is accepted, those choices that the initial state leads to\n"
    "  --quiet              prints no answer: the exit status tells it\n"
    "  --codes=FILE --transitions=FILE\n"
    "                       judges on the table that `build` wrote to these files instead, and prints the\n"
    "                       number of the macrostate where the accepting run begins\n",
    2, INT_MAX, judge,
};
