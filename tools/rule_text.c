/* The text of a rule, read and made sure to be whole. docs/FORMAT.md has the form. */
#include "rule_text.h"

#include "spot.h"

#include <stdlib.h>
#include <string.h>

static int same_run(token a, token b)
{
    return a.len == b.len && memcmp(a.at, b.at, a.len) == 0;
}

/* A plain name, which a state's is. */
static int is_plain_name(token w)
{
    return w.kind == RUN && number_of(w) < 0 && !is_keyword(w);
}

int state_named(const rule_text *r, token name)
{
    for (unsigned q = 0; q < r->states; q++)
        if (same_run(r->state[q], name))
            return (int)q;
    return -1;
}

static const char *shown_letter(const rule_text *r, unsigned letter)
{
    static char number_text[12];
    if (r->names_len)
        return shown((token){QUOTED, r->names + MULGREDDI_NAME_BYTES * letter,
                             name_length((const char *)r->names + MULGREDDI_NAME_BYTES * letter)});
    snprintf(number_text, sizeof number_text, "%u", letter);
    return number_text;
}

/* Asks the library about a rule of so many states and letters, with names or without, and no clause. */
static uint64_t ask_size(uint32_t states, uint32_t letters, const uint8_t *names, size_t names_len)
{
    static const uint8_t counts[MULGREDDI_STATES_MAX * MULGREDDI_LETTERS_MAX];
    uint8_t out[MULGREDDI_RULE_MAX];
    /* the rows of the two numbers come before that of the counts, so none need be given where one is too large */
    size_t counts_len = states <= MULGREDDI_STATES_MAX && letters <= MULGREDDI_LETTERS_MAX ? states * letters : 0;
    return mulgreddi_write_named(states, letters, 0, 0, counts, counts_len, counts, 0, names, names_len, out, sizeof out).refusal;
}

static void read_names(rule_text *r)
{
    const text *t = &r->t;
    uint8_t name[MULGREDDI_NAME_BYTES];
    for (size_t i = 1; i < t->count; i++) {
        token w = t->words[i];
        if (w.kind == SIGN || is_keyword(w) || (w.kind == RUN && number_of(w) >= 0))
            fault(t, t->line, "behind `letters` stand names, or one number; a name such as %s stands in quotes", shown(w));
    }
    for (size_t i = 1; i < t->count; i++) {
        if (!padded(t->words[i], name))
            fault(t, t->line, "the name %s has more than 8 bytes", shown(t->words[i]));
        if (i <= MULGREDDI_LETTERS_MAX)
            memcpy(r->names + MULGREDDI_NAME_BYTES * (i - 1), name, sizeof name);
    }
}

static void read_letters_line(rule_text *r)
{
    const text *t = &r->t;
    uint32_t letters = (uint32_t)(t->count - 1);
    if (t->count > 1 && is_sign(t->words[1], ':'))
        fault(t, t->line, "behind `letters` stands no colon: write `letters WAIT GO`, or `letters 2`");
    if (r->letters_line)
        fault(t, t->line, "`letters` stands a second time; the first is in line %llu", r->letters_line);
    r->letters_line = t->line;
    if (t->count == 2 && number_of(t->words[1]) >= 0)
        letters = (uint32_t)number_of(t->words[1]);
    else {
        read_names(r);
        r->names_len = letters <= MULGREDDI_LETTERS_MAX ? MULGREDDI_NAME_BYTES * letters : 0;
    }
    uint64_t refusal = ask_size(1, letters, r->names, r->names_len);
    if (refusal) {
        layout l = {1, letters, 0, 0, NULL, NULL, r->names, 0, 0, NULL};
        unsigned state, letter;
        leave(refused_at(t, t->line, refusal, rule_spot(&l, refusal, &state, &letter)));
    }
    r->letters = letters;
}

static void read_state_line(rule_text *r)
{
    const text *t = &r->t;
    const token *w = t->words;
    if (t->count > 1 && w[1].kind != SIGN && !is_plain_name(w[1]))
        fault(t, t->line, "%s is no name for a state: %s; take another", shown(w[1]),
              w[1].kind == QUOTED ? "it stands in quotes" : is_keyword(w[1]) ? "the word has a meaning of its own" : "it is a number");
    if (t->count != 3 || !is_plain_name(w[1]) || !(is_run(w[2], "accepting") || is_run(w[2], "rejecting")))
        fault(t, t->line, "a state's line is `state NAME accepting` or `state NAME rejecting`");
    if (state_named(r, w[1]) >= 0)
        fault(t, t->line, "state %s stands a second time; the first is in line %llu", shown(w[1]), r->state_line[state_named(r, w[1])]);
    uint64_t refusal = ask_size(r->states + 1, 1, r->names, 0);
    if (refusal)
        leave(refused_at(t, t->line, refusal, NULL));
    r->accepting |= (unsigned)is_run(w[2], "accepting") << r->states;
    r->state_line[r->states] = t->line;
    r->state[r->states++] = w[1];
    r->open = 1;
}

static void read_initial_line(rule_text *r)
{
    const text *t = &r->t;
    if (t->count != 2 || !is_plain_name(t->words[1]))
        fault(t, t->line, "the line of the initial state is `initial NAME`");
    if (r->initial_line)
        fault(t, t->line, "`initial` stands a second time; the first is in line %llu", r->initial_line);
    r->initial_line = t->line;
    r->initial = t->words[1];
    r->open = 0;
}

/* Where the clause that begins at a word ends, or 0 where none does: true, or names with & between them. */
static size_t clause_end(const token *w, size_t at, size_t count)
{
    if (at < count && is_run(w[at], "true"))
        return at + 1;
    for (; at < count && is_plain_name(w[at]); at++) {
        at++;
        if (at == count || !is_sign(w[at], '&'))
            return at;
    }
    return 0;
}

/* Tells what to write in place of a parenthesis, where a word that is no state's name has one. */
static void no_parentheses(const text *t, number line, token w)
{
    if (w.kind == RUN && (memchr(w.at, '(', w.len) || memchr(w.at, ')', w.len)))
        fault(t, line, "%s: there are no parentheses; & binds before |, so a & (b | c) is written a & b | a & c", shown(w));
}

/* Whether words are clauses: false, or clauses with | between them. */
static int are_clauses(const token *w, size_t count)
{
    if (count == 1 && is_run(w[0], "false"))
        return 1;
    for (size_t at = 0;; at++) {
        at = clause_end(w, at, count);
        if (at == 0 || at == count)
            return at != 0;
        if (!is_sign(w[at], '|'))
            return 0;
    }
}

/* The letter that a word names by its name or number. */
static unsigned rule_letter(const rule_text *r, token w)
{
    uint8_t name[MULGREDDI_NAME_BYTES];
    int64_t value = number_of(w);
    if (value >= 0 && value < r->letters)
        return (unsigned)value;
    if (value >= 0)
        fault(&r->t, r->t.line, "there is no letter %s: there are %u, counted from 0", shown(w), r->letters);
    for (unsigned letter = 0; padded(w, name) && letter < r->names_len / MULGREDDI_NAME_BYTES; letter++)
        if (memcmp(name, r->names + MULGREDDI_NAME_BYTES * letter, sizeof name) == 0)
            return letter;
    fault(&r->t, r->t.line, "no letter is named %s: line %llu has them", shown(w), r->letters_line);
}

/* Gives the letters before the colon their line. */
static void read_letters_of(rule_text *r, size_t colon, const entry_line *line)
{
    const text *t = &r->t;
    for (size_t i = 0; i < colon; i++) {
        token w = t->words[i];
        if (is_sign(w, '*') && colon > 1)
            fault(t, t->line, "* stands alone before the colon: it means all letters that have no line of their own");
        unsigned letter = is_sign(w, '*') ? STAR : rule_letter(r, w);
        if (r->entry[line->state][letter])
            fault(t, t->line, "%s%s has a line already under this state: %llu", letter == STAR ? "*" : "letter ",
                  letter == STAR ? "" : shown_letter(r, letter), r->entry[line->state][letter]->line);
        r->entry[line->state][letter] = line;
    }
}

/* Runs before signs, by length, then bytes. */
static int by_name(const void *one, const void *other)
{
    const token *a = one, *b = other;
    if (a->kind != b->kind)
        return a->kind == RUN ? -1 : 1;
    if (a->len != b->len)
        return a->len < b->len ? -1 : 1;
    return memcmp(a->at, b->at, a->len);
}

/* No state stands twice in a clause. The words are put in another order; there may be many. */
static void no_state_twice(const text *t, token *w, size_t count)
{
    for (size_t clause = 0, end; clause < count; clause = end + 1) {
        for (end = clause; end < count && !is_sign(w[end], '|'); end++)
            ;
        qsort(w + clause, end - clause, sizeof *w, by_name);
        for (size_t i = clause; end - i > 1 && w[i + 1].kind == RUN; i++)
            if (same_run(w[i], w[i + 1]))
                fault(t, t->line, "state %s stands twice in a clause", shown(w[i]));
    }
}

static void read_entry_line(rule_text *r)
{
    const text *t = &r->t;
    size_t colon = 0;
    while (colon < t->count && !is_sign(t->words[colon], ':'))
        colon++;
    if (colon == t->count)
        fault(t, t->line, "a line begins with `letters`, `state` or `initial`, or is LETTERS: CLAUSES");
    if (!r->open)
        fault(t, t->line, "a line of letters stands under the line of a state");
    for (size_t i = 0; i < colon; i++)
        if (is_keyword(t->words[i]) || (t->words[i].kind == SIGN && !is_sign(t->words[i], '*')))
            fault(t, t->line, "before the colon stand letters, or *; a name such as %s stands in quotes", shown(t->words[i]));
    token *clauses = t->words + colon + 1;
    size_t count = t->count - colon - 1;
    if (colon == 0)
        fault(t, t->line, "no letter stands before the colon");
    for (size_t i = 0; i < count && !are_clauses(clauses, count); i++)
        no_parentheses(t, t->line, clauses[i]);
    if (!are_clauses(clauses, count))
        fault(t, t->line, "behind the colon stands `false`, or clauses with | between them: each is `true`, or names of states with & between them");
    entry_line *line = r->lines + r->lines_count;
    *line = (entry_line){t->line, r->states - 1, room(count * sizeof *clauses), count, NULL, 0};
    memcpy(line->words, clauses, count * sizeof *clauses);
    read_letters_of(r, colon, line);
    no_state_twice(t, clauses, count);
    r->lines_count++;
}

static void read_lines(rule_text *r)
{
    const text *t = &r->t;
    while (read_line(&r->t)) {
        if (is_run(t->words[0], "letters"))
            read_letters_line(r);
        else if (!r->letters_line)
            fault(t, t->line, "the first line is `letters` with their names or their number");
        else if (is_run(t->words[0], "state"))
            read_state_line(r);
        else if (is_run(t->words[0], "initial"))
            read_initial_line(r);
        else
            read_entry_line(r);
    }
}

/* The masks of a line's clauses; answers the first name that is no state's. */
static const token *resolve(const rule_text *r, entry_line *line)
{
    line->clauses = room(line->words_count);
    if (is_run(line->words[0], "false"))
        return NULL;
    line->clauses_count = 1;
    for (size_t i = 0; i < line->words_count; i++) {
        const token *w = line->words + i;
        if (is_sign(*w, '|'))
            line->clauses_count++;
        if (w->kind == SIGN || is_run(*w, "true"))
            continue;
        int state = state_named(r, *w);
        if (state < 0)
            return w;
        line->clauses[line->clauses_count - 1] |= (uint8_t)(1u << state);
    }
    return NULL;
}

/* Every name in clauses and in `initial` is a state's. */
static void resolve_all(rule_text *r)
{
    const text *t = &r->t;
    int initial = r->initial_line && state_named(r, r->initial) < 0;
    for (unsigned i = 0; i < r->lines_count; i++) {
        if (initial && r->initial_line < r->lines[i].line)
            break;
        const token *unknown = resolve(r, &r->lines[i]);
        if (unknown) {
            no_parentheses(t, r->lines[i].line, *unknown);
            fault(t, r->lines[i].line, "no state is named %s", shown(*unknown));
        }
    }
    if (initial)
        fault(t, r->initial_line, "no state is named %s", shown(r->initial));
}

/* Every letter of every state has exactly one line, and * stands for one at least. */
static void complete(rule_text *r)
{
    const text *t = &r->t;
    for (unsigned q = 0; q < r->states; q++) {
        const entry_line *star = r->entry[q][STAR];
        unsigned left = 0;
        for (unsigned letter = 0; letter < r->letters; letter++) {
            if (r->entry[q][letter])
                continue;
            if (!star)
                fault(t, r->state_line[q], "state %s has no line for letter %s", shown(r->state[q]), shown_letter(r, letter));
            r->entry[q][letter] = star;
            left++;
        }
        if (star && !left)
            fault(t, star->line, "* stands for no letter: each has a line of its own under this state");
    }
}

/* The names of the states, each whole and as messages show it. */
static void name_states(rule_text *r)
{
    for (unsigned q = 0; q < r->states; q++) {
        const char *brief_name = shown(r->state[q]);
        r->name[q] = memcpy(room(r->state[q].len + 1), r->state[q].at, r->state[q].len);
        r->shown_name[q] = strcpy(room(strlen(brief_name) + 1), brief_name);
    }
}

rule_text *read_rule_text(bytes file)
{
    rule_text *r = room(sizeof *r);
    r->t = text_of(file);
    read_lines(r);
    number last = r->t.line ? r->t.line : 1;
    if (!r->letters_line)
        fault(&r->t, last, "there is no `letters` line");
    if (r->states == 0)
        leave(refused_at(&r->t, last, ask_size(0, r->letters, r->names, r->names_len), NULL));
    resolve_all(r);
    if (!r->initial_line)
        fault(&r->t, last, "there is no `initial` line");
    complete(r);
    name_states(r);
    return r;
}
