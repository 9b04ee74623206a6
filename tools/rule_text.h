/* A rule that is read from its text, and its file. */
#ifndef RULE_TEXT_H
#define RULE_TEXT_H

#include "text.h"

/* A line of letters, its clauses as words and, when all states are known, as masks. */
typedef struct {
    number line;
    unsigned state;
    token *words;
    size_t words_count;
    uint8_t *clauses;
    size_t clauses_count;
} entry_line;

/* each line has a letter or * of its state to itself; one more may be read before its fault is told */
enum { STAR = MULGREDDI_LETTERS_MAX, ENTRY_LINES = MULGREDDI_STATES_MAX * (STAR + 1) + 1 };

typedef struct rule_text {
    text t;
    number letters_line, state_line[MULGREDDI_STATES_MAX], initial_line;
    unsigned letters, states, accepting;
    uint8_t names[MULGREDDI_LETTERS_MAX * MULGREDDI_NAME_BYTES];
    size_t names_len;
    token state[MULGREDDI_STATES_MAX], initial;
    int open; /* lines of letters may stand here */
    entry_line lines[ENTRY_LINES];
    unsigned lines_count;
    const entry_line *entry[MULGREDDI_STATES_MAX][MULGREDDI_LETTERS_MAX + 1]; /* by state and letter, then the line of * */
    const char *name[MULGREDDI_STATES_MAX], *shown_name[MULGREDDI_STATES_MAX]; /* of the states; as messages show them */
} rule_text;

/* Reads a rule's text: every line is right, every name is known and every letter of every state has its line. A fault, or a refusal that
 * the numbers of letters and states or the names bring, ends the program. */
rule_text *read_rule_text(bytes file);
/* The file of the rule that a text is, laid out as the library writes it, accepted or not. More clauses than an entry may have (8) end the
 * program: they have no file. */
bytes file_of_text(rule_text *r);
/* Tells a refusal of the rule that a text is, with its line and its spot; 0 where the refusal is of something else. */
int text_refused(const rule_text *r, uint64_t refusal);
/* The number of the state that has this name, or -1. */
int state_named(const rule_text *r, token name);

#endif
