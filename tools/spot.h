/* The spot of a refusal. The library is asked about parts of what it refused; where that says nothing, there is no spot. */
#ifndef SPOT_H
#define SPOT_H

#include "tool.h"

/* A rule as its numbers lay it out, accepted or not: rows 1 to 7 have passed. */
typedef struct {
    unsigned states, letters, initial, accepting;
    const uint8_t *counts, *clauses, *names; /* names: 8 bytes a letter, or NULL */
    size_t clauses_len, preface;             /* preface: bytes before the clauses that are not names and their 4e 4d */
    const char *const *state_names;          /* of a text; else NULL, and states are numbers */
} layout;

/* The layout of a rule file that none of rows 1 to 7 refuses. */
layout layout_of(const bytes *file);
/* The clauses of the entry of a state and a letter; rows 8 and 9 have passed. */
const uint8_t *clauses_of(const layout *l, unsigned state, unsigned letter);
/* Prints a clause: as a set of numbers, or in a text by the names of its states. */
void print_clause(FILE *to, const layout *l, unsigned clause);
/* Prints the text of a rule, which `write` reads; its states have names. */
void print_rule(const layout *l);
/* The names of states that have none: s0, s1 and on. */
extern const char *const numbered_states[MULGREDDI_STATES_MAX];
/* The states of the shortest mixed loop, at most MULGREDDI_LONGEST_LOOP; answers how many, 0 where there is none. */
size_t mixed_loop(const layout *l, uint8_t *loop);
/* Prints the states of a loop, each as accepting or rejecting. */
void print_loop(FILE *to, const layout *l, const uint8_t *loop, uint64_t length);

/* The spot of a rule's refusal as a line to be printed and freed, or NULL. state and letter become those of the entry (8, 10, 20), or state
 * the first of the shortest mixed loop (11). */
char *rule_spot(const layout *l, uint64_t refusal, unsigned *state, unsigned *letter);
/* Tells the spot of a rule file's refusal, if there is one. */
void file_spot(const bytes *file, uint64_t refusal);
/* Tells, after `where`, the spot of a refused word: how long its lead-in or cycle is (13), or the place and the letter (14). r may be NULL. */
void word_spot(const rule *r, const char *where, word w, uint64_t refusal);
/* Of an event table that 25 or 26 refuses: the number of the line that brings it, from 0. what becomes what is wrong with it, to be
 * printed and freed. In a text lines have the numbers number_of_line; where that is NULL they are counted from 1, and the line itself is
 * told as well. */
size_t event_spot(const rule *r, const uint8_t *events, size_t events_len, uint64_t refusal, const number *number_of_line, char **what);
/* Tells a refusal of an event table or of a log (25 to 27) with its spot. Answers REFUSED. */
int events_refused(const rule *r, const bytes *events, const bytes *log, uint64_t refusal);

/* ---- why (why.c) */

/* The letter at a place of a word. */
unsigned letter_at(word w, size_t place);
/* Prints why a word is rejected, whose masks these are: one way along claims that fail. */
void print_why_rejected(const rule *r, word w, const uint8_t *masks);
/* For each place of a word that is accepted, the states that the choices lead to from the initial one. */
void reached_by_choices(const rule *r, word w, const uint8_t *choices, uint8_t *reached);

#endif
