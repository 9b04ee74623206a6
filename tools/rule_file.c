/* The file of a rule that was read as text, and its refusals, told by the text's lines. */
#include "rule_text.h"

#include "spot.h"

#include <stdlib.h>
#include <string.h>

/* The counts and clauses of a text's entries. */
typedef struct {
    uint8_t counts[MULGREDDI_STATES_MAX * MULGREDDI_LETTERS_MAX], *clauses;
    size_t entries, clauses_len;
} entries;

static entries entries_of(const rule_text *r)
{
    entries e = {{0}, NULL, 0, 0};
    for (unsigned q = 0; q < r->states; q++)
        for (unsigned letter = 0; letter < r->letters; letter++)
            e.clauses_len += r->entry[q][letter]->clauses_count;
    uint8_t *at = e.clauses = room(e.clauses_len);
    for (unsigned q = 0; q < r->states; q++)
        for (unsigned letter = 0; letter < r->letters; letter++) {
            const entry_line *line = r->entry[q][letter];
            e.counts[e.entries++] = (uint8_t)(line->clauses_count > 255 ? 255 : line->clauses_count);
            memcpy(at, line->clauses, line->clauses_count);
            at += line->clauses_count;
        }
    return e;
}

/* The line that a refusal of the whole rule is told at. */
static number line_of(const rule_text *r, uint64_t refusal, unsigned state, unsigned letter)
{
    switch (refusal) {
    case MULGREDDI_COUNT:
    case MULGREDDI_CLAUSE_INSIDE: return r->entry[state][letter]->line;
    case MULGREDDI_MIXED: return r->state_line[state];
    default: return r->t.line;
    }
}

/* The line of the lowest letter by which a state leads to another, or NULL. */
static const entry_line *line_to(const rule_text *r, unsigned from, unsigned to)
{
    for (unsigned letter = 0; letter < r->letters; letter++) {
        const entry_line *line = r->entry[from][letter];
        for (size_t which = 0; which < line->clauses_count; which++)
            if (line->clauses[which] >> to & 1)
                return line;
    }
    return NULL;
}

/* Tells the lines by which each state of the shortest mixed loop leads to the next. */
static void tell_steps(const rule_text *r, const layout *l)
{
    uint8_t loop[MULGREDDI_LONGEST_LOOP];
    size_t length = mixed_loop(l, loop);
    for (size_t i = 0; i < length; i++) {
        unsigned from = loop[i], to = loop[(i + 1) % length];
        const entry_line *line = line_to(r, from, to);
        if (line)
            say_at(&r->t, line->line, "state %s leads to %s here", l->state_names[from], l->state_names[to]);
    }
}

int text_refused(const rule_text *r, uint64_t refusal)
{
    if (refusal != MULGREDDI_COUNT && refusal != MULGREDDI_CLAUSE_INSIDE && refusal != MULGREDDI_MIXED)
        return 0;
    entries e = entries_of(r);
    layout l = {r->states, r->letters, 0, r->accepting, e.counts, e.clauses, r->names_len ? r->names : NULL, e.clauses_len, 0, r->shown_name};
    unsigned state, letter;
    char *spot = rule_spot(&l, refusal, &state, &letter);
    refused_at(&r->t, line_of(r, refusal, state, letter), refusal, spot);
    if (refusal == MULGREDDI_MIXED)
        tell_steps(r, &l);
    if (refusal == MULGREDDI_CLAUSE_INSIDE) {
        unsigned count = l.counts[state * l.letters + letter];
        const char *cure = memchr(clauses_of(&l, state, letter), 0, count) ? "`true` is met by itself: write `true` and no other clause"
                                                                           : "leave out the clause that contains the other: it says nothing more";
        say_at(&r->t, line_of(r, refusal, state, letter), "%s", cure);
    }
    free(spot);
    free(e.clauses);
    return 1;
}

/* Lays the file out: names and 4e 4d, clauses, counts, trailer. Counts are at most 8, so all fits. */
static size_t lay_out(const rule_text *r, const entries *e, uint8_t *out)
{
    uint8_t *at = out;
    memcpy(at, r->names, r->names_len);
    at += r->names_len;
    if (r->names_len) {
        memcpy(at, "NM", 2);
        at += 2;
    }
    memcpy(at, e->clauses, e->clauses_len);
    at += e->clauses_len;
    memcpy(at, e->counts, e->entries);
    at += e->entries;
    memcpy(at, (uint8_t[]){(uint8_t)r->states, (uint8_t)r->letters, (uint8_t)state_named(r, r->initial), (uint8_t)r->accepting,
                           (uint8_t)e->clauses_len, (uint8_t)(e->clauses_len >> 8), 0x41, 0x57}, 8);
    return (size_t)(at + 8 - out);
}

bytes file_of_text(rule_text *r)
{
    entries e = entries_of(r);
    bytes file = {r->t.file.path, room(MULGREDDI_RULE_MAX), 0, r};
    mulgreddi_answer a = mulgreddi_write_named(r->states, r->letters, (uint32_t)state_named(r, r->initial), r->accepting, e.counts, e.entries,
                                               e.clauses, e.clauses_len, r->names, r->names_len, file.at, MULGREDDI_RULE_MAX);
    if (a.refusal == MULGREDDI_COUNT) {
        text_refused(r, a.refusal);
        leave(REFUSED);
    }
    /* a rule that the library does not write is laid out all the same, so that it can be shown and mended */
    file.len = a.refusal ? lay_out(r, &e, file.at) : a.first;
    free(e.clauses);
    return file;
}
