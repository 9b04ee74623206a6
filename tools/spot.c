/* The spot of a refused rule or word: which entry, clause, name or letter it is. The library stays the only judge: it is asked about parts,
 * as a rule with one entry, two clauses of it, one name, a word of one letter. */
#define _XOPEN_SOURCE 700
#include "spot.h"

#include "text.h"

#include <stdlib.h>
#include <string.h>

/* ---- rules */

/* A file with these names and no clause, or the last bytes of a preface where names would be: what the library says of names alone. */
static mulgreddi_answer ask_names(unsigned letters, const uint8_t *preface, size_t len)
{
    uint8_t file[MULGREDDI_RULE_MAX] = {0}, *at = file;
    size_t need = MULGREDDI_NAME_BYTES * letters + 2;
    if (len > need) {
        preface += len - need;
        len = need;
    }
    memcpy(at, preface, len);
    at += len + letters;
    memcpy(at, (uint8_t[]){1, (uint8_t)letters, 0, 0, 0, 0, 0x41, 0x57}, 8);
    return mulgreddi_check(file, len + letters + 8);
}

layout layout_of(const bytes *file)
{
    layout l;
    memset(&l, 0, sizeof l);
    l.states = mulgreddi_states(file->at, file->len);
    l.letters = mulgreddi_letters(file->at, file->len);
    l.initial = mulgreddi_initial_state(file->at, file->len);
    l.accepting = mulgreddi_accepting_mask(file->at, file->len);
    l.clauses_len = mulgreddi_clauses(file->at, file->len);
    l.counts = file->at + file->len - 8 - l.states * l.letters;
    l.clauses = l.counts - l.clauses_len;
    l.preface = (size_t)(l.clauses - file->at);
    mulgreddi_answer a = ask_names(l.letters, file->at, l.preface);
    if (a.second > 0 || a.refusal == MULGREDDI_NAME_BYTE || a.refusal == MULGREDDI_EQUAL_NAMES) {
        l.preface -= MULGREDDI_NAME_BYTES * l.letters + 2;
        l.names = file->at + l.preface;
    }
    l.state_names = names_of_states(file);
    return l;
}

const uint8_t *clauses_of(const layout *l, unsigned state, unsigned letter)
{
    const uint8_t *clause = l->clauses;
    for (unsigned entry = 0; entry < state * l->letters + letter; entry++)
        clause += l->counts[entry];
    return clause;
}

void print_clause(FILE *to, const layout *l, unsigned clause)
{
    const char *before = "";
    if (!l->state_names) {
        print_set(to, NULL, clause);
        return;
    }
    if (clause == 0)
        fputs("true", to);
    for (unsigned q = 0; q < l->states; q++)
        if (clause >> q & 1) {
            fprintf(to, "%s%s", before, l->state_names[q]);
            before = " & ";
        }
}

/* What the library says of a rule with as many states and one entry. */
static uint64_t ask_entry(const layout *l, unsigned state, const uint8_t *clauses, unsigned count)
{
    uint8_t counts[MULGREDDI_STATES_MAX] = {0}, out[MULGREDDI_RULE_MAX];
    counts[state] = (uint8_t)count;
    return mulgreddi_write(l->states, 1, 0, 0, counts, l->states, clauses, count, out, sizeof out).refusal;
}

/* The first entry that is refused so where it stands alone; of a count over 8 the clauses play no part. */
static int find_entry(const layout *l, uint64_t refusal, unsigned *state, unsigned *letter)
{
    static const uint8_t none[255];
    for (*state = 0; *state < l->states; ++*state)
        for (*letter = 0; *letter < l->letters; ++*letter) {
            const uint8_t *clauses = refusal == MULGREDDI_COUNT ? none : clauses_of(l, *state, *letter);
            if (ask_entry(l, *state, clauses, l->counts[*state * l->letters + *letter]) == refusal)
                return 1;
        }
    return 0;
}

static void print_entry(FILE *to, const layout *l, unsigned state, unsigned letter)
{
    fputs("state ", to);
    print_state(to, l->state_names, state);
    fputs(", letter ", to);
    if (!l->names || !l->state_names)
        fprintf(to, "%u", letter);
    if (l->names) {
        fputs(l->state_names ? "" : " (", to);
        print_name(to, l->names + MULGREDDI_NAME_BYTES * letter);
        fputs(l->state_names ? "" : ")", to);
    }
    fputs(": ", to);
}

/* A clause in a file has a number, as in the choices of a judge. */
static void print_numbered(FILE *to, const layout *l, unsigned which, unsigned clause)
{
    fputs("clause ", to);
    if (!l->state_names)
        fprintf(to, "%u ", which);
    print_clause(to, l, clause);
}

static int count_spot(FILE *to, const layout *l, unsigned *state, unsigned *letter)
{
    if (!find_entry(l, MULGREDDI_COUNT, state, letter))
        return 0;
    print_entry(to, l, *state, *letter);
    unsigned count = l->counts[*state * l->letters + *letter];
    fprintf(to, "%u%s clauses", count, l->state_names && count == 255 ? " or more" : ""); /* a text may have any number */
    return 1;
}

static int sum_spot(FILE *to, const layout *l)
{
    unsigned sum = 0;
    for (unsigned entry = 0; entry < l->states * l->letters; entry++)
        sum += l->counts[entry];
    fprintf(to, "the counts add up to %u, the trailer says %zu", sum, l->clauses_len);
    return 1;
}

static int clause_spot(FILE *to, const layout *l, unsigned *state, unsigned *letter)
{
    if (!find_entry(l, MULGREDDI_CLAUSE, state, letter))
        return 0;
    const uint8_t *clause = clauses_of(l, *state, *letter);
    unsigned which = 0, count = l->counts[*state * l->letters + *letter];
    while (which < count && ask_entry(l, *state, clause + which, 1) != MULGREDDI_CLAUSE)
        which++;
    if (which == count)
        return 0;
    print_entry(to, l, *state, *letter);
    print_numbered(to, l, which, clause[which]);
    fprintf(to, ", and the highest state is %u", l->states - 1);
    return 1;
}

/* The first clause that contains or repeats an earlier one, or is contained in it. */
static int inside_spot(FILE *to, const layout *l, unsigned *state, unsigned *letter)
{
    if (!find_entry(l, MULGREDDI_CLAUSE_INSIDE, state, letter))
        return 0;
    const uint8_t *clause = clauses_of(l, *state, *letter);
    unsigned count = l->counts[*state * l->letters + *letter];
    for (unsigned later = 1; later < count; later++)
        for (unsigned earlier = 0; earlier < later; earlier++) {
            const uint8_t two[] = {clause[earlier], clause[later]};
            if (ask_entry(l, *state, two, 2) != MULGREDDI_CLAUSE_INSIDE)
                continue;
            int forth = (two[0] & two[1]) == two[1] && two[0] != two[1];
            print_entry(to, l, *state, *letter);
            print_numbered(to, l, forth ? earlier : later, two[!forth]);
            fputs(two[0] == two[1] ? " repeats " : " contains ", to);
            print_numbered(to, l, forth ? later : earlier, two[forth]);
            return 1;
        }
    return 0;
}

void print_loop(FILE *to, const layout *l, const uint8_t *loop, uint64_t length)
{
    for (uint64_t i = 0; i < length; i++) {
        fputs(i ? ", " : "", to);
        print_state(to, l->state_names, loop[i]);
        fprintf(to, " (%s)", l->accepting >> loop[i] & 1 ? "accepting" : "rejecting");
    }
}

/* The loop hangs on the states that a state leads to alone; so an entry's clauses are put into one, which no clause is inside of, and the
 * library answers for a rule that 20 refuses as well. */
size_t mixed_loop(const layout *l, uint8_t *loop)
{
    uint8_t file[MULGREDDI_RULE_MAX], *at = file;
    size_t entries = l->states * l->letters;
    for (size_t entry = 0; entry < entries; entry++) {
        const uint8_t *clause = clauses_of(l, (unsigned)(entry / l->letters), (unsigned)(entry % l->letters));
        *at = 0;
        for (unsigned which = 0; which < l->counts[entry]; which++)
            *at |= clause[which];
        at++;
    }
    memset(at, 1, entries);
    at += entries;
    memcpy(at, (uint8_t[]){(uint8_t)l->states, (uint8_t)l->letters, 0, (uint8_t)l->accepting, (uint8_t)entries, 0, 0x41, 0x57}, 8);
    return mulgreddi_mixed_loop(file, 2 * entries + 8, loop, MULGREDDI_LONGEST_LOOP).first;
}

static int loop_spot(FILE *to, const layout *l, unsigned *state)
{
    uint8_t loop[MULGREDDI_LONGEST_LOOP];
    size_t length = mixed_loop(l, loop);
    if (length == 0)
        return 0;
    *state = loop[0];
    fputs("shortest mixed loop: ", to);
    print_loop(to, l, loop, length);
    return 1;
}

/* What the library says of a rule whose letters have these names. */
static uint64_t ask_two_names(const uint8_t *first, const uint8_t *second)
{
    uint8_t preface[2 * MULGREDDI_NAME_BYTES + 2];
    size_t len = 0;
    memcpy(preface, first, MULGREDDI_NAME_BYTES);
    len += MULGREDDI_NAME_BYTES;
    if (second) {
        memcpy(preface + len, second, MULGREDDI_NAME_BYTES);
        len += MULGREDDI_NAME_BYTES;
    }
    memcpy(preface + len, "NM", 2);
    return ask_names(second ? 2 : 1, preface, len + 2).refusal;
}

static int name_spot(FILE *to, const layout *l)
{
    for (unsigned letter = 0; l->names && letter < l->letters; letter++)
        if (ask_two_names(l->names + MULGREDDI_NAME_BYTES * letter, NULL) == MULGREDDI_NAME_BYTE) {
            fprintf(to, "letter %u: the name is ", letter);
            print_name(to, l->names + MULGREDDI_NAME_BYTES * letter);
            return 1;
        }
    return 0;
}

static int equal_names_spot(FILE *to, const layout *l)
{
    for (unsigned second = 1; l->names && second < l->letters; second++)
        for (unsigned first = 0; first < second; first++) {
            const uint8_t *name = l->names + MULGREDDI_NAME_BYTES * first;
            if (ask_two_names(name, l->names + MULGREDDI_NAME_BYTES * second) != MULGREDDI_EQUAL_NAMES)
                continue;
            fprintf(to, "letters %u and %u: the name is ", first, second);
            print_name(to, name);
            return 1;
        }
    return 0;
}

char *rule_spot(const layout *l, uint64_t refusal, unsigned *state, unsigned *letter)
{
    char *out = NULL;
    size_t len = 0;
    int found = 0;
    FILE *to = open_memstream(&out, &len);
    if (!to)
        cannot("memory");
    *state = *letter = 0;
    switch (refusal) {
    case MULGREDDI_COUNT: found = count_spot(to, l, state, letter); break;
    case MULGREDDI_SUM: found = sum_spot(to, l); break;
    case MULGREDDI_CLAUSE: found = clause_spot(to, l, state, letter); break;
    case MULGREDDI_CLAUSE_INSIDE: found = inside_spot(to, l, state, letter); break;
    case MULGREDDI_MIXED: found = loop_spot(to, l, state); break;
    case MULGREDDI_NAME_BYTE: found = name_spot(to, l); break;
    case MULGREDDI_EQUAL_NAMES: found = equal_names_spot(to, l); break;
    default: break;
    }
    if (fclose(to) != 0)
        cannot("memory");
    if (found)
        return out;
    *state = *letter = 0;
    free(out);
    return NULL;
}

void file_spot(const bytes *file, uint64_t refusal)
{
    unsigned state, letter;
    switch (refusal) { /* after rows 1 to 7 the layout is right */
    case MULGREDDI_COUNT: case MULGREDDI_SUM: case MULGREDDI_CLAUSE: case MULGREDDI_CLAUSE_INSIDE: case MULGREDDI_MIXED:
    case MULGREDDI_NAME_BYTE: case MULGREDDI_EQUAL_NAMES: break;
    default: return;
    }
    layout l = layout_of(file);
    char *spot = rule_spot(&l, refusal, &state, &letter);
    if (spot)
        say("%s", spot);
    free(spot);
}

/* ---- words */

void word_spot(const rule *r, const char *where, word w, uint64_t refusal)
{
    uint8_t out[MULGREDDI_PLACES_MAX], zero[1] = {0};
    if (refusal == MULGREDDI_LONG_WORD) {
        if (mulgreddi_tidy_word(w.lead, w.lead_len, zero, 1, out, sizeof out).refusal == refusal)
            say("%sthe lead-in has %zu letters", where, w.lead_len);
        else if (mulgreddi_tidy_word(zero, 0, w.cycle, w.cycle_len, out, sizeof out).refusal == refusal)
            say("%sthe cycle has %zu letters", where, w.cycle_len);
    }
    for (size_t place = 0; r && refusal == MULGREDDI_LETTER && place < w.lead_len + w.cycle_len; place++) {
        const uint8_t *letter = place < w.lead_len ? w.lead + place : w.cycle + (place - w.lead_len);
        if (mulgreddi_judge(r->file.at, r->file.len, zero, 0, letter, 1, out, sizeof out).refusal != refusal)
            continue;
        say("%splace %zu is letter %u, and the rule's highest letter is %u", where, place, *letter, r->letters - 1);
        return;
    }
}
