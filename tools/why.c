/* Why a word is accepted or rejected, from the library's masks and choices. docs/FORMAT.md lays down what is printed. */
#include "spot.h"

#include <string.h>

unsigned letter_at(word w, size_t place)
{
    return place < w.lead_len ? w.lead[place] : w.cycle[place - w.lead_len];
}

static size_t place_after(word w, size_t place)
{
    return place + 1 < w.lead_len + w.cycle_len ? place + 1 : w.lead_len;
}

/* A rule, a word that it rejects, and its masks. The distance of a state at a place from which the rule does not accept is 0 where the state
 * is rejecting or has no clause, else one more than that of some state which each of its clauses fails by; FAR is not known yet. No claim of
 * accepting states alone fails for ever, so each that fails has one. */
typedef struct {
    const rule *r;
    layout l;
    word w;
    const uint8_t *masks;
    unsigned distance[MULGREDDI_PLACES_MAX][MULGREDDI_STATES_MAX];
} failing;

enum { FAR = MULGREDDI_PLACES_MAX * MULGREDDI_STATES_MAX };

static unsigned clauses_count(const failing *f, size_t place, unsigned state)
{
    return f->l.counts[state * f->l.letters + letter_at(f->w, place)];
}

static unsigned clause_at(const failing *f, size_t place, unsigned state, unsigned which)
{
    return clauses_of(&f->l, state, letter_at(f->w, place))[which];
}

static int is_accepting(const failing *f, unsigned state)
{
    return f->l.accepting >> state & 1;
}

/* The lowest state of a clause that fails at a place with less than this distance, or the number of states. */
static unsigned failing_state(const failing *f, size_t place, unsigned clause, unsigned below)
{
    for (unsigned q = 0; q < f->l.states; q++)
        if (clause >> q & 1 && !(f->masks[place] >> q & 1) && f->distance[place][q] < below)
            return q;
    return f->l.states;
}

/* Whether each clause fails by a state with less than this distance. */
static int all_fail(const failing *f, size_t place, unsigned state, unsigned below)
{
    for (unsigned which = 0; which < clauses_count(f, place, state); which++)
        if (failing_state(f, place_after(f->w, place), clause_at(f, place, state, which), below) == f->l.states)
            return 0;
    return 1;
}

static void find_distances(failing *f)
{
    size_t places = f->w.lead_len + f->w.cycle_len;
    for (size_t place = 0; place < places; place++)
        for (unsigned q = 0; q < f->l.states; q++)
            f->distance[place][q] = !is_accepting(f, q) || clauses_count(f, place, q) == 0 ? 0 : FAR;
    for (unsigned round = 1; round < FAR; round++)
        for (size_t place = 0; place < places; place++)
            for (unsigned q = 0; q < f->l.states; q++)
                if (!(f->masks[place] >> q & 1) && f->distance[place][q] == FAR && all_fail(f, place, q, round))
                    f->distance[place][q] = round;
}

static void print_place(const failing *f, size_t place)
{
    printf("  place %zu, letter ", place);
    print_letter(f->r, letter_at(f->w, place));
    printf(": state ");
}

/* Prints how each clause of a state fails; answers the state by which the first does. */
static unsigned print_failing(const failing *f, size_t place, unsigned state)
{
    unsigned next = 0;
    print_place(f, place);
    print_state(stdout, f->l.state_names, state);
    for (unsigned which = 0; which < clauses_count(f, place, state); which++) {
        unsigned clause = clause_at(f, place, state, which);
        unsigned by = failing_state(f, place_after(f->w, place), clause, is_accepting(f, state) ? f->distance[place][state] : FAR);
        printf("%s clause %u ", which ? "," : ":", which);
        print_clause(stdout, &f->l, clause);
        printf(" fails by state ");
        print_state(stdout, f->l.state_names, by);
        next = which ? next : by;
    }
    printf("\n");
    return next;
}

/* Whether a letter may end the wait of these states: each has a clause for it without any of them. */
static int may_end(const failing *f, unsigned letter, unsigned loop)
{
    for (unsigned q = 0; q < f->l.states; q++) {
        unsigned free = 0;
        for (unsigned which = 0; which < f->l.counts[q * f->l.letters + letter]; which++)
            free |= !(clauses_of(&f->l, q, letter)[which] & loop);
        if (loop >> q & 1 && !free)
            return 0;
    }
    return 1;
}

/* Prints that the states of a loop wait for ever and, where no letter of the cycle may end that, which letters may. */
static void print_waiting(const failing *f, size_t place, unsigned loop)
{
    unsigned letters = 0, in_cycle = 0, several = (loop & (loop - 1)) != 0;
    const char *before = "";
    printf("  place %zu again: state%s ", place, several ? "s" : "");
    for (unsigned q = 0; q < f->l.states; q++)
        if (loop >> q & 1) {
            fputs(before, stdout);
            print_state(stdout, f->l.state_names, q);
            before = ", ";
        }
    printf(" wait%s for ever", several ? "" : "s");
    before = ": ";
    for (size_t i = 0; i < f->w.cycle_len; i++)
        in_cycle |= (unsigned)may_end(f, f->w.cycle[i], loop);
    for (unsigned letter = 0; !in_cycle && letter < f->l.letters; letter++)
        if (may_end(f, letter, loop)) {
            fputs(before, stdout);
            print_letter(f->r, letter);
            before = ", ";
            letters++;
        }
    if (letters)
        printf(" never come%s in the cycle", letters > 1 ? "" : "s");
    printf("\n");
}

/* One way along claims that fail, from the initial state on: the first clause of each and the lowest state that it fails by. It ends where a
 * state has no clause, or comes again at the same place. */
void print_why_rejected(const rule *r, word w, const uint8_t *masks)
{
    static failing f;
    unsigned at[FAR + 1], seen[MULGREDDI_PLACES_MAX][MULGREDDI_STATES_MAX] = {{0}}, steps = 0, state = r->initial;
    size_t place = 0;
    f.r = r;
    f.l = layout_of(&r->file);
    f.w = w;
    f.masks = masks;
    find_distances(&f);
    while (!seen[place][state]) {
        at[steps++] = state;
        seen[place][state] = steps;
        if (clauses_count(&f, place, state) == 0) {
            print_place(&f, place);
            print_state(stdout, f.l.state_names, state);
            printf(" has no clause\n");
            return;
        }
        state = print_failing(&f, place, state);
        place = place_after(w, place);
    }
    unsigned loop = 0;
    for (unsigned step = seen[place][state] - 1; step < steps; step++)
        loop |= 1u << at[step];
    print_waiting(&f, place, loop);
}

void reached_by_choices(const rule *r, word w, const uint8_t *choices, uint8_t *reached)
{
    layout l = layout_of(&r->file);
    size_t places = w.lead_len + w.cycle_len;
    memset(reached, 0, places);
    reached[0] = (uint8_t)(1u << r->initial);
    for (int grown = 1; grown;) {
        grown = 0;
        for (size_t place = 0; place < places; place++)
            for (unsigned q = 0; q < r->states; q++) {
                uint8_t *next = reached + place_after(w, place);
                if (!(reached[place] >> q & 1))
                    continue;
                unsigned clause = clauses_of(&l, q, letter_at(w, place))[choices[place * r->states + q]];
                grown |= (clause & ~*next) != 0;
                *next = (uint8_t)(*next | clause);
            }
    }
}
