/* The command show: a rule file as text. docs/FORMAT.md has the form. */
#include "spot.h"
#include "text.h"

#include <string.h>

const char *const numbered_states[MULGREDDI_STATES_MAX] = {"s0", "s1", "s2", "s3", "s4", "s5", "s6", "s7"};

static int same_clauses(const layout *l, unsigned state, unsigned one, unsigned other)
{
    unsigned count = l->counts[state * l->letters + one];
    return count == l->counts[state * l->letters + other] && memcmp(clauses_of(l, state, one), clauses_of(l, state, other), count) == 0;
}

static void print_clauses(const layout *l, unsigned state, unsigned letter)
{
    const uint8_t *clause = clauses_of(l, state, letter);
    unsigned count = l->counts[state * l->letters + letter];
    if (count == 0)
        printf(" false");
    for (unsigned which = 0; which < count; which++) {
        printf(which ? " | " : " ");
        print_clause(stdout, l, clause[which]);
    }
}

/* The letters of a state that have the same clauses share a line. */
static void print_entries(const layout *l, unsigned state)
{
    unsigned told = 0;
    for (unsigned letter = 0; letter < l->letters; letter++) {
        unsigned alike = 0;
        if (told >> letter & 1)
            continue;
        for (unsigned other = letter; other < l->letters; other++)
            alike |= (unsigned)same_clauses(l, state, letter, other) << other;
        printf("   ");
        if (l->letters > 1 && alike + 1 == 1u << l->letters)
            printf(" *");
        else
            for (unsigned other = letter; other < l->letters; other++)
                if (alike >> other & 1) {
                    printf(" ");
                    if (l->names)
                        print_name(stdout, l->names + MULGREDDI_NAME_BYTES * other);
                    else
                        printf("%u", other);
                }
        printf(":");
        print_clauses(l, state, letter);
        printf("\n");
        told |= alike;
    }
}

void print_rule(const layout *l)
{
    if (l->preface)
        printf("# preface bytes that are not names, left out here: %zu\n", l->preface);
    printf("letters");
    if (!l->names)
        printf(" %u", l->letters);
    for (unsigned letter = 0; l->names && letter < l->letters; letter++) {
        printf(" ");
        print_name(stdout, l->names + MULGREDDI_NAME_BYTES * letter);
    }
    printf("\n");
    for (unsigned state = 0; state < l->states; state++) {
        printf("state %s %s\n", l->state_names[state], l->accepting >> state & 1 ? "accepting" : "rejecting");
        print_entries(l, state);
    }
    printf("initial %s\n", l->state_names[l->initial]);
}

/* Rows 1 to 10 are tried before these, so the layout is right where one of these refuses. */
static int laid_out(uint64_t refusal)
{
    return refusal == 0 || refusal == MULGREDDI_CLAUSE_INSIDE || refusal == MULGREDDI_MIXED || refusal == MULGREDDI_NAMES ||
           refusal == MULGREDDI_NAME_BYTE || refusal == MULGREDDI_EQUAL_NAMES;
}

static int show(int count, char **operand)
{
    bytes file = load_rule(operand[0]);
    uint64_t refusal = mulgreddi_check(file.at, file.len).refusal;
    (void)count;
    if (laid_out(refusal)) {
        layout l = layout_of(&file);
        if (!l.state_names)
            l.state_names = numbered_states;
        print_rule(&l);
    }
    return refusal ? refused(file.path, refusal, &file) : YES;
}

const command command_show = {
    "show", "FILE", "",
    "Prints a rule file as text, which `write` reads: the letters, each state with a line for each letter, or for\n"
    "several that do the same, and the initial state; states are s0, s1 and on. `a & b | c` is clauses, `true` the\n"
    "empty clause, `false` none. A file refused by 11 or 20 to 23 is printed as well, to be mended.\n",
    1, 1, show,
};
