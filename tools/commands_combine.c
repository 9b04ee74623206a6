/* Commands that make rules of rules by the recipes of docs/RULES.md: and, or, not. docs/FORMAT.md lays down what they print. */
#include "spot.h"
#include "text.h"

#include <stdlib.h>
#include <string.h>

/* States of both rules and a new one; a product of two entries has 64 clauses, and one step of multiplying out has 8 for each of at most 70. */
enum { STATES = 2 * MULGREDDI_STATES_MAX + 1, CLAUSES = 560 };

typedef struct {
    unsigned count;
    uint32_t clause[CLAUSES];
} entry;

/* A rule that is made. */
typedef struct {
    const char *what; /* in messages */
    unsigned states, letters, initial;
    uint32_t accepting;
    entry entries[STATES][MULGREDDI_LETTERS_MAX];
    const char *name[STATES];
    const uint8_t *names; /* of the letters, or NULL */
} made;

/* Drops clauses that contain another: the first copy of every minimal clause stays, in order. */
static void tidy_entry(entry *e)
{
    entry kept = {0, {0}};
    for (unsigned i = 0; i < e->count; i++) {
        int inside = 0;
        for (unsigned j = 0; j < e->count && !inside; j++)
            inside = (e->clause[j] & ~e->clause[i]) == 0 && (e->clause[j] != e->clause[i] || j < i);
        if (!inside)
            kept.clause[kept.count++] = e->clause[i];
    }
    *e = kept;
}

static entry entry_of(const layout *l, unsigned state, unsigned letter, unsigned shift)
{
    entry e = {l->counts[state * l->letters + letter], {0}};
    for (unsigned i = 0; i < e.count; i++)
        e.clause[i] = (uint32_t)clauses_of(l, state, letter)[i] << shift;
    return e;
}

/* Adds the states of a rule behind those that are there. */
static void add_states(made *m, const layout *l)
{
    unsigned shift = m->states;
    for (unsigned q = 0; q < l->states; q++, m->states++) {
        m->accepting |= (uint32_t)(l->accepting >> q & 1) << m->states;
        m->name[m->states] = l->state_names[q];
        for (unsigned letter = 0; letter < l->letters; letter++)
            m->entries[m->states][letter] = entry_of(l, q, letter, shift);
    }
}

/* Every clause of the one joined with every clause of the other. */
static entry both_of(const entry *a, const entry *b)
{
    entry e = {0, {0}};
    for (unsigned i = 0; i < a->count; i++)
        for (unsigned j = 0; j < b->count; j++)
            e.clause[e.count++] = a->clause[i] | b->clause[j];
    tidy_entry(&e);
    return e;
}

/* The clauses of the one, then those of the other. */
static entry either_of(const entry *a, const entry *b)
{
    entry e = *a;
    for (unsigned i = 0; i < b->count; i++)
        e.clause[e.count++] = b->clause[i];
    tidy_entry(&e);
    return e;
}

/* `and` and `or` exchanged, multiplied out a clause at a time. */
static entry dual_of(const entry *a)
{
    entry e = {1, {0}};
    for (unsigned i = 0; i < a->count; i++) {
        entry one = {0, {0}};
        for (unsigned q = 0; q < STATES; q++)
            if (a->clause[i] >> q & 1)
                one.clause[one.count++] = 1u << q;
        e = both_of(&e, &one);
    }
    return e;
}

/* The states that the initial one leads to, itself included. */
static uint32_t reached(const made *m)
{
    uint32_t set = 1u << m->initial, before;
    do {
        before = set;
        for (unsigned q = 0; q < m->states; q++)
            for (unsigned letter = 0; before >> q & 1 && letter < m->letters; letter++)
                for (unsigned i = 0; i < m->entries[q][letter].count; i++)
                    set |= m->entries[q][letter].clause[i];
    } while (set != before);
    return set;
}

static uint32_t renumbered(uint32_t set, uint32_t kept)
{
    uint32_t out = 0;
    for (unsigned q = 0, to = 0; q < STATES; q++)
        if (kept >> q & 1)
            out |= (set >> q & 1) << to++;
    return out;
}

/* States that nothing leads to are left out: they would cost macrostates. */
static void leave_out(made *m)
{
    uint32_t kept = reached(m);
    unsigned to = 0, initial = 0;
    for (unsigned q = 0; q < m->states; q++) {
        if (!(kept >> q & 1))
            continue;
        m->name[to] = m->name[q];
        for (unsigned letter = 0; letter < m->letters; letter++) {
            entry *e = &m->entries[to][letter];
            *e = m->entries[q][letter];
            for (unsigned i = 0; i < e->count; i++)
                e->clause[i] = renumbered(e->clause[i], kept);
        }
        to++;
    }
    m->accepting = renumbered(m->accepting, kept);
    while (!(renumbered(1u << m->initial, kept) >> initial & 1))
        initial++;
    m->initial = initial;
    m->states = to;
}

/* Whether a state other than this one has the name. */
static int is_taken(const made *m, unsigned state, const char *name)
{
    for (unsigned q = 0; q < m->states; q++)
        if (q != state && strcmp(m->name[q], name) == 0)
            return 1;
    return 0;
}

/* A name that a state before it has gets _2 behind it, or _3 and so on: the first that no state has. State 0, a new one, is the last to be
 * named. */
static void tell_apart(made *m)
{
    for (unsigned i = 1; i <= m->states; i++) {
        unsigned q = i % m->states;
        const char *name = m->name[q];
        int twice = q == 0 && is_taken(m, q, name);
        for (unsigned p = 1; p < q; p++)
            twice |= strcmp(m->name[p], name) == 0;
        char *other = room(strlen(name) + 8);
        for (unsigned number = 2; twice; number++) {
            sprintf(other, "%s_%u", name, number);
            m->name[q] = other;
            twice = is_taken(m, q, other);
        }
    }
}

/* The library writes the rule, or refuses it: told with the spot. */
static bytes write_made(const made *m)
{
    uint8_t counts[MULGREDDI_STATES_MAX * MULGREDDI_LETTERS_MAX], clauses[MULGREDDI_STATES_MAX * MULGREDDI_LETTERS_MAX * CLAUSES];
    size_t entries = 0, clauses_len = 0;
    bytes file = {m->what, room(MULGREDDI_RULE_MAX), 0, NULL};
    for (unsigned q = 0; m->states <= MULGREDDI_STATES_MAX && q < m->states; q++)
        for (unsigned letter = 0; letter < m->letters; letter++) {
            const entry *e = &m->entries[q][letter];
            counts[entries++] = (uint8_t)(e->count > 255 ? 255 : e->count);
            for (unsigned i = 0; i < e->count; i++)
                clauses[clauses_len++] = (uint8_t)e->clause[i];
        }
    mulgreddi_answer a = mulgreddi_write_named(m->states, m->letters, m->initial, m->accepting, counts, entries, clauses, clauses_len,
                                               m->names ? m->names : counts, m->names ? MULGREDDI_NAME_BYTES * m->letters : 0, file.at,
                                               MULGREDDI_RULE_MAX);
    file.len = a.first;
    if (!a.refusal)
        return file;
    refused(m->what, a.refusal, NULL);
    if (a.refusal == MULGREDDI_STATES)
        say("it needs %u states", m->states);
    layout l = {m->states, m->letters, 0, 0, counts, clauses, m->names, clauses_len, 0, m->name};
    unsigned state, letter;
    char *spot = rule_spot(&l, a.refusal, &state, &letter);
    if (spot)
        say("%s", spot);
    exit(REFUSED);
}

/* Prints the text of the rule, or writes its file where --out names one. */
static int deliver(made *m)
{
    const char *path = option("out") ? out_of_bytes("a rule file") : NULL;
    leave_out(m);
    tell_apart(m);
    bytes file = write_made(m);
    if (option("out"))
        save(path, file.at, file.len);
    else {
        layout l = layout_of(&file);
        l.state_names = m->name;
        print_rule(&l);
    }
    if (path) {
        print_text(stdout, path);
        printf(": states %u, letters %u, clauses %u, %zu bytes\n", m->states, m->letters, mulgreddi_clauses(file.at, file.len), file.len);
    }
    return YES;
}

static layout named_layout(const rule *r)
{
    layout l = layout_of(&r->file);
    if (!l.state_names)
        l.state_names = numbered_states;
    return l;
}

/* Letters are joined by number, so their names must not differ. */
static void same_letters(const rule *a, const rule *b)
{
    if (a->letters != b->letters)
        exit(refused(b->file.path, MULGREDDI_OTHER_LETTERS, NULL));
    for (unsigned letter = 0; a->checked.second && b->checked.second && letter < a->letters; letter++) {
        const char *x = mulgreddi_letter_name(a->file.at, a->checked, letter), *y = mulgreddi_letter_name(b->file.at, b->checked, letter);
        if (memcmp(x, y, MULGREDDI_NAME_BYTES) == 0)
            continue;
        say("%s: refused: letter %u is \"%.*s\" there and \"%.*s\" in %s; both rules need the same letters in the same order",
            brief(a->file.path, PATH_SHOWN), letter, (int)name_length(x), x, (int)name_length(y), y, brief(b->file.path, PATH_SHOWN));
        exit(REFUSED);
    }
}

static int combine(char **operand, const char *name, entry (*of)(const entry *, const entry *))
{
    static made m;
    distinct(operand[0], option("out"));
    distinct(operand[1], option("out"));
    rule a = open_rule(operand[0]), b = open_rule(operand[1]);
    same_letters(&a, &b);
    layout x = named_layout(&a), y = named_layout(&b);
    m.what = "the combined rule";
    m.states = 1;
    m.letters = a.letters;
    m.names = x.names ? x.names : y.names;
    m.name[0] = name;
    add_states(&m, &x);
    add_states(&m, &y);
    for (unsigned letter = 0; letter < m.letters; letter++)
        m.entries[0][letter] = of(&m.entries[1 + a.initial][letter], &m.entries[1 + a.states + b.initial][letter]);
    return deliver(&m);
}

static int and_command(int count, char **operand)
{
    (void)count;
    return combine(operand, "both", both_of);
}

static int or_command(int count, char **operand)
{
    (void)count;
    return combine(operand, "either", either_of);
}

#define MADE_HELP \
    "States that nothing leads to are left out. Refused where the rule needs more than 8 states, or 8 clauses for a\n" \
    "state and a letter.\n" \
    "  --out=OUT            writes the rule's file there and prints how much the rule has\n"

const command command_and = {
    "and", "[--out=OUT] FILE FILE", "out=",
    "Prints the text of a rule that accepts the words that both rules accept: the states of both and a new initial\n"
    "state, `both`. Letters go by number; their names must be the same. Of states with the same name those of the second\n"
    "rule get _2 behind it.\n" MADE_HELP,
    2, 2, and_command,
};

const command command_or = {
    "or", "[--out=OUT] FILE FILE", "out=",
    "Prints the text of a rule that accepts the words that one of the rules accepts, or both: the states of both and a\n"
    "new initial state, `either`. Letters go by number; their names must be the same. Of states with the same name those\n"
    "of the second rule get _2 behind it.\n" MADE_HELP,
    2, 2, or_command,
};

static int not_command(int count, char **operand)
{
    static made m;
    (void)count;
    distinct(operand[0], option("out"));
    rule a = open_rule(operand[0]);
    layout l = named_layout(&a);
    m.what = "the dual rule";
    m.letters = a.letters;
    m.names = l.names;
    add_states(&m, &l);
    m.initial = a.initial;
    m.accepting = ~m.accepting & ((1u << m.states) - 1);
    for (unsigned q = 0; q < m.states; q++)
        for (unsigned letter = 0; letter < m.letters; letter++)
            m.entries[q][letter] = dual_of(&m.entries[q][letter]);
    return deliver(&m);
}

const command command_not = {
    "not", "[--out=OUT] FILE", "out=",
    "Prints the text of the dual rule, which accepts the words that the rule rejects: accepting and rejecting, & and |,\n"
    "true and false change places, and what comes out is multiplied out.\n" MADE_HELP,
    1, 1, not_command,
};
