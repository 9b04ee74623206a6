/* Commands on the tables that are built of rules: list, build, hoa, read-hoa. */
#include "spot.h"

/* Marks with each state those that it leads to, over any number of steps, zero included. */
static void find_reached(const layout *l, uint8_t *reached)
{
    for (unsigned q = 0; q < l->states; q++) {
        reached[q] = (uint8_t)(1u << q);
        for (unsigned letter = 0; letter < l->letters; letter++)
            for (unsigned which = 0; which < l->counts[q * l->letters + letter]; which++)
                reached[q] |= clauses_of(l, q, letter)[which];
    }
    for (unsigned over = 0; over < l->states; over++)
        for (unsigned q = 0; q < l->states; q++)
            if (reached[q] >> over & 1)
                reached[q] |= reached[over];
}

/* The states of a component: those that lead to each other. Components are numbered in rising order of their smallest states. */
static unsigned component(const layout *l, unsigned number)
{
    uint8_t reached[MULGREDDI_STATES_MAX];
    unsigned before = 0, states = 0;
    find_reached(l, reached);
    for (unsigned q = 0; q < l->states; q++) {
        states = 0;
        for (unsigned other = 0; other < l->states; other++)
            states |= (unsigned)(reached[q] >> other & 1 && reached[other] >> q & 1) << other;
        if (before >> q & 1)
            continue;
        if (number-- == 0)
            return states;
        before |= states;
    }
    return 0;
}

/* What a code holds: the set, the ranks of the open states, the component, and its rank classes that are left to discharge. */
static void print_decoded(const layout *l, uint64_t code)
{
    const char *before = " ";
    unsigned in = component(l, code >> 40 & 15), left = code >> 44 & 15;
    printf(" set ");
    print_set(stdout, l->state_names, mulgreddi_code_set(code));
    printf(" ranks");
    for (unsigned q = 0; q < l->states; q++)
        if (code >> (8 + 4 * q) & 15) {
            fputs(before, stdout);
            print_state(stdout, l->state_names, q);
            printf("=%u", (unsigned)(code >> (8 + 4 * q) & 15));
            before = ",";
        }
    printf("%s component %u ", *before == ' ' ? " none" : "", (unsigned)(code >> 40 & 15));
    print_set(stdout, l->state_names, in);
    printf(" left%s", left ? "" : " none");
    for (unsigned rank = 1; rank <= left; rank++) {
        unsigned class = 0;
        for (unsigned q = 0; q < l->states; q++)
            class |= (unsigned)((code >> (8 + 4 * q) & 15) == rank && in >> q & 1) << q;
        printf("%s", rank > 1 ? "<" : " ");
        print_set(stdout, l->state_names, class);
    }
}

static int list(int count, char **operand)
{
    bytes file = load_rule(operand[0]);
    rule r = {file, mulgreddi_check(file.at, file.len), 0, 0, 0, 0};
    mulgreddi_answer a = build_of(&r);
    (void)count;
    if (a.refusal) {
        printf("refused %llu\n", (number)a.refusal);
        return refused(file.path, a.refusal, &file);
    }
    printf("built %llu %llu\n", (number)a.first, (number)a.second);
    for (unsigned letter = 0; letter < r.checked.second / MULGREDDI_NAME_BYTES; letter++)
        printf("n %u %.8s\n", letter, mulgreddi_letter_name(file.at, r.checked, letter));
    for (unsigned state = 0; file.text && state < mulgreddi_states(file.at, file.len); state++)
        printf("s %u %s\n", state, names_of_states(&file)[state]);
    unsigned initial = mulgreddi_initial_state(file.at, file.len);
    layout l = layout_of(&file);
    for (uint64_t m = 0; m < a.first; m++) {
        printf("m %llu %llu %c %c", (number)m, (number)codes[m], mulgreddi_code_initial(codes[m], initial) ? 'i' : '-',
               mulgreddi_code_accepting(codes[m]) ? 'a' : '-');
        if (option("decoded"))
            print_decoded(&l, codes[m]);
        printf("\n");
    }
    for (uint64_t t = 0; t < a.second; t++)
        printf("t %llu %u %llu\n", (number)mulgreddi_source(transitions[t]), mulgreddi_letter(transitions[t]),
               (number)mulgreddi_target(transitions[t]));
    return YES;
}

const command command_list = {
    "list", "[--trimmed] [--decoded] FILE", "trimmed decoded",
    "Prints the listing of the rule's automaton: a line `built`, macrostates, transitions; of a rule with names\n"
    "a line `n`, letter, name for each letter; a line `m`, number, code, `i` if initial, `a` if accepting for\n"
    "each macrostate; a line `t`, source, letter, target for each transition. Room for 65,536 macrostates and\n"
    "1,048,576 transitions. A refusal is the line `refused` and the number. Of a text a line `s`, number, name for\n"
    "each state stands before the macrostates.\n"
    "  --trimmed            only the macrostates that matter: those from which an accepting run exists\n"
    "  --decoded            an m line goes on with what its code holds: the set of states claimed true, the ranks of the\n"
    "                       open states, the component and which rank classes of it are left to discharge\n",
    1, 1, list,
};

/* The file that an option of build names; standard output has the counts. */
static const char *table_file(const char *name)
{
    const char *path = option(name);
    if (path && is_standard(path))
        usage("--%s=-: standard output has the counts; name a file", name);
    return path;
}

static int build_table(int count, char **operand)
{
    const char *codes_file = table_file("codes"), *transitions_file = table_file("transitions");
    distinct(codes_file, transitions_file);
    distinct(operand[0], codes_file);
    distinct(operand[0], transitions_file);
    rule r = open_rule(operand[0]);
    mulgreddi_answer a = build_of(&r);
    uint64_t initial = 0, accepting = 0;
    (void)count;
    if (a.refusal)
        return refused(r.file.path, a.refusal, &r.file);
    for (uint64_t m = 0; m < a.first; m++) {
        initial += mulgreddi_code_initial(codes[m], r.initial) != 0;
        accepting += mulgreddi_code_accepting(codes[m]) != 0;
    }
    if (codes_file)
        write_beside(codes_file, low_first(codes, a.first), 8 * a.first);
    if (transitions_file)
        write_beside(transitions_file, low_first(transitions, a.second), 8 * a.second);
    rename_written();
    printf("macrostates %llu, initial %llu, accepting %llu, transitions %llu\n", (number)a.first, (number)initial, (number)accepting,
           (number)a.second);
    return YES;
}

const command command_build = {
    "build", "[--trimmed] [--codes=FILE] [--transitions=FILE] FILE", "trimmed codes= transitions=",
    "Builds the unambiguous automaton of the rule and prints how many macrostates it has, how many of them are\n"
    "initial and accepting, and how many transitions.\n"
    "  --trimmed            only the macrostates that matter: those from which an accepting run exists\n"
    "  --codes=FILE         writes the codes of the macrostates there, 8 bytes each, low byte first\n"
    "  --transitions=FILE   writes the transitions there, source * 16777216 + letter * 65536 + target, likewise\n",
    1, 1, build_table,
};

static int hoa(int count, char **operand)
{
    distinct(operand[0], option("out"));
    rule r = open_rule(operand[0]);
    mulgreddi_answer a = build_of(&r), written;
    (void)count;
    if (a.refusal)
        return refused(r.file.path, a.refusal, &r.file);
    size_t size = MULGREDDI_HOA_BOUND(a.first, a.second);
    uint8_t *c = low_first(codes, a.first), *t = low_first(transitions, a.second), *text = room(size);
    begin_work("writing");
    written = mulgreddi_write_hoa(r.file.at, r.file.len, c, 8 * a.first, t, 8 * a.second, text, size);
    end_work();
    if (written.refusal)
        return refused(r.file.path, written.refusal, &r.file);
    save(option("out"), text, written.first);
    return YES;
}

const command command_hoa = {
    "hoa", "[--trimmed] [--out=FILE] FILE", "trimmed out=",
    "Writes the rule's automaton as a text in the Hanoi Omega-Automata format, version 1, which model checkers and\n"
    "viewers read: a letter is the valuation of propositions e0, e1, .. that its number has in binary. The text does not\n"
    "carry the names of letters and states, the codes, the number of letters, nor that no word has two accepting runs\n"
    "(a line `properties: unambiguous`): its lines are fixed. The automaton is unambiguous all the same.\n"
    "  --trimmed            only the macrostates that matter: those from which an accepting run exists\n"
    "  --out=FILE           writes it there instead of to standard output\n",
    1, 1, hoa,
};

static int read_hoa(int count, char **operand)
{
    bytes text = load(operand[0]);
    /* a text has more bytes than macrostates and transitions */
    uint8_t *flags = room(text.len);
    uint64_t *t = room(8 * text.len);
    (void)count;
    begin_work("reading");
    mulgreddi_answer a = mulgreddi_read_hoa(text.at, text.len, flags, text.len, t, text.len);
    end_work();
    if (a.refusal)
        return refused(text.path, a.refusal, NULL);
    printf("read %llu %llu\n", (number)a.first, (number)a.second);
    for (uint64_t m = 0; m < a.first; m++)
        printf("m %llu %c %c\n", (number)m, flags[m] & 1 ? 'i' : '-', flags[m] & 2 ? 'a' : '-');
    for (uint64_t i = 0; i < a.second; i++)
        printf("t %llu %u %llu\n", (number)mulgreddi_source(t[i]), mulgreddi_letter(t[i]), (number)mulgreddi_target(t[i]));
    return YES;
}

const command command_read_hoa = {
    "read-hoa", "FILE", "",
    "Reads a text that `hoa` wrote, and no other, and prints what it carries: a line `read`, macrostates,\n"
    "transitions; a line `m`, number, `i` if initial, `a` if accepting for each macrostate; a line `t`, source,\n"
    "letter, target for each transition.\n",
    1, 1, read_hoa,
};
