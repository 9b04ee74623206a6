/* Reads off the tables of a rule the chance that the rule is kept, when letters come independently of each other with given weights: an example
 * of planning software, which stands on the header alone. docs/CHANCE.md tells why each step is right. `make install` installs it as
 * mulgreddi-chance.
 * Run: chance RULE WEIGHT..    a weight for each letter, in order or as NAME=WEIGHT, *=WEIGHT for all others; weights need not add up to 1
 *      chance FOLDER           the rules there, with the reason for each figure, then what goes wrong with two accepting runs or by iteration
 * Status: 0 told, 2 the rule is refused, or the figure could not be checked for want of room, 3 wrong usage, no file, not written, not right. */
#define _XOPEN_SOURCE 700
#include <mulgreddi.h>

#include <errno.h>
#include <float.h>
#include <stdarg.h>
#include <stdio.h>
#include <stdlib.h>
#include <string.h>

enum { REFUSED = 2, FAULT = 3, FILE_BYTES = 1 << 26, SHOWN_SETS = 4, NONE = -1 };

/* ---- Messages ---- */

/* Characters that are not seen, end a line or turn the direction of what follows. */
static int is_seen(unsigned code)
{
    static const unsigned unseen[][2] = {{0, 0x1f}, {0x7f, 0x9f}, {0x61c, 0x61c}, {0x200b, 0x200f}, {0x2028, 0x202e}, {0x2060, 0x206f},
                                         {0xfeff, 0xfeff}, {0xfff9, 0xfffb}, {0xe0000, 0xe007f}};
    for (size_t i = 0; i < sizeof unseen / sizeof *unseen; i++)
        if (unseen[i][0] <= code && code <= unseen[i][1])
            return 0;
    return 1;
}

/* How many bytes the character takes that begins here; 0 where it is no UTF-8, or one that is not seen. */
static int character(const unsigned char *at)
{
    static const unsigned least[] = {0, 0, 0x80, 0x800, 0x10000}; /* what so many bytes are needed for */
    int length = at[0] < 0x80 ? 1 : at[0] < 0xc0 ? 0 : at[0] < 0xe0 ? 2 : at[0] < 0xf0 ? 3 : at[0] < 0xf8 ? 4 : 0;
    unsigned code = length > 1 ? at[0] & (0x7fu >> length) : at[0];
    for (int i = 1; i < length; i++) {
        if ((at[i] & 0xc0) != 0x80)
            return 0;
        code = code << 6 | (at[i] & 0x3f);
    }
    return code >= least[length] && code <= 0x10ffff && (code < 0xd800 || code > 0xdfff) && is_seen(code) ? length : 0;
}

static void print_text(FILE *to, const char *text)
{
    for (const unsigned char *at = (const unsigned char *)text; *at;) {
        int length = character(at);
        if (length == 0)
            fprintf(to, "\\x%02x", *at++);
        for (; length > 0; length--)
            fputc(*at++, to);
    }
}

/* A text of the user's, and what is wrong with it. */
static void say(const char *what, const char *why, ...)
{
    va_list list;
    fflush(stdout);
    fputs("mulgreddi-chance: ", stderr);
    print_text(stderr, what);
    fputs(": ", stderr);
    va_start(list, why);
    vfprintf(stderr, why, list);
    va_end(list);
    fputc('\n', stderr);
}

static _Noreturn void fail(const char *what, const char *why)
{
    say(what, "%s", why);
    exit(FAULT);
}

static void *room(size_t count, size_t size)
{
    void *at = calloc(count ? count : 1, size);
    if (!at)
        fail("memory", "there is none left");
    return at;
}

/* ---- A rule and its letters ---- */

typedef struct {
    const char *path;
    uint8_t *file;
    size_t length;
    mulgreddi_answer checked;
    unsigned letters, initial;
    long double weight[MULGREDDI_LETTERS_MAX];
} rule;

/* The name of a letter as it is written in a weight: without the blanks at its end; its number where it has no name or one that cannot
 * stand there. */
static const char *letter_name(const rule *r, unsigned letter)
{
    static char text[MULGREDDI_NAME_BYTES + 4];
    const char *name = mulgreddi_letter_name(r->file, r->checked, letter);
    size_t n = name ? MULGREDDI_NAME_BYTES : 0;
    while (n > 0 && name[n - 1] == ' ')
        n--;
    snprintf(text, sizeof text, "%.*s", (int)n, name ? name : "");
    if (n == 0 || strpbrk(text, " =*") || strspn(text, "0123456789") == n)
        snprintf(text, sizeof text, "%u", letter);
    return text;
}

static void print_letters(FILE *to, const rule *r, const char *after)
{
    for (unsigned a = 0; a < r->letters; a++)
        fprintf(to, " %s%s", letter_name(r, a), after);
}

static int is_text(const rule *r) { return r->length > 8 && memcmp(r->file, "letters", 7) == 0; }

static int refuse(const rule *r, uint64_t refusal)
{
    const char *cure = "";
    if (refusal == MULGREDDI_MACROSTATE_ROOM || refusal == MULGREDDI_TRANSITION_ROOM)
        cure = refusal == MULGREDDI_MACROSTATE_ROOM ? ": 65,536 (docs/RULES.md, \"The limit\")" : ": 1,048,576 (docs/RULES.md, \"The limit\")";
    say(r->path, "refused %d: %s%s", (int)refusal, mulgreddi_refusal_text(refusal), cure);
    return REFUSED;
}

/* Reads the file whole; answers 0 where it is a folder. */
static int read_file(rule *r, const char *path)
{
    FILE *f = strcmp(path, "-") == 0 ? stdin : fopen(path, "rb");
    r->path = f == stdin ? "standard input" : path;
    if (!f)
        fail(r->path, strerror(errno));
    size_t most = 4096;
    r->file = room(most, 1);
    r->length = 0;
    for (size_t n; (n = fread(r->file + r->length, 1, most - r->length, f)) > 0;) {
        r->length += n;
        if (r->length == most) {
            most *= 2;
            r->file = most > FILE_BYTES ? NULL : realloc(r->file, most);
            if (!r->file)
                fail(r->path, "too long for a rule");
        }
    }
    if (ferror(f) && errno == EISDIR)
        return 0;
    if (ferror(f))
        fail(r->path, strerror(errno));
    if (f != stdin)
        fclose(f);
    return 1;
}

static void check_rule(rule *r)
{
    r->checked = mulgreddi_check(r->file, r->length);
    if (r->checked.refusal && is_text(r)) {
        say(r->path, "is the text of a rule: mulgreddi write TEXT | mulgreddi-chance - WEIGHT..");
        exit(FAULT);
    }
    if (r->checked.refusal)
        exit(refuse(r, r->checked.refusal));
    r->letters = mulgreddi_letters(r->file, r->length);
    r->initial = mulgreddi_initial_state(r->file, r->length);
}

/* ---- Weights ---- */

/* What is wrong with the weights as a whole, and which are needed. */
static _Noreturn void ask_weights(const rule *r, const char *why)
{
    say(r->path, "%s", why);
    fputs("weights, in this order or in any order by name:", stderr);
    print_letters(stderr, r, "=WEIGHT");
    fputs("\n*=WEIGHT is the weight of all letters that are not named; *=1 alone makes all equally likely\n", stderr);
    exit(FAULT);
}

static long double read_weight(const char *text, const char *argument)
{
    char *end;
    errno = 0;
    long double weight = strtold(text, &end);
    if (end == text || *end != 0 || errno == ERANGE || !(weight >= 0 && weight <= 1e6L))
        fail(argument, "not a weight from 0 to 1000000");
    return weight;
}

/* The letter of a name, or of a number where no letter has that name. */
static unsigned find_letter(const rule *r, const char *name, size_t length, const char *argument)
{
    for (unsigned a = 0; a < r->letters && r->checked.second > 0; a++) {
        const char *own = mulgreddi_letter_name(r->file, r->checked, a);
        size_t n = MULGREDDI_NAME_BYTES;
        while (n > length && own[n - 1] == ' ')
            n--;
        if (n == length && memcmp(own, name, n) == 0)
            return a;
    }
    unsigned number = 0;
    size_t i = 0;
    for (; i < length && name[i] >= '0' && name[i] <= '9' && number < 100; i++)
        number = 10 * number + (unsigned)(name[i] - '0');
    if (length > 0 && i == length && number < r->letters)
        return number;
    say(argument, "the rule has no such letter");
    fputs("its letters:", stderr);
    print_letters(stderr, r, "");
    fputc('\n', stderr);
    exit(FAULT);
}

static void read_named(rule *r, char **argument, size_t count)
{
    uint8_t told[MULGREDDI_LETTERS_MAX] = {0};
    long double others = 0;
    int star = 0;
    for (size_t i = 0; i < count; i++) {
        const char *equals = strrchr(argument[i], '=');
        if (!equals)
            fail(argument[i], "weights by name and weights in order cannot be mixed: write NAME=WEIGHT");
        long double weight = read_weight(equals + 1, argument[i]);
        size_t length = (size_t)(equals - argument[i]);
        int all = length == 1 && argument[i][0] == '*';
        unsigned a = all ? 0 : find_letter(r, argument[i], length, argument[i]);
        if (all ? star : told[a])
            fail(argument[i], "a second weight for the same letter");
        if (all)
            star = 1, others = weight;
        else
            told[a] = 1, r->weight[a] = weight;
    }
    for (unsigned a = 0; a < r->letters; a++)
        if (!told[a]) {
            if (!star)
                ask_weights(r, "not every letter has a weight");
            r->weight[a] = others;
        }
}

static void read_weights(rule *r, char **argument, size_t count)
{
    long double all = 0;
    if (count == 0)
        ask_weights(r, "the chance needs a weight for each letter");
    if (strchr(argument[0], '='))
        read_named(r, argument, count);
    else {
        for (size_t i = 0; i < count; i++)
            if (strchr(argument[i], '='))
                fail(argument[i], "weights by name and weights in order cannot be mixed: write NAME=WEIGHT for all, or *=WEIGHT");
        if (count != r->letters)
            ask_weights(r, count < r->letters ? "fewer weights than letters" : "more weights than letters");
        for (size_t i = 0; i < count; i++)
            r->weight[i] = read_weight(argument[i], argument[i]);
    }
    for (unsigned a = 0; a < r->letters; a++)
        all += r->weight[a];
    if (!(all > 0))
        ask_weights(r, "all weights are 0");
}

/* ---- Tables ---- */

typedef struct {
    size_t macrostates, transitions;
    uint64_t *code, *transition;
} table;

static void drop(table *t)
{
    free(t->code);
    free(t->transition);
}

static uint64_t build_in(const rule *r, int rejecting, table *t, size_t macrostates, size_t transitions)
{
    t->code = room(macrostates, sizeof *t->code);
    t->transition = room(transitions, sizeof *t->transition);
    mulgreddi_answer built = (rejecting ? mulgreddi_build_rejecting : mulgreddi_build_trimmed)(r->file, r->length, t->code, macrostates,
                                                                                               t->transition, transitions);
    t->macrostates = built.first;
    t->transitions = built.second;
    return built.refusal;
}

/* In a small room first, since a build fills all of its room; most rules fit. */
static uint64_t build(const rule *r, int rejecting, table *t)
{
    if (build_in(r, rejecting, t, 1024, 16384) == 0)
        return 0;
    drop(t);
    return build_in(r, rejecting, t, MULGREDDI_MACROSTATES_MAX, MULGREDDI_TRANSITIONS_MAX);
}

/* Letters of weight 0 do not come. */
static int comes(const rule *r, uint64_t transition) { return r->weight[mulgreddi_letter(transition)] > 0; }

static int is_initial(const rule *r, int rejecting, uint64_t code)
{
    return rejecting ? mulgreddi_code_initial_rejecting(code, r->initial) : mulgreddi_code_initial(code, r->initial);
}

/* ---- What stands before a core, or before a set ---- */

/* A core is bits 0 to 39 of a code, its set bits 0 to 7. A core and a letter fix the core before it, a set and a letter the set before it. */
#define CORE_BITS 0xffffffffffull
#define SET_BITS 0xffull

/* before[i * letters + a]: what stands before i over letter a, NONE where the table has nothing there. */
typedef struct {
    size_t count;
    uint64_t *key;
    int32_t *before;
} chain;

static int by_number(const void *x, const void *y)
{
    uint64_t a = *(const uint64_t *)x, b = *(const uint64_t *)y;
    return (a > b) - (a < b);
}

static int32_t place(const chain *c, uint64_t key)
{
    const uint64_t *at = bsearch(&key, c->key, c->count, sizeof key, by_number);
    return at ? (int32_t)(at - c->key) : NONE;
}

/* The chain of the macrostates that are in. A table of the build has one before each; with two it is not one, and nothing is told. */
static chain chain_of(const rule *r, const table *t, uint64_t bits, const uint8_t *in)
{
    chain c = {0, room(t->macrostates, sizeof *c.key), NULL};
    size_t n = 0;
    for (size_t q = 0; q < t->macrostates; q++)
        if (in[q])
            c.key[n++] = t->code[q] & bits;
    qsort(c.key, n, sizeof *c.key, by_number);
    for (size_t i = 0; i < n; i++)
        if (i == 0 || c.key[i] != c.key[c.count - 1])
            c.key[c.count++] = c.key[i];
    c.before = room(c.count * r->letters, sizeof *c.before);
    for (size_t i = 0; i < c.count * r->letters; i++)
        c.before[i] = NONE;
    for (size_t i = 0; i < t->transitions; i++) {
        uint64_t e = t->transition[i], source = mulgreddi_source(e), target = mulgreddi_target(e);
        if (!comes(r, e) || !in[source] || !in[target])
            continue;
        int32_t *before = &c.before[(size_t)place(&c, t->code[target] & bits) * r->letters + mulgreddi_letter(e)];
        int32_t found = place(&c, t->code[source] & bits);
        if (*before != NONE && *before != found)
            fail(r->path, "the table has two cores before one");
        *before = found;
    }
    return c;
}

static void drop_chain(chain *c)
{
    free(c->key);
    free(c->before);
}

/* The class of each core: cores of one class lead to each other (Tarjan's algorithm, with a stack of its own). How many there are is answered. */
static size_t find_classes(const chain *c, unsigned letters, int32_t *class_of)
{
    size_t n = c->count, classes = 0, seen = 0, waiting = 0;
    size_t *order = room(n, sizeof *order), *low = room(n, sizeof *low), *stack = room(n, sizeof *stack), *path = room(n, sizeof *path);
    unsigned *letter = room(n, sizeof *letter);
    for (size_t i = 0; i < n; i++)
        class_of[i] = NONE;
    for (size_t start = 0; start < n; start++) {
        size_t depth = 0;
        if (order[start])
            continue;
        for (path[depth++] = start; depth > 0;) {
            size_t i = path[depth - 1];
            if (!order[i])
                order[i] = low[i] = ++seen, stack[waiting++] = i;
            if (letter[i] < letters) {
                int32_t to = c->before[i * letters + letter[i]++];
                if (to != NONE && !order[to])
                    path[depth++] = (size_t)to;
                else if (to != NONE && class_of[to] == NONE && low[to] < low[i])
                    low[i] = low[to];
                continue;
            }
            if (low[i] == order[i]) {
                size_t last;
                do
                    class_of[last = stack[--waiting]] = (int32_t)classes;
                while (last != i);
                classes++;
            }
            if (--depth > 0 && low[i] < low[path[depth - 1]])
                low[path[depth - 1]] = low[i];
        }
    }
    free(order), free(low), free(stack), free(path), free(letter);
    return classes;
}

/* closed[k]: over every letter that comes, what stands before a core of class k is in class k. */
static void find_closed(const rule *r, const chain *c, const int32_t *class_of, uint8_t *closed)
{
    for (size_t i = 0; i < c->count; i++)
        closed[class_of[i]] = 1;
    for (size_t i = 0; i < c->count; i++)
        for (unsigned a = 0; a < r->letters; a++) {
            int32_t before = c->before[i * r->letters + a];
            if (r->weight[a] > 0 && (before == NONE || class_of[before] != class_of[i]))
                closed[class_of[i]] = 0;
        }
}

/* ---- The class that is right ---- */

/* Marks what leads to a marked macrostate over letters that come, inside its closed class; home is that class, NONE where there is none. */
static void spread(const rule *r, const table *t, const int32_t *home, uint8_t *mark)
{
    size_t n = t->macrostates, waiting = 0;
    size_t *first = room(n + 1, sizeof *first), *from = room(t->transitions, sizeof *from), *queue = room(n, sizeof *queue);
    for (size_t i = 0; i < t->transitions; i++)
        first[mulgreddi_target(t->transition[i]) + 1]++;
    for (size_t q = 0; q < n; q++)
        first[q + 1] += first[q];
    for (size_t i = t->transitions; i-- > 0;)
        from[--first[mulgreddi_target(t->transition[i]) + 1]] = i;
    /* now first[q + 1] is where those into q begin; those into n - 1 end with all */
    for (size_t q = 0; q < n; q++)
        if (mark[q])
            queue[waiting++] = q;
    while (waiting > 0) {
        size_t q = queue[--waiting], end = q + 1 < n ? first[q + 2] : t->transitions;
        for (size_t i = first[q + 1]; i < end; i++) {
            uint64_t e = t->transition[from[i]], source = mulgreddi_source(e);
            if (comes(r, e) && home[source] != NONE && home[source] == home[q] && !mark[source])
                mark[source] = 1, queue[waiting++] = source;
        }
    }
    free(first), free(from), free(queue);
}

/* The closed class whose runs accept, whatever their k; NONE where the table has none. From each macrostate of a class an accepting one can be
 * reached inside it, or from each one can be reached from which none can. */
static int32_t right_class(const rule *r, const table *t, const int32_t *home, size_t classes)
{
    size_t n = t->macrostates;
    uint8_t *lives = room(n, 1), *ends = room(n, 1), *living = room(classes, 1), *ending = room(classes, 1);
    int32_t right = NONE;
    for (size_t q = 0; q < n; q++)
        lives[q] = home[q] != NONE && mulgreddi_code_accepting(t->code[q]);
    spread(r, t, home, lives);
    for (size_t q = 0; q < n; q++)
        ends[q] = home[q] != NONE && !lives[q];
    spread(r, t, home, ends);
    for (size_t q = 0; q < n; q++)
        if (home[q] != NONE)
            *(ends[q] ? &ending[home[q]] : &living[home[q]]) = 1;
    for (size_t k = 0; k < classes; k++)
        if (living[k]) {
            if (ending[k] || right != NONE)
                fail(r->path, "the table is not one that the library builds");
            right = (int32_t)k;
        }
    free(lives), free(ends), free(living), free(ending);
    return right;
}

/* in[q]: macrostate q stands over the right class. Answers whether there is one. */
static int find_right(const rule *r, const table *t, uint8_t *in)
{
    memset(in, 1, t->macrostates);
    chain c = chain_of(r, t, CORE_BITS, in);
    int32_t *class_of = room(c.count, sizeof *class_of), *home = room(t->macrostates, sizeof *home);
    size_t classes = find_classes(&c, r->letters, class_of);
    uint8_t *closed = room(classes, 1);
    find_closed(r, &c, class_of, closed);
    for (size_t q = 0; q < t->macrostates; q++) {
        int32_t own = class_of[place(&c, t->code[q] & CORE_BITS)];
        home[q] = closed[own] ? own : NONE;
    }
    int32_t right = right_class(r, t, home, classes);
    for (size_t q = 0; q < t->macrostates; q++)
        in[q] = right != NONE && home[q] == right;
    free(class_of), free(home), free(closed);
    drop_chain(&c);
    return right != NONE;
}

/* ---- The equations, without a subtraction ---- */

/* A number that is far from the ends of what a long double holds, so that only its last digit is rounded. */
static long double normal(const rule *r, long double x)
{
    if (!(x >= 1e-4000L && x <= 1e4000L))
        fail(r->path, "the weights are too far apart to be calculated with");
    return x;
}

/* y[i]: how often i comes, of all, when from i the chain goes on to what stands before it, each letter by its weight. One after the other is
 * taken out of the chain and its ways are given to those that lead through it, then they come back in turn: sums, products and quotients of
 * positive numbers, so that no figure loses digits (Grassmann, Taksar and Heyman). */
static void solve(const rule *r, const chain *c, long double *y)
{
    size_t n = c->count;
    long double *rate = room(n * n, sizeof *rate), all = 0;
    for (size_t i = 0; i < n; i++)
        for (unsigned a = 0; a < r->letters; a++)
            if (r->weight[a] > 0)
                rate[i * n + (size_t)c->before[i * r->letters + a]] += r->weight[a];
    for (size_t k = n; k-- > 1;) {
        long double leaves = 0;
        for (size_t j = 0; j < k; j++)
            leaves += rate[k * n + j];
        y[k] = normal(r, leaves);
        for (size_t j = 0; j < k; j++)
            if (rate[k * n + j] > 0)
                rate[k * n + j] = normal(r, rate[k * n + j] / leaves);
        for (size_t i = 0; i < k; i++)
            for (size_t j = 0; rate[i * n + k] > 0 && j < k; j++)
                if (j != i && rate[k * n + j] > 0)
                    rate[i * n + j] += normal(r, rate[i * n + k] * rate[k * n + j]);
    }
    y[0] = all = 1;
    for (size_t k = 1; k < n; k++) {
        long double come = 0;
        for (size_t i = 0; i < k; i++)
            if (rate[i * n + k] > 0)
                come += normal(r, y[i] * rate[i * n + k]);
        all += y[k] = normal(r, come / y[k]);
    }
    for (size_t i = 0; i < n; i++)
        y[i] = normal(r, y[i] / all);
    free(rate);
}

/* The sum of some y of a chain of n is wrong by at most this part of it (docs/CHANCE.md, "The error"). */
static long double error_part(size_t n)
{
    long double m = (long double)n + 8;
    return 2 * m * m * m * (LDBL_EPSILON / 2);
}

/* ---- The chance ---- */

/* Of one of the two tables: its size, and of the sets that its words begin with how likely each is, and all together. */
typedef struct {
    uint64_t refusal;
    size_t macrostates, transitions, sets;
    uint64_t set[256];
    long double chance[256], sum, error;
} figure;

static void add_sets(const rule *r, int rejecting, const chain *c, figure *f)
{
    long double y[256];
    solve(r, c, y);
    for (size_t i = 0; i < c->count; i++)
        if ((int)(c->key[i] >> r->initial & 1) != rejecting) {
            f->set[f->sets] = c->key[i];
            f->chance[f->sets++] = y[i];
            f->sum += y[i];
        }
    f->error = f->sets == 0 ? 0 : f->sum * error_part(c->count);
    if (f->sets == c->count) /* all of them: no sum is needed */
        f->sum = 1, f->error = 0;
}

static figure work_out(const rule *r, int rejecting)
{
    figure f = {0};
    table t;
    f.refusal = build(r, rejecting, &t);
    f.macrostates = t.macrostates;
    f.transitions = t.transitions;
    uint8_t *in = room(t.macrostates, 1);
    if (f.refusal == 0 && find_right(r, &t, in)) {
        chain c = chain_of(r, &t, SET_BITS, in);
        add_sets(r, rejecting, &c, &f);
        drop_chain(&c);
    }
    free(in);
    drop(&t);
    return f;
}

static long double size(long double x) { return x < 0 ? -x : x; }

/* Every sequence is accepted or rejected, and by one run: both chances together are 1. */
static void check_together(const rule *r, const figure *accepted, const figure *rejected)
{
    long double both = accepted->sum + rejected->sum;
    if (size(both - 1) <= accepted->error + rejected->error + 4 * LDBL_EPSILON)
        return;
    say(r->path, "the chance of the accepted words, %.9Lg, and that of the rejected ones, %.9Lg, do not add up to 1", accepted->sum, rejected->sum);
    exit(FAULT);
}

/* ---- What is printed ---- */

/* How far the nine digits that are printed can be from the chance: what they leave out, and the error; rounded up to one digit. */
static const char *error_text(long double x, long double error)
{
    static char text[40];
    snprintf(text, sizeof text, "%.9Lg", x);
    long double all = size(strtold(text, NULL) - x) + error;
    snprintf(text, sizeof text, all > 0 ? "%.0Le" : "0", all);
    for (long double up = all; strtold(text, NULL) < all; snprintf(text, sizeof text, "%.0Le", up *= 1.1L))
        ;
    return text;
}

static void print_set(uint64_t set)
{
    const char *comma = "";
    putchar('{');
    for (unsigned q = 0; q < MULGREDDI_STATES_MAX; q++)
        if (set >> q & 1) {
            printf("%s%u", comma, q);
            comma = ",";
        }
    putchar('}');
}

static void print_table(const char *words, const figure *f)
{
    printf("  %s words: macrostates %zu, transitions %zu; ", words, f->macrostates, f->transitions);
    if (f->sets > SHOWN_SETS)
        printf("%zu sets", f->sets);
    for (size_t i = 0; f->sets <= SHOWN_SETS && i < f->sets; i++) {
        printf("%s", i ? " + " : "");
        print_set(f->set[i]);
        printf(" %.9Lg", f->chance[i]);
    }
    if (f->sets != 1)
        printf("%s%.9Lg", f->sets ? " = " : "", f->sum);
    putchar('\n');
}

static const char *name_in(const char *path)
{
    const char *slash = strrchr(path, '/');
    return slash ? slash + 1 : path;
}

static void print_head(const rule *r)
{
    print_text(stdout, name_in(r->path));
    printf(", weights");
    for (unsigned a = 0; a < r->letters; a++)
        printf(" %s=%.9Lg", letter_name(r, a), r->weight[a]);
    putchar('\n');
}

/* All is worked out and checked before the first line is printed. */
static int tell_chance(const rule *r)
{
    figure accepted = work_out(r, 0);
    if (accepted.refusal)
        return refuse(r, accepted.refusal);
    figure rejected = work_out(r, 1);
    if (!rejected.refusal)
        check_together(r, &accepted, &rejected);
    print_head(r);
    print_table("accepted", &accepted);
    if (!rejected.refusal)
        print_table("rejected", &rejected);
    printf("  chance %.9Lg, error at most %s", accepted.sum, error_text(accepted.sum, accepted.error));
    printf(rejected.refusal ? "; not checked\n" : "; with the rejected words %.9Lg\n", accepted.sum + rejected.sum);
    if (rejected.refusal) {
        say(r->path, "the chance is not checked, since the table of the rejected words has no room");
        return refuse(r, rejected.refusal);
    }
    return 0;
}

/* ---- The rules of a folder, and why ---- */

typedef struct {
    const char *name;
    unsigned weights;
    long double weight[MULGREDDI_LETTERS_MAX];
    const char *why;
} example;

static const example examples[] = {
    {"F.rule", 2, {1, 1}, "1: only 0 0 0 .. is not kept, and a single sequence has the chance 0"},
    {"F.rule", 2, {1, 1e-13L}, "1: however rare letter 1 is, it comes some time"},
    {"I.rule", 2, {1, 1}, "1: after each place letter 1 comes with chance 1, and the places can be counted"},
    {"I.rule", 2, {1, 0}, "0: with weight 0 letter 1 does not come"},
    {"D.rule", 2, {1, 1}, "1/3: kept is what begins 00, 0100, 010100 and so on: 1/4 + 1/16 + 1/64 + .. = 1/3"},
    {"D.rule", 2, {3, 1}, "9/13: now 9/16 + 9/16 * 3/16 + 9/16 * 3/16 * 3/16 + .. = 9/16 / (1 - 3/16)"},
    {"E.rule", 2, {1, 1}, "0: letter 0 for ever is a single sequence"},
    {"Z.rule", 1, {1}, "0: no sequence is kept"},
    {"begins.rule", 2, {1, 1}, "1/2: letter 0 first; that 1 comes some time later has the chance 1"},
    {"before.rule", 4, {1, 1, 1, 1}, "1/2: of HOME and FETCH each is as likely to come first"},
    {"before.rule", 4, {3e-6L, 1e-6L, 1e6L, 1e6L}, "3/4: HOME is three times as likely as FETCH, however rare both are"},
    {"before.rule", 4, {1e-12L, 1e-12L, 1, 1}, "1/2 again"},
    {"both.rule", 4, {1, 1, 1, 1}, "1/4: which of HOME and FETCH comes first says nothing of SCAN and LOAD, so 1/2 * 1/2"},
    {"either.rule", 4, {1, 1, 1, 1}, "3/4: 1/2 + 1/2 - 1/4"},
    {"no_pair.rule", 4, {1, 1, 1, 1}, "5/6: s = a/4 + 1/4 + s/2 from `start`, a = 1/4 + s/2 from `after`"},
    {"returned.rule", 4, {1, 1, 1, 1}, "1: after each FETCH a RETURN comes with chance 1, and the FETCHes can be counted"},
    {"unreturned.rule", 4, {1, 1, 1, 1}, "0: what returned.rule leaves of 1"},
};

static rule load_example(const char *folder, const example *e)
{
    size_t length = strlen(folder) + strlen(e->name) + 2;
    char *path = room(length, 1);
    rule r;
    snprintf(path, length, "%s/%s", folder, e->name);
    if (!read_file(&r, path))
        fail(path, "is a folder");
    check_rule(&r);
    if (r.letters != e->weights)
        fail(path, "is not the rule of this name that the example has");
    memcpy(r.weight, e->weight, sizeof r.weight);
    return r;
}

/* ---- What goes wrong: two accepting runs, and iteration ---- */

/* Do two macrostates differ in k alone, the number of rank classes left to discharge? */
static int differ_in_k(uint64_t code, uint64_t other) { return code != other && code << 20 == other << 20; }

/* x[q]: the chance that some run from q accepts, which is how often its core comes. */
static void chances(const rule *r, const table *t, double *x)
{
    uint8_t *in = room(t->macrostates, 1);
    int right = find_right(r, t, in);
    chain c = chain_of(r, t, CORE_BITS, in);
    long double *y = room(c.count, sizeof *y);
    if (right)
        solve(r, &c, y);
    for (size_t q = 0; q < t->macrostates; q++)
        x[q] = in[q] ? (double)y[place(&c, t->code[q] & CORE_BITS)] : 0;
    drop_chain(&c);
    free(y), free(in);
}

/* Adds up over the initial macrostates, and over those that differ from one in k alone: a run may begin with any k. */
static void sum_any_start(const rule *r, table *t)
{
    double *x = room(t->macrostates, sizeof *x), sum = 0;
    const char *sign = "";
    chances(r, t, x);
    printf("  accepted words:");
    for (size_t q = 0; q < t->macrostates; q++) {
        int begins = is_initial(r, 0, t->code[q]);
        for (size_t p = 0; p < t->macrostates; p++)
            begins |= is_initial(r, 0, t->code[p]) && differ_in_k(t->code[p], t->code[q]);
        if (begins) {
            printf("%s macrostate %zu %.9g", sign, q, x[q]);
            sum += x[q];
            sign = " +";
        }
    }
    printf(" = %.9g; with the rejected words %.9g, and not 1\n", sum, sum + (double)work_out(r, 1).sum);
    free(x);
}

/* Where k is not 0, the next k may be any that is not too low. */
static void free_steps(table *t)
{
    size_t right = t->transitions;
    for (size_t i = 0; i < right; i++) {
        uint64_t e = t->transition[i], target = mulgreddi_target(e);
        for (uint64_t q = target + 1; q < t->macrostates; q++)
            if (!mulgreddi_code_accepting(t->code[mulgreddi_source(e)]) && differ_in_k(t->code[q], t->code[target])) {
                t->transition = realloc(t->transition, (t->transitions + 1) * sizeof e);
                if (!t->transition)
                    fail("memory", "there is none left");
                t->transition[t->transitions++] = e - target + q;
            }
    }
}

/* Iterates x = M x from 1 and prints the sum over the initial macrostates on the way. */
static void iterate(const rule *r, table *t)
{
    double *x = room(t->macrostates, sizeof *x), sum = 0, last = 0;
    long double all = 0;
    for (unsigned a = 0; a < r->letters; a++)
        all += r->weight[a];
    for (size_t q = 0; q < t->macrostates; q++)
        x[q] = 1;
    for (unsigned n = 0; n <= 60; n++) {
        double *next = room(t->macrostates, sizeof *next);
        last = sum;
        sum = 0;
        for (size_t q = 0; q < t->macrostates; q++)
            sum += is_initial(r, 0, t->code[q]) ? x[q] : 0;
        if (n % 20 == 0)
            printf("  after %u steps: %.6g\n", n, sum);
        for (size_t i = 0; i < t->transitions; i++) {
            uint64_t e = t->transition[i];
            next[mulgreddi_source(e)] += (double)(r->weight[mulgreddi_letter(e)] / all) * x[mulgreddi_target(e)];
        }
        free(x);
        x = next;
    }
    printf("  the last step multiplied it by %.6f\n", sum / last);
    free(x);
}

static void iterate_free_steps(const rule *r, table *t)
{
    free_steps(t);
    iterate(r, t);
}

static const struct {
    example of;
    void (*go)(const rule *, table *);
} wrongs[] = {
    {{"before.rule", 4, {1, 1, 1, 1}, "begun with any k, so that each sequence that is kept has two accepting runs"}, sum_any_start},
    {{"no_pair.rule", 4, {3, 1, 3, 3}, "begun with any k, so that some sequences have two accepting runs"}, sum_any_start},
    {{"F.rule", 2, {1, 1}, "iterated from 1"}, iterate},
    {{"before.rule", 4, {1, 2, 1, 1}, "iterated from 1"}, iterate},
    {{"F.rule", 2, {1, 1}, "any k that is not too low at every step, iterated from 1"}, iterate_free_steps},
};

static int tell_folder(const char *folder)
{
    int status = 0;
    for (size_t i = 0; i < sizeof examples / sizeof *examples && status == 0; i++) {
        rule r = load_example(folder, &examples[i]);
        status = tell_chance(&r);
        printf("  %s\n", examples[i].why);
    }
    for (size_t i = 0; i < sizeof wrongs / sizeof *wrongs && status == 0; i++) {
        rule r = load_example(folder, &wrongs[i].of);
        table t;
        printf("\nRight: ");
        status = tell_chance(&r);
        printf("Wrong, %s:\n", wrongs[i].of.why);
        build(&r, 0, &t);
        wrongs[i].go(&r, &t);
        drop(&t);
    }
    return status;
}

/* ---- */

static void print_usage(FILE *to)
{
    fputs("usage: mulgreddi-chance RULE WEIGHT..   the chance that the rule is kept; - as RULE is standard input\n"
          "       mulgreddi-chance FOLDER          the rules of the folder examples/, with the reason for each figure\n"
          "A weight for each letter, in order or as NAME=WEIGHT, *=WEIGHT for all others. They need not add up to 1.\n",
          to);
}

static int finish(int status)
{
    if (fflush(stdout) != 0 || ferror(stdout) || fclose(stdout) != 0)
        fail("standard output", "could not be written");
    return status;
}

int main(int argc, char **argv)
{
    rule r;
    if (!mulgreddi_version_serves(mulgreddi_version()))
        fail("the library", "is of a version that is too old or too new for the header that this program was compiled with");
    if (argc == 2 && strcmp(argv[1], "--help") == 0) {
        print_usage(stdout);
        return finish(0);
    }
    if (argc < 2 || (argv[1][0] == '-' && argv[1][1] != 0)) {
        print_usage(stderr);
        return FAULT;
    }
    if (!read_file(&r, argv[1])) {
        if (argc > 2)
            fail(argv[1], "is a folder");
        return finish(tell_folder(argv[1]));
    }
    check_rule(&r);
    read_weights(&r, argv + 2, (size_t)argc - 2);
    return finish(tell_chance(&r));
}
