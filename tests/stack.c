/* Measures how much stack the calls need: each runs in a thread on memory that was painted before, and what a thread needs that does
 * nothing is taken off. It prints the most for each call, on the rules named, and fails where that is over MULGREDDI_STACK, which the header
 * promises.
 * Run: stack FILE.. */
#define _XOPEN_SOURCE 700
#include <mulgreddi.h>
#include <pthread.h>
#include <stdio.h>
#include <stdlib.h>
#include <string.h>

enum { STACK = 1 << 20, PAINT = 0xa5 };

static uint8_t file[1 << 16], out[1 << 16], masks[64], choices[512], events[320], *scratch, lead[32], cycle[32], log_bytes[4096];
static size_t file_len;
static uint64_t codes[MULGREDDI_MACROSTATES_MAX], transitions[MULGREDDI_TRANSITIONS_MAX];
static mulgreddi_answer built;

static void nothing(void) {}
static void check(void) { mulgreddi_check(file, file_len); }

static void write_rule(void)
{
    mulgreddi_answer a = mulgreddi_check(file, file_len);
    size_t c = mulgreddi_clauses(file, file_len), e = mulgreddi_states(file, file_len) * mulgreddi_letters(file, file_len);
    mulgreddi_write(mulgreddi_states(file, file_len), mulgreddi_letters(file, file_len), mulgreddi_initial_state(file, file_len),
                    mulgreddi_accepting_mask(file, file_len), file + a.first + c, e, file + a.first, c, out, sizeof out);
}

static void write_named(void)
{
    mulgreddi_answer a = mulgreddi_check(file, file_len);
    size_t c = mulgreddi_clauses(file, file_len), e = mulgreddi_states(file, file_len) * mulgreddi_letters(file, file_len);
    uint8_t names[128];
    for (int i = 0; i < 128; i++)
        names[i] = (uint8_t)('A' + i / 8);
    mulgreddi_write_named(mulgreddi_states(file, file_len), mulgreddi_letters(file, file_len), mulgreddi_initial_state(file, file_len),
                          mulgreddi_accepting_mask(file, file_len), file + a.first + c, e, file + a.first, c, names,
                          8 * mulgreddi_letters(file, file_len), out, sizeof out);
}

static void tidy(void) { mulgreddi_tidy(file, file_len, out, sizeof out); }
static void mixed_loop(void) { mulgreddi_mixed_loop(file, file_len, out, sizeof out); }
static void same_rules(void) { mulgreddi_same_rules(file, file_len, file, file_len); }
static void same_words(void) { mulgreddi_same_words(lead, 32, cycle, 32, lead, 32, cycle, 32); }
static void tidy_word(void) { mulgreddi_tidy_word(lead, 32, cycle, 32, out, sizeof out); }
static void judge(void) { mulgreddi_judge(file, file_len, lead, 32, cycle, 32, masks, sizeof masks); }

static void judge_choices(void)
{
    mulgreddi_judge_choices(file, file_len, lead, 32, cycle, 32, masks, sizeof masks, choices, sizeof choices);
}

/* 64 words of 64 letters */
static void judge_sheet(void)
{
    static uint8_t sheet[64 * 66], answers[64], all[64 * 64];
    for (int i = 0; i < 64; i++) {
        sheet[66 * i] = sheet[66 * i + 1] = 32;
        memcpy(sheet + 66 * i + 2, lead, 32);
        memcpy(sheet + 66 * i + 34, cycle, 32);
        sheet[66 * i + 2 + i % 32] = 0;
    }
    mulgreddi_judge_sheet(file, file_len, sheet, sizeof sheet, answers, sizeof answers, all, sizeof all);
}

static void build_trimmed(void)
{
    mulgreddi_build_trimmed(file, file_len, codes, MULGREDDI_MACROSTATES_MAX, transitions, MULGREDDI_TRANSITIONS_MAX);
}

static void build_rejecting(void)
{
    mulgreddi_build_rejecting(file, file_len, codes, MULGREDDI_MACROSTATES_MAX, transitions, MULGREDDI_TRANSITIONS_MAX);
}

/* the rule with itself, where the pairs of macrostates are few enough */
static void stricter(void)
{
    static uint64_t codes_b[MULGREDDI_MACROSTATES_MAX], transitions_b[MULGREDDI_TRANSITIONS_MAX];
    static uint8_t letters[3 << 16], pairs[1 << 16];
    mulgreddi_stricter(file, file_len, file, file_len, codes, MULGREDDI_MACROSTATES_MAX, transitions, MULGREDDI_TRANSITIONS_MAX, codes_b,
                       MULGREDDI_MACROSTATES_MAX, transitions_b, MULGREDDI_TRANSITIONS_MAX, letters, sizeof letters, pairs, sizeof pairs);
}

static void build(void)
{
    built = mulgreddi_build(file, file_len, codes, MULGREDDI_MACROSTATES_MAX, transitions, MULGREDDI_TRANSITIONS_MAX);
}

static void judge_table(void)
{
    mulgreddi_judge_table(file, file_len, lead, 32, cycle, 32, (const uint8_t *)codes, 8 * built.first, (const uint8_t *)transitions,
                          8 * built.second, scratch, 64 * built.first);
}

static uint8_t text[MULGREDDI_HOA_BOUND(MULGREDDI_MACROSTATES_MAX, MULGREDDI_TRANSITIONS_MAX)];
static mulgreddi_answer written;

static void write_hoa(void)
{
    written = mulgreddi_write_hoa(file, file_len, (const uint8_t *)codes, 8 * built.first, (const uint8_t *)transitions, 8 * built.second,
                                  text, sizeof text);
}

static void read_hoa(void)
{
    static uint8_t flags[MULGREDDI_MACROSTATES_MAX];
    static uint64_t read[MULGREDDI_TRANSITIONS_MAX];
    mulgreddi_read_hoa(text, written.first, flags, sizeof flags, read, MULGREDDI_TRANSITIONS_MAX);
}

static void translate(void)
{
    mulgreddi_translate(file, file_len, events, sizeof events, log_bytes, sizeof log_bytes, out, sizeof out);
}

/* letters, a mark and a return, on the table that was built last */
static void live(void)
{
    static const uint8_t letters[600];
    static uint8_t state[MULGREDDI_LIVE_STATE], set[MULGREDDI_MACROSTATES_MAX];
    const uint8_t *c = (const uint8_t *)codes, *t = (const uint8_t *)transitions;
    size_t cn = 8 * built.first, tn = 8 * built.second;
    mulgreddi_live_start(file, file_len, c, cn, t, tn, state, sizeof state, set, sizeof set);
    mulgreddi_live_mark(file, file_len, 0, c, cn, t, tn, state, sizeof state, set, sizeof set);
    mulgreddi_live_arrive(file, file_len, 0, c, cn, t, tn, state, sizeof state, set, sizeof set);
    mulgreddi_live_arrive(file, file_len, 0, c, cn, t, tn, state, sizeof state, set, sizeof set);
    mulgreddi_live_withdraw(file, file_len, c, cn, t, tn, state, sizeof state, set, sizeof set);
    mulgreddi_live_return(file, file_len, 0, c, cn, t, tn, state, sizeof state, set, sizeof set);
    mulgreddi_follow_start(file, file_len, c, cn, t, tn, set, sizeof set);
    mulgreddi_follow(file, file_len, letters, sizeof letters, c, cn, t, tn, set, sizeof set);
}

static const struct { const char *name; void (*call)(void); } calls[] = {
    {"nothing", nothing},
    {"check", check},
    {"write", write_rule},
    {"write_named", write_named},
    {"tidy", tidy},
    {"mixed_loop", mixed_loop},
    {"same_rules", same_rules},
    {"same_words", same_words},
    {"tidy_word", tidy_word},
    {"judge", judge},
    {"judge_choices", judge_choices},
    {"judge_sheet", judge_sheet},
    {"build_trimmed", build_trimmed},
    {"build_rejecting", build_rejecting},
    {"stricter", stricter},
    {"build", build},
    {"judge_table", judge_table},
    {"write_hoa", write_hoa},
    {"read_hoa", read_hoa},
    {"translate", translate},
    {"live", live},
};

enum { CALLS = sizeof calls / sizeof *calls };

static void *run(void *call)
{
    calls[*(int *)call].call();
    return NULL;
}

/* How many bytes of its stack a thread with this call has written. */
static size_t measure(int call)
{
    static uint8_t *stack;
    pthread_attr_t attributes;
    pthread_t thread;
    if (!stack && posix_memalign((void **)&stack, 4096, STACK) != 0)
        abort();
    memset(stack, PAINT, STACK);
    pthread_attr_init(&attributes);
    if (pthread_attr_setstack(&attributes, stack, STACK) != 0 || pthread_create(&thread, &attributes, run, &call) != 0)
        abort();
    pthread_join(thread, NULL);
    pthread_attr_destroy(&attributes);
    size_t clean = 0;
    while (clean < STACK && stack[clean] == PAINT)
        clean++;
    return STACK - clean;
}

int main(int argc, char **argv)
{
    size_t most[CALLS] = {0}, worst = 0;
    scratch = calloc(64, MULGREDDI_MACROSTATES_MAX);
    for (int i = 0; i < 64; i++) {
        const uint8_t line[5] = {(uint8_t)(4 * i), (uint8_t)(4 * i + 3), 0, 255, 0};
        memcpy(events + 5 * i, line, 5);
    }
    for (size_t i = 0; i < sizeof log_bytes; i++)
        log_bytes[i] = (uint8_t)(i * 37);
    for (int i = 1; i < argc; i++) {
        FILE *f = fopen(argv[i], "rb");
        if (!f) {
            perror(argv[i]);
            return 1;
        }
        file_len = fread(file, 1, sizeof file, f);
        fclose(f);
        if (mulgreddi_check(file, file_len).refusal) {
            printf("%s is refused\n", argv[i]);
            return 1;
        }
        for (int j = 0; j < 32; j++) {
            lead[j] = (uint8_t)(j % mulgreddi_letters(file, file_len));
            cycle[j] = (uint8_t)(j * j % mulgreddi_letters(file, file_len));
        }
        for (int call = 0; call < CALLS; call++) {
            size_t used = measure(call);
            most[call] = used > most[call] ? used : most[call];
        }
    }
    printf("stack in bytes:");
    for (int call = 1; call < CALLS; call++) {
        size_t own = most[call] - most[0];
        printf("%s %s %zu", call > 1 ? "," : "", calls[call].name, own);
        worst = own > worst ? own : worst;
    }
    printf("; at most %d are promised\n", MULGREDDI_STACK);
    return worst > MULGREDDI_STACK;
}
