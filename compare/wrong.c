/* Wrong libraries, one for each class of the table of limits: the library, but for that class, on which it answers
 * wrongly. A class is recognised from the arguments and the answer alone. At the first call of a class the program is
 * split in two: one part gets a wrong answer and has to end with a difference, the other goes on with the right one.
 * Environment: WRONG_ENTRY, and WRONG_TABLE, a file with what `compare --limits` prints. */
#include "mulgreddi.h"

#include <stdio.h>
#include <stdlib.h>
#include <string.h>
#include <sys/wait.h>
#include <unistd.h>

#define CODES 65536
#define TRANSITIONS 1048576

struct class {
    char entry[64], counted[64], name[16];
    unsigned long long from, to;
    int tried;
};
static struct class classes_of[64];
static size_t number_of_classes, left, hits[64], number_of_hits;
static const char *entry_of_call;

static void table(void)
{
    char line[1024];
    FILE *file = fopen(getenv("WRONG_TABLE"), "r");
    struct class c = {0};
    while (fgets(line, sizeof line, file))
        if (sscanf(line, "%63[^\t]\t%63[^\t]\t%15[^\t]\t%llu\t%llu", c.entry, c.counted, c.name, &c.from, &c.to) == 5 &&
            !strcmp(c.entry, getenv("WRONG_ENTRY")))
            classes_of[number_of_classes++] = c;
    fclose(file);
    left = number_of_classes;
}

/* the call's number of what is counted */
static void counted(const char *what, uint64_t number)
{
    for (size_t i = 0; i < number_of_classes; i++) {
        struct class *c = &classes_of[i];
        if (!c->tried && !strcmp(c->entry, entry_of_call) && !strcmp(c->counted, what) && number >= c->from && number <= c->to) {
            c->tried = 1;
            hits[number_of_hits++] = i;
        }
    }
}

static void begin(const char *entry)
{
    if (!number_of_classes)
        table();
    entry_of_call = entry;
    number_of_hits = 0;
}

/* whether this part of the program is to get a wrong answer */
static int wrong(void)
{
    for (size_t i = 0; i < number_of_hits; i++) {
        struct class *c = &classes_of[hits[i]];
        char log[64], line[64] = "";
        int status = 0;
        snprintf(log, sizeof log, "/tmp/wrong.%d", (int)getpid());
        pid_t child = fork();
        if (!child) {
            alarm(60);
            if (!freopen(log, "w", stdout) || dup2(fileno(stdout), 1) < 0)
                _exit(2);
            return 1;
        }
        waitpid(child, &status, 0);
        FILE *file = fopen(log, "r");
        if (file && !fgets(line, sizeof line, file))
            line[0] = 0;
        if (file)
            fclose(file);
        unlink(log);
        int told = WIFEXITED(status) && WEXITSTATUS(status) == 1 && !strncmp(line, "DIFFERENCE in ", 14);
        fprintf(stderr, "%s: %s, %s, %s\n", told ? "told" : "NOT TOLD", c->entry, c->counted, c->name);
        if (!--left)
            _exit(0);
    }
    return 0;
}

static mulgreddi_answer spoilt(mulgreddi_answer answer)
{
    if (!wrong())
        return answer;
    if (answer.refusal)
        answer.refusal++;
    else
        answer.first ^= 1;
    return answer;
}

static void rule(const uint8_t *file, size_t length)
{
    if (length < 8)
        return;
    size_t n = file[length - 8], s = file[length - 7], most = 0;
    for (size_t i = 0; i < n * s && i + 8 < length; i++)
        if (file[length - 9 - i] > most)
            most = file[length - 9 - i];
    counted("states", n);
    counted("letters", s);
    counted("clauses of an entry", most);
}

static void word(size_t lead, size_t cycle)
{
    counted("letters of the lead-in", lead);
    counted("letters of the cycle", cycle);
}

/* an accepted rule: its entries as masks, and which state leads to which */
static size_t n, s;
static const uint8_t *clauses[8][16];
static uint8_t counts[8][16], leads[8];

static void laid_out(const uint8_t *file, size_t length)
{
    n = file[length - 8], s = file[length - 7];
    size_t c = file[length - 4] + 256u * file[length - 3];
    const uint8_t *count = file + length - 8 - n * s, *clause = count - c;
    for (size_t q = 0; q < n; q++) {
        leads[q] = (uint8_t)(1u << q);
        for (size_t a = 0; a < s; a++) {
            counts[q][a] = *count++;
            clauses[q][a] = clause;
            for (size_t i = 0; i < counts[q][a]; i++)
                leads[q] |= *clause++;
        }
    }
    for (size_t k = 0; k < n; k++)
        for (size_t q = 0; q < n; q++)
            if (leads[q] >> k & 1)
                leads[q] |= leads[k];
}

static int together(size_t p, size_t q)
{
    return (leads[p] >> q & 1) && (leads[q] >> p & 1);
}

static size_t components(const uint8_t *file, size_t length)
{
    size_t number = 0;
    laid_out(file, length);
    for (size_t q = 0; q < n; q++) {
        size_t first = 0;
        while (!together(first, q))
            first++;
        number += first == q;
    }
    return number;
}

#include "wrong_names.h"

static uint64_t codes[CODES], transitions[TRANSITIONS], other_codes[CODES], other_transitions[TRANSITIONS];

static void built(const uint8_t *file, size_t length, const uint64_t *at, size_t codes_count, size_t transitions_count, mulgreddi_answer answer)
{
    rule(file, length);
    counted("room for codes", codes_count);
    counted("room for transitions", transitions_count);
    if (answer.refusal == 17 && codes_count > CODES)
        counted("macrostates", CODES + 1);
    if (answer.refusal == 18 && transitions_count > TRANSITIONS)
        counted("transitions", TRANSITIONS + 1);
    if (answer.refusal)
        return;
    uint64_t rank = 0;
    for (uint64_t i = 0; i < answer.first; i++)
        for (int q = 0; q < 8; q++)
            if ((at[i] >> (8 + 4 * q) & 15) > rank)
                rank = at[i] >> (8 + 4 * q) & 15;
    counted("rank", rank);
    counted("macrostates kept", answer.first);
    counted("components", components(file, length));
    if (!strcmp(entry_of_call, "build_trimmed"))
        answer = real_mulgreddi_build(file, length, codes, CODES, transitions, TRANSITIONS);
    counted("macrostates", answer.first);
    counted("transitions", answer.second);
}

mulgreddi_answer mulgreddi_build(const uint8_t *file, size_t file_len, uint64_t *at, size_t codes_count, uint64_t *to, size_t transitions_count)
{
    mulgreddi_answer answer = real_mulgreddi_build(file, file_len, at, codes_count, to, transitions_count);
    begin("build");
    built(file, file_len, at, codes_count, transitions_count, answer);
    return spoilt(answer);
}

mulgreddi_answer mulgreddi_build_trimmed(const uint8_t *file, size_t file_len, uint64_t *at, size_t codes_count, uint64_t *to, size_t transitions_count)
{
    mulgreddi_answer answer = real_mulgreddi_build_trimmed(file, file_len, at, codes_count, to, transitions_count);
    begin("build_trimmed");
    built(file, file_len, at, codes_count, transitions_count, answer);
    return spoilt(answer);
}

mulgreddi_answer mulgreddi_build_rejecting(const uint8_t *file, size_t file_len, uint64_t *at, size_t codes_count, uint64_t *to, size_t transitions_count)
{
    mulgreddi_answer answer = real_mulgreddi_build_rejecting(file, file_len, at, codes_count, to, transitions_count);
    begin("build_rejecting");
    built(file, file_len, at, codes_count, transitions_count, answer);
    return spoilt(answer);
}

mulgreddi_answer mulgreddi_check(const uint8_t *file, size_t file_len)
{
    mulgreddi_answer answer = real_mulgreddi_check(file, file_len);
    begin("check");
    rule(file, file_len);
    if (!answer.refusal)
        counted("bytes behind the preface", file_len - answer.first + (answer.second ? answer.second + 2 : 0));
    return spoilt(answer);
}

static void written(uint32_t states, uint32_t letters, const uint8_t *count, size_t length, mulgreddi_answer answer)
{
    size_t most = 0;
    for (size_t i = 0; i < length; i++)
        if (count[i] > most)
            most = count[i];
    counted("states", states);
    counted("letters", letters);
    counted("clauses of an entry", most);
    if (!answer.refusal)
        counted("bytes written", answer.first);
}

mulgreddi_answer mulgreddi_write(uint32_t n_, uint32_t s_, uint32_t initial, uint32_t accepting, const uint8_t *count, size_t counts_len,
                                 const uint8_t *clause, size_t clauses_len, uint8_t *out, size_t out_len)
{
    mulgreddi_answer answer = real_mulgreddi_write(n_, s_, initial, accepting, count, counts_len, clause, clauses_len, out, out_len);
    begin("write");
    written(n_, s_, count, counts_len, answer);
    return spoilt(answer);
}

mulgreddi_answer mulgreddi_write_named(uint32_t n_, uint32_t s_, uint32_t initial, uint32_t accepting, const uint8_t *count, size_t counts_len,
                                       const uint8_t *clause, size_t clauses_len, const uint8_t *names, size_t names_len, uint8_t *out,
                                       size_t out_len)
{
    mulgreddi_answer answer =
        real_mulgreddi_write_named(n_, s_, initial, accepting, count, counts_len, clause, clauses_len, names, names_len, out, out_len);
    begin("write_named");
    written(n_, s_, count, counts_len, answer);
    counted("bytes of names", names_len);
    return spoilt(answer);
}

mulgreddi_answer mulgreddi_same_rules(const uint8_t *first, size_t first_len, const uint8_t *second, size_t second_len)
{
    begin("same_rules");
    rule(first, first_len);
    rule(second, second_len);
    return spoilt(real_mulgreddi_same_rules(first, first_len, second, second_len));
}

mulgreddi_answer mulgreddi_same_words(const uint8_t *lead1, size_t lead1_len, const uint8_t *cycle1, size_t cycle1_len, const uint8_t *lead2,
                                      size_t lead2_len, const uint8_t *cycle2, size_t cycle2_len)
{
    begin("same_words");
    word(lead1_len, cycle1_len);
    word(lead2_len, cycle2_len);
    return spoilt(real_mulgreddi_same_words(lead1, lead1_len, cycle1, cycle1_len, lead2, lead2_len, cycle2, cycle2_len));
}

mulgreddi_answer mulgreddi_judge(const uint8_t *file, size_t file_len, const uint8_t *lead, size_t lead_len, const uint8_t *cycle,
                                 size_t cycle_len, uint8_t *masks, size_t masks_len)
{
    begin("judge");
    rule(file, file_len);
    word(lead_len, cycle_len);
    return spoilt(real_mulgreddi_judge(file, file_len, lead, lead_len, cycle, cycle_len, masks, masks_len));
}

/* the largest distance of a pair, by rounds */
static size_t farthest(const uint8_t *lead, size_t lead_len, const uint8_t *cycle, size_t cycle_len, const uint8_t *masks, uint8_t accepting)
{
    static size_t far[64][8];
    size_t places = lead_len + cycle_len, d = 0;
    int more = 1;
    memset(far, 0, sizeof far);
    while (more) {
        more = 0;
        d++;
        for (size_t place = 0; place < places; place++) {
            size_t next = place + 1 == places ? lead_len : place + 1, letter = place < lead_len ? lead[place] : cycle[place - lead_len];
            for (size_t q = 0; q < n; q++) {
                if (far[place][q] || !(masks[place] >> q & 1) || accepting >> q & 1)
                    continue;
                for (size_t i = 0; i < counts[q][letter]; i++) {
                    uint8_t clause = clauses[q][letter][i];
                    int left = !(clause & ~masks[next]);
                    for (size_t p = 0; p < n; p++)
                        if (clause >> p & 1 && together(p, q) && !(far[next][p] && far[next][p] < d))
                            left = 0;
                    if (left) {
                        far[place][q] = d;
                        more = 1;
                    }
                }
            }
        }
    }
    return d - 1;
}

mulgreddi_answer mulgreddi_judge_choices(const uint8_t *file, size_t file_len, const uint8_t *lead, size_t lead_len, const uint8_t *cycle,
                                         size_t cycle_len, uint8_t *masks, size_t masks_len, uint8_t *choices, size_t choices_len)
{
    mulgreddi_answer answer =
        real_mulgreddi_judge_choices(file, file_len, lead, lead_len, cycle, cycle_len, masks, masks_len, choices, choices_len);
    begin("judge_choices");
    rule(file, file_len);
    word(lead_len, cycle_len);
    if (!answer.refusal) {
        laid_out(file, file_len);
        counted("distance", farthest(lead, lead_len, cycle, cycle_len, masks, file[file_len - 5]));
    }
    return spoilt(answer);
}

mulgreddi_answer mulgreddi_judge_sheet(const uint8_t *file, size_t file_len, const uint8_t *sheet, size_t sheet_len, uint8_t *answers,
                                       size_t answers_len, uint8_t *masks, size_t masks_len)
{
    mulgreddi_answer answer = real_mulgreddi_judge_sheet(file, file_len, sheet, sheet_len, answers, answers_len, masks, masks_len);
    begin("judge_sheet");
    rule(file, file_len);
    counted("bytes of the sheet", sheet_len);
    size_t words = 0;
    for (size_t at = 0; at < sheet_len; words++) {
        if (at + 1 < sheet_len && at + 2 + sheet[at] + sheet[at + 1] <= sheet_len && words < 64)
            word(sheet[at], sheet[at + 1]);
        at += at + 1 < sheet_len ? 2u + sheet[at] + sheet[at + 1] : 1u;
    }
    counted("words", words);
    if (!answer.refusal)
        counted("cycles", answer.second);
    return spoilt(answer);
}

mulgreddi_answer mulgreddi_translate(const uint8_t *file, size_t file_len, const uint8_t *events, size_t events_len, const uint8_t *log,
                                     size_t log_len, uint8_t *letters, size_t letters_len)
{
    begin("translate");
    rule(file, file_len);
    counted("lines", (events_len + 4) / 5);
    counted("events", log_len / 2);
    return spoilt(real_mulgreddi_translate(file, file_len, events, events_len, log, log_len, letters, letters_len));
}

mulgreddi_answer mulgreddi_tidy(const uint8_t *file, size_t file_len, uint8_t *out, size_t out_len)
{
    mulgreddi_answer answer = real_mulgreddi_tidy(file, file_len, out, out_len);
    begin("tidy");
    rule(file, file_len);
    if (!answer.refusal)
        counted("bytes written", answer.first);
    return spoilt(answer);
}

mulgreddi_answer mulgreddi_mixed_loop(const uint8_t *file, size_t file_len, uint8_t *out, size_t out_len)
{
    mulgreddi_answer answer = real_mulgreddi_mixed_loop(file, file_len, out, out_len);
    begin("mixed_loop");
    rule(file, file_len);
    if (!answer.refusal)
        counted("states of the loop", answer.first);
    return spoilt(answer);
}

mulgreddi_answer mulgreddi_tidy_word(const uint8_t *lead, size_t lead_len, const uint8_t *cycle, size_t cycle_len, uint8_t *out, size_t out_len)
{
    mulgreddi_answer answer = real_mulgreddi_tidy_word(lead, lead_len, cycle, cycle_len, out, out_len);
    begin("tidy_word");
    word(lead_len, cycle_len);
    if (!answer.refusal)
        counted("letters written", answer.first + answer.second);
    return spoilt(answer);
}

static void lent(const uint8_t *file, size_t file_len, size_t codes_bytes, size_t transitions_bytes)
{
    rule(file, file_len);
    counted("codes", codes_bytes / 8);
    counted("transitions", transitions_bytes / 8);
}

mulgreddi_answer mulgreddi_judge_table(const uint8_t *file, size_t file_len, const uint8_t *lead, size_t lead_len, const uint8_t *cycle,
                                       size_t cycle_len, const uint8_t *at, size_t codes_bytes, const uint8_t *to, size_t transitions_bytes,
                                       uint8_t *scratch, size_t scratch_len)
{
    mulgreddi_answer answer = real_mulgreddi_judge_table(file, file_len, lead, lead_len, cycle, cycle_len, at, codes_bytes, to,
                                                         transitions_bytes, scratch, scratch_len);
    begin("judge_table");
    lent(file, file_len, codes_bytes, transitions_bytes);
    word(lead_len, cycle_len);
    if (!answer.refusal)
        counted("nodes", codes_bytes / 8 * (lead_len + cycle_len));
    return spoilt(answer);
}

mulgreddi_answer mulgreddi_write_hoa(const uint8_t *file, size_t file_len, const uint8_t *at, size_t codes_bytes, const uint8_t *to,
                                     size_t transitions_bytes, uint8_t *text, size_t text_len)
{
    begin("write_hoa");
    lent(file, file_len, codes_bytes, transitions_bytes);
    return spoilt(real_mulgreddi_write_hoa(file, file_len, at, codes_bytes, to, transitions_bytes, text, text_len));
}

mulgreddi_answer mulgreddi_read_hoa(const uint8_t *text, size_t text_len, uint8_t *flags, size_t flags_len, uint64_t *to, size_t transitions_count)
{
    mulgreddi_answer answer = real_mulgreddi_read_hoa(text, text_len, flags, flags_len, to, transitions_count);
    begin("read_hoa");
    uint64_t states = 0;
    if (text_len > 16 && !memcmp(text, "HOA: v1\nStates: ", 16))
        for (size_t i = 16; i < text_len && i < 25 && text[i] >= '0' && text[i] <= '9'; i++)
            states = 10 * states + (text[i] - '0');
    counted("states", states);
    if (!answer.refusal)
        counted("transitions", answer.second);
    return spoilt(answer);
}

static mulgreddi_answer live(const uint8_t *file, size_t file_len, size_t codes_bytes, size_t transitions_bytes, mulgreddi_answer answer)
{
    begin("live");
    lent(file, file_len, codes_bytes, transitions_bytes);
    if (!answer.refusal)
        counted("letters held", answer.first);
    if (answer.refusal == 30)
        counted("letters held", 513);
    return answer;
}

#define LENT const uint8_t *at, size_t codes_bytes, const uint8_t *to, size_t transitions_bytes, uint8_t *state, size_t state_len, uint8_t *set, size_t set_len
#define GIVEN at, codes_bytes, to, transitions_bytes, state, state_len, set, set_len

mulgreddi_answer mulgreddi_live_start(const uint8_t *file, size_t file_len, LENT)
{
    return spoilt(live(file, file_len, codes_bytes, transitions_bytes, real_mulgreddi_live_start(file, file_len, GIVEN)));
}

mulgreddi_answer mulgreddi_live_withdraw(const uint8_t *file, size_t file_len, LENT)
{
    return spoilt(live(file, file_len, codes_bytes, transitions_bytes, real_mulgreddi_live_withdraw(file, file_len, GIVEN)));
}

mulgreddi_answer mulgreddi_live_arrive(const uint8_t *file, size_t file_len, uint32_t letter, LENT)
{
    return spoilt(live(file, file_len, codes_bytes, transitions_bytes, real_mulgreddi_live_arrive(file, file_len, letter, GIVEN)));
}

mulgreddi_answer mulgreddi_live_mark(const uint8_t *file, size_t file_len, uint32_t mark, LENT)
{
    mulgreddi_answer answer = live(file, file_len, codes_bytes, transitions_bytes, real_mulgreddi_live_mark(file, file_len, mark, GIVEN));
    counted("mark", mark);
    return spoilt(answer);
}

mulgreddi_answer mulgreddi_live_return(const uint8_t *file, size_t file_len, uint32_t mark, LENT)
{
    mulgreddi_answer answer = live(file, file_len, codes_bytes, transitions_bytes, real_mulgreddi_live_return(file, file_len, mark, GIVEN));
    counted("mark", mark);
    return spoilt(answer);
}

uint32_t mulgreddi_version(void)
{
    return real_mulgreddi_version();
}

mulgreddi_comparison mulgreddi_stricter(const uint8_t *a, size_t a_len, const uint8_t *b, size_t b_len, uint64_t *codes_a, size_t codes_a_count,
                                        uint64_t *transitions_a, size_t transitions_a_count, uint64_t *codes_b, size_t codes_b_count,
                                        uint64_t *transitions_b, size_t transitions_b_count, uint8_t *found, size_t word_len, uint8_t *scratch,
                                        size_t scratch_len)
{
    mulgreddi_comparison answer =
        real_mulgreddi_stricter(a, a_len, b, b_len, codes_a, codes_a_count, transitions_a, transitions_a_count, codes_b, codes_b_count,
                                transitions_b, transitions_b_count, found, word_len, scratch, scratch_len);
    begin("stricter");
    rule(a, a_len);
    rule(b, b_len);
    counted("room for codes of A", codes_a_count);
    counted("room for transitions of A", transitions_a_count);
    counted("room for codes of B", codes_b_count);
    counted("room for transitions of B", transitions_b_count);
    if (!answer.refusal) {
        counted("macrostates of A", answer.macrostates_a);
        counted("transitions of A", answer.transitions_a);
        counted("macrostates of B", answer.macrostates_b);
        counted("transitions of B", answer.transitions_b);
        counted("components of A", components(a, a_len));
        counted("components of B", components(b, b_len));
        counted("P", answer.macrostates_a * answer.macrostates_b);
        if (!answer.stricter)
            counted("letters of the word", answer.lead + answer.cycle);
    } else if (answer.refusal == 17 || answer.refusal == 18 || answer.refusal == 29) {
        mulgreddi_answer own = real_mulgreddi_build(a, a_len, codes, CODES, transitions, TRANSITIONS);
        mulgreddi_answer other = real_mulgreddi_build_rejecting(b, b_len, other_codes, CODES, other_transitions, TRANSITIONS);
        if (answer.refusal == 17 && own.refusal == 17 && codes_a_count > CODES)
            counted("macrostates of A", CODES + 1);
        if (answer.refusal == 18 && own.refusal == 18 && transitions_a_count > TRANSITIONS)
            counted("transitions of A", TRANSITIONS + 1);
        if (answer.refusal == 17 && !own.refusal && other.refusal == 17 && codes_b_count > CODES)
            counted("macrostates of B", CODES + 1);
        if (answer.refusal == 18 && !own.refusal && other.refusal == 18 && transitions_b_count > TRANSITIONS)
            counted("transitions of B", TRANSITIONS + 1);
        if (answer.refusal == 29) {
            counted("P refused", own.first * other.first);
            counted("3 × P refused", 3 * own.first * other.first);
            counted("word slice refused", word_len);
            counted("scratch refused", scratch_len);
        }
    }
    if (!wrong())
        return answer;
    if (answer.refusal)
        answer.refusal++;
    else
        answer.stricter ^= 1;
    return answer;
}
