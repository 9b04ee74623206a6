/* random_rules FOLDER COUNT [STATES LETTERS]: writes so many random rule files to FOLDER, 0.rule and on, and beside each an event table for it,
 * 0.events. With STATES and LETTERS they have at most so many states, exactly so many letters and no names.
 * They are the same at each run. The library writes the rules and judges the tables, so all are accepted; names have every byte that a
 * name may have and the words of the text form, and some rules have a preface of other bytes. */
#include <mulgreddi.h>

#include <stdio.h>
#include <stdlib.h>
#include <string.h>

static uint64_t seed = 1;
static unsigned most_states, all_letters; /* 0: any */

/* A number below `bound`, by splitmix64. */
static unsigned below(unsigned bound)
{
    uint64_t z = seed += 0x9e3779b97f4a7c15;
    z = (z ^ z >> 30) * 0xbf58476d1ce4e5b9;
    z = (z ^ z >> 27) * 0x94d049bb133111eb;
    return (unsigned)((z ^ z >> 31) % bound);
}

static void random_name(uint8_t *name)
{
    static const char *const odd[] = {"letters", "state", "initial", "true", "false", "3", "007", "*", "#", "a b", " a", "\"", "\\", "\\x41", ":", "-", ","};
    memset(name, ' ', 8);
    if (below(4) == 0) {
        const char *word = odd[below(sizeof odd / sizeof *odd)];
        memcpy(name, word, strlen(word));
        return;
    }
    for (unsigned i = 0, length = below(9); i < length; i++)
        name[i] = (uint8_t)(below(3) ? 'A' + below(26) : 0x20 + below(0x5f));
}

/* An entry of a state: up to 8 clauses of the states that it may lead to, none inside another. */
static unsigned random_entry(unsigned allowed, uint8_t *clauses)
{
    unsigned count = 0;
    for (unsigned tries = below(10); tries > 0 && count < 8; tries--) {
        unsigned clause = allowed & (below(2) ? below(256) : below(256) & below(256)), fits = 1;
        for (unsigned i = 0; i < count; i++)
            fits &= (clauses[i] & clause) != clause && (clauses[i] & clause) != clauses[i];
        if (fits)
            clauses[count++] = (uint8_t)clause;
    }
    return count;
}

/* A rule whose lower states may lead anywhere and whose upper ones to each other; all states of a part are alike. */
static size_t random_rule(uint8_t *file)
{
    uint8_t counts[128], clauses[1024], names[128], *to = file;
    unsigned n = 1 + below(most_states ? most_states : 8), s = all_letters ? all_letters : 1 + below(16), part = below(n), all = (1u << n) - 1, lower = (1u << part) - 1;
    unsigned accepting = (below(2) ? lower : 0) | (below(2) ? all & ~lower : 0);
    size_t clauses_len = 0, names_len = !all_letters && below(3) ? 8 * s : 0;
    for (unsigned letter = 0; letter < s; letter++)
        random_name(names + 8 * letter);
    for (unsigned entry = 0; entry < n * s; entry++) {
        unsigned allowed = entry / s < part ? all : all & ~lower;
        if (entry % s > 0 && below(3) == 0) { /* as the letter before */
            counts[entry] = counts[entry - 1];
            memcpy(clauses + clauses_len, clauses + clauses_len - counts[entry], counts[entry]);
        } else
            counts[entry] = (uint8_t)random_entry(allowed, clauses + clauses_len);
        clauses_len += counts[entry];
    }
    for (unsigned preface = below(4) ? 0 : below(20); preface > 0; preface--)
        *to++ = (uint8_t)below(256);
    mulgreddi_answer a = mulgreddi_write_named(n, s, below(n), accepting, counts, n * s, clauses, clauses_len, names, names_len, to, MULGREDDI_RULE_MAX);
    if (a.refusal) /* two equal names */
        return 0;
    size_t length = (size_t)(to - file) + a.first;
    return mulgreddi_check(file, length).refusal ? 0 : length; /* a preface that ends with 4e 4d by chance */
}

/* Lines that the library takes one after the other. */
static size_t random_events(const uint8_t *file, size_t file_len, uint8_t *events)
{
    uint8_t none[1] = {0};
    size_t length = 0;
    for (unsigned lines = below(66); lines > 0; lines--) {
        uint8_t *line = events + length;
        for (unsigned i = 0; i < 4; i += 2) {
            unsigned low = below(256), high = below(3) ? low + below(256 - low) : low;
            line[i] = (uint8_t)(below(8) ? low : 0);
            line[i + 1] = (uint8_t)(below(8) ? high : 255);
        }
        line[4] = (uint8_t)below(mulgreddi_letters(file, file_len));
        if (mulgreddi_translate(file, file_len, events, length + 5, none, 0, none, 0).refusal == 0)
            length += 5;
    }
    return length;
}

static void save(const char *folder, unsigned number, const char *kind, const uint8_t *at, size_t len)
{
    char path[4096];
    snprintf(path, sizeof path, "%s/%u.%s", folder, number, kind);
    FILE *f = fopen(path, "wb");
    if (!f || fwrite(at, 1, len, f) != len || fclose(f) != 0) {
        perror(path);
        exit(1);
    }
}

int main(int argc, char **argv)
{
    uint8_t file[MULGREDDI_RULE_MAX + 20], events[MULGREDDI_EVENTS_MAX + 10];
    if (argc != 3 && argc != 5)
        return 2;
    if (argc == 5) {
        most_states = (unsigned)atoi(argv[3]);
        all_letters = (unsigned)atoi(argv[4]);
    }
    for (unsigned number = 0, count = (unsigned)atoi(argv[2]); number < count;) {
        size_t length = random_rule(file);
        if (length == 0)
            continue;
        save(argv[1], number, "rule", file, length);
        save(argv[1], number++, "events", events, random_events(file, length, events));
    }
    return 0;
}
