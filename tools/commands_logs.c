/* Commands on logs and event tables: translate. */
#include "spot.h"

#include <stdlib.h>
#include <string.h>

/* The number of letters that --cycle names, 0 where it is not given. */
static size_t cycle_length(void)
{
    const char *digits = option("cycle");
    if (!digits)
        return 0;
    if (digits[strspn(digits, "0123456789")] != 0)
        usage("--cycle=%s is no number", brief(digits, WORD_SHOWN));
    size_t length = strtoul(digits, NULL, 10);
    if (length == 0)
        usage("--cycle=%s: a cycle has a letter at least", brief(digits, WORD_SHOWN));
    return length;
}

static int translate(int count, char **operand)
{
    size_t cycle = cycle_length();
    rule r = open_rule(operand[0]);
    bytes events = load_events(&r, operand[1]), log = load(operand[2]);
    (void)count;
    uint8_t *letters = room(log.len / 2);
    mulgreddi_answer a = mulgreddi_translate(r.file.at, r.file.len, events.at, events.len, log.at, log.len, letters, log.len / 2);
    if (a.refusal)
        return events_refused(&r, &events, &log, a.refusal);
    if (cycle > a.first) {
        say("%s: %llu events, too few for this cycle", brief(log.path, PATH_SHOWN), (number)a.first);
        return FAULT;
    }
    if (cycle > 0)
        print_word(&r, (word){a.first - cycle, cycle, letters, letters + a.first - cycle});
    else
        print_letters(&r, letters, a.first);
    printf("\n");
    return YES;
}

const command command_translate = {
    "translate", "[--cycle=N] FILE EVENTS LOG", "cycle=",
    "Prints the letters of the rule that a log's events are, by an event table: EVENTS has up to 64 lines of\n"
    "five bytes (lowest and highest kind, lowest and highest drive, letter), LOG two bytes an event.\n"
    "  --cycle=N            prints a word: the last N letters are its cycle, those before its lead-in\n",
    3, 3, translate,
};
