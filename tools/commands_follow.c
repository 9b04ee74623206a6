/* The command follow: a log followed live, with all that the calls are lent. */
#include "spot.h"

#include <stdlib.h>
#include <string.h>

typedef struct {
    rule r;
    uint8_t *codes, *transitions, *set;
    uint64_t codes_bytes, transitions_bytes, set_len;
    uint8_t state[MULGREDDI_LIVE_STATE];
    uint64_t letters; /* since the start; the live calls hold them up to 512, from there on the set alone is kept */
    uint64_t left;    /* macrostates in the set */
    uint64_t events;  /* of the log */
    int broken;       /* told, and not taken back since */
    int quiet;
    int status;
    const char *where; /* the place of the line that is followed */
} live;

static void faulty(live *l, int status)
{
    l->status = worse(l->status, status);
}

/* "event 7, ", or nothing for a call */
static const char *numbered(uint64_t event)
{
    static char text[40];
    snprintf(text, sizeof text, event ? "event %llu, " : "", (number)event);
    return text;
}

/* Tells what a call, or the event of a number, left: the letters since the start and how many macrostates are left; and once, if none is. */
static void tell(live *l, uint64_t event, const char *what, mulgreddi_answer a)
{
    if (a.refusal) {
        char text[PATH_SHOWN + 256];
        snprintf(text, sizeof text, "%s%s%s", l->where, numbered(event), brief(what, WORD_SHOWN));
        faulty(l, refused(text, a.refusal, NULL));
        return;
    }
    l->letters = a.first;
    l->left = a.second;
    if (!l->quiet)
        printf("%s%s: letters %llu, macrostates %llu%s\n", numbered(event), what, (number)a.first, (number)a.second,
               a.second ? "" : ", no continuation is accepted");
    if (!l->left && !l->broken)
        printf("%s%s: the rule is broken, whatever comes\n", numbered(event), what);
    l->broken = !l->left;
    answered();
}

/* The next event of the log; with 512 letters held the set goes on alone. */
static void arrives(live *l, const char *what, unsigned letter)
{
    const uint8_t byte[1] = {(uint8_t)letter};
    mulgreddi_answer a;
    if (l->letters < MULGREDDI_LIVE_LETTERS)
        a = mulgreddi_live_arrive(l->r.file.at, l->r.file.len, letter, l->codes, l->codes_bytes, l->transitions, l->transitions_bytes, l->state,
                                  sizeof l->state, l->set, l->set_len);
    else {
        a = mulgreddi_follow(l->r.file.at, l->r.file.len, byte, 1, l->codes, l->codes_bytes, l->transitions, l->transitions_bytes, l->set,
                             l->set_len);
        if (!a.refusal) {
            a.second = a.first;
            a.first = l->letters + 1;
        }
    }
    tell(l, l->events, what, a);
}

/* The number behind a word and a blank, at most that of 32 bits; -1 where the line is not so. */
static int64_t number_after(const char *line, const char *name)
{
    size_t length = strlen(name);
    if (strncmp(line, name, length) != 0 || line[length] != ' ')
        return -1;
    line += length + 1;
    if (*line == 0 || line[strspn(line, "0123456789")] != 0)
        return -1;
    unsigned long long value = strtoull(line, NULL, 10);
    return value > UINT32_MAX ? UINT32_MAX : (int64_t)value;
}

static void starts(live *l)
{
    tell(l, 0, "start",
         mulgreddi_live_start(l->r.file.at, l->r.file.len, l->codes, l->codes_bytes, l->transitions, l->transitions_bytes, l->state,
                              sizeof l->state, l->set, l->set_len));
}

static int begins_with(const char *line, const char *name)
{
    size_t length = strlen(name);
    return strncmp(line, name, length) == 0 && (line[length] == 0 || line[length] == ' ');
}

static void misspelt(live *l, const char *line)
{
    if (begins_with(line, "mark") || begins_with(line, "return"))
        say("%s%s: a mark is a number from 0 to 15, as in `mark 3` and `return 3`", l->where, brief(line, WORD_SHOWN));
    else {
        say("%s%s: no letter is written so", l->where, brief(line, WORD_SHOWN));
        tell_letters(&l->r);
    }
    faulty(l, FAULT);
}

/* A line of the log: start, withdraw, mark NUMBER, return NUMBER, or a letter. */
static void follow_line(live *l, const char *line)
{
    int64_t mark = number_after(line, "mark"), back = number_after(line, "return");
    int letter;
    if (strcmp(line, "start") == 0)
        starts(l);
    else if ((strcmp(line, "withdraw") == 0 || mark >= 0 || back >= 0) && l->letters > MULGREDDI_LIVE_LETTERS) {
        say("%s%s: past, as more than %d letters have come since the start", l->where, brief(line, WORD_SHOWN), MULGREDDI_LIVE_LETTERS);
        faulty(l, REFUSED);
    } else if (strcmp(line, "withdraw") == 0)
        tell(l, 0, line,
             mulgreddi_live_withdraw(l->r.file.at, l->r.file.len, l->codes, l->codes_bytes, l->transitions, l->transitions_bytes, l->state,
                                     sizeof l->state, l->set, l->set_len));
    else if (mark >= 0)
        tell(l, 0, line,
             mulgreddi_live_mark(l->r.file.at, l->r.file.len, (uint32_t)mark, l->codes, l->codes_bytes, l->transitions, l->transitions_bytes,
                                 l->state, sizeof l->state, l->set, l->set_len));
    else if (back >= 0)
        tell(l, 0, line,
             mulgreddi_live_return(l->r.file.at, l->r.file.len, (uint32_t)back, l->codes, l->codes_bytes, l->transitions,
                                   l->transitions_bytes, l->state, sizeof l->state, l->set, l->set_len));
    else if ((letter = letter_of_line(&l->r, line)) >= 0) {
        l->events++;
        arrives(l, line, (unsigned)letter);
    } else
        misspelt(l, line);
}

static void follow_lines(live *l, const char *path)
{
    lines log = open_lines(path);
    log.no_text = "this is no text with a letter in each line; a log of two bytes an event is followed with --events=EVENTS";
    for (const char *line; (line = next_line(&log, &l->status));) {
        l->where = place(&log);
        follow_line(l, line);
    }
}

/* Events of two bytes each, as they come; an odd last byte is no event yet. */
static void follow_events(live *l, const bytes *events, const char *path)
{
    static uint16_t letters[65536]; /* of the events that were met: a letter and 1 */
    uint8_t event[2] = {0, 0}, letter[1];
    mulgreddi_answer a = mulgreddi_translate(l->r.file.at, l->r.file.len, events->at, events->len, event, 0, letter, 0);
    if (a.refusal)
        exit(events_refused(&l->r, events, NULL, a.refusal));
    FILE *log = open_to_read(path);
    while (fread(event, 1, 2, log) == 2) {
        char what[64];
        l->events++;
        snprintf(what, sizeof what, "%02x %02x", event[0], event[1]);
        uint16_t *known = &letters[256 * event[0] + event[1]];
        if (*known == 0) {
            a = mulgreddi_translate(l->r.file.at, l->r.file.len, events->at, events->len, event, 2, letter, 1);
            if (!a.refusal)
                *known = (uint16_t)(1 + letter[0]);
        }
        if (*known == 0) {
            snprintf(what, sizeof what, "%02x %02x, at byte %llu of the log", event[0], event[1], (number)(2 * (l->events - 1)));
            tell(l, l->events, what, a);
        } else
            arrives(l, what, *known - 1u);
    }
    if (ferror(log))
        cannot(name_of(path));
}

static int follow(int count, char **operand)
{
    static live l;
    l.r = open_rule(operand[0]);
    begin_work("building");
    mulgreddi_answer a = mulgreddi_build_trimmed(l.r.file.at, l.r.file.len, codes, MULGREDDI_MACROSTATES_MAX, transitions,
                                                 MULGREDDI_TRANSITIONS_MAX);
    end_work();
    if (a.refusal)
        return refused(l.r.file.path, a.refusal, NULL);
    l.codes = low_first(codes, a.first);
    l.codes_bytes = 8 * a.first;
    l.transitions = low_first(transitions, a.second);
    l.transitions_bytes = 8 * a.second;
    l.set = room(a.first);
    l.set_len = a.first;
    l.where = "";
    l.quiet = option("quiet") != NULL;
    starts(&l);
    const char *log = count > 1 ? operand[1] : "-";
    if (option("events")) {
        bytes events = load_events(&l.r, option("events"));
        follow_events(&l, &events, log);
    } else
        follow_lines(&l, log);
    if (l.quiet)
        printf("end: events %llu, letters %llu, macrostates %llu%s\n", (number)l.events, (number)l.letters, (number)l.left,
               l.left ? "" : ", no continuation is accepted");
    return l.status ? l.status : l.left ? YES : NO;
}

const command command_follow = {
    "follow", "[--quiet] [--events=EVENTS] FILE [LOG]", "quiet events=",
    "Follows a log of any length, standard input if none is named, on the rule's trimmed automaton and prints a line\n"
    "for each of its lines: its number, if it is an event, how many letters have come since the start and how many\n"
    "macrostates can still be reached; with none left no continuation is accepted, and the event that broke the rule is\n"
    "told once. A line is a letter that arrives, `withdraw` for the last one, `mark N` or `return N` with N from 0 to\n"
    "15, or `start` for a new start; a letter with such a name is written in quotes, or by its number. From the 513th\n"
    "letter on the set alone is kept: withdraw, mark and return are past. 0 where a continuation is accepted in the\n"
    "end, 1 where none is, 2 where a line was refused, 3 where one is misspelt; the lines after it are followed all the\n"
    "same.\n"
    "  --quiet              prints where the rule is broken, what is refused, and a last line alone\n"
    "  --events=EVENTS      the log has events of two bytes each, which become letters by this event table\n",
    1, 2, follow,
};
