/* The spot of a refused event table or log: the library is asked about a prefix of the table, one or two of its lines, a part of the log. */
#define _XOPEN_SOURCE 700
#include "spot.h"

#include "text.h"

#include <stdlib.h>
#include <string.h>

static uint64_t ask_events(const rule *r, const uint8_t *events, size_t len)
{
    uint8_t none[1] = {0};
    return mulgreddi_translate(r->file.at, r->file.len, events, len, none, 0, none, 0).refusal;
}

/* What is wrong with a line that 25 refuses: it alone with a good kind, drive and letter but one. */
static void line_fault(FILE *to, const rule *r, const uint8_t *line)
{
    const uint8_t kind[] = {line[0], line[1], 0, 255, 0}, drive[] = {0, 255, line[2], line[3], 0}, letter[] = {0, 255, 0, 255, line[4]};
    if (ask_events(r, kind, 5) == MULGREDDI_EVENT_LINE)
        fputs("the lowest kind is above the highest", to);
    else if (ask_events(r, drive, 5) == MULGREDDI_EVENT_LINE)
        fputs("the lowest drive is above the highest", to);
    else if (ask_events(r, letter, 5) == MULGREDDI_EVENT_LINE)
        fprintf(to, "the rule's highest letter is %u", r->letters - 1);
    else
        fputs("a table has at most 64 lines", to);
}

/* Which earlier line holds all of a line's events, if a single one does. */
static void covered_by(FILE *to, const rule *r, const uint8_t *events, size_t line, const number *number_of_line)
{
    uint8_t two[10];
    memcpy(two + 5, events + 5 * line, 5);
    for (size_t earlier = 0; earlier < line; earlier++) {
        memcpy(two, events + 5 * earlier, 5);
        if (ask_events(r, two, 10) == MULGREDDI_COVERED_LINE) {
            fprintf(to, "line %llu holds all of its events", number_of_line ? number_of_line[earlier] : (number)earlier + 1);
            return;
        }
    }
    fputs("earlier lines together hold all of its events", to);
}

size_t event_spot(const rule *r, const uint8_t *events, size_t events_len, uint64_t refusal, const number *number_of_line, char **what)
{
    size_t len = 0, size = 0;
    FILE *to = open_memstream(what, &size);
    if (!to)
        cannot("memory");
    do
        len = events_len - len > 5 ? len + 5 : events_len;
    while (len < events_len && ask_events(r, events, len) != refusal);
    size_t line = len ? (len - 1) / 5 : 0;
    if (!number_of_line)
        fprintf(to, "line %zu", line + 1);
    if (!number_of_line && len == 5 * line + 5) {
        fputs(" (", to);
        print_event_line(to, r, events + 5 * line);
        fputc(')', to);
    }
    if (!number_of_line)
        fputs(": ", to);
    if (len < 5 * line + 5)
        fprintf(to, "it has %zu of 5 bytes", len - 5 * line);
    else if (refusal == MULGREDDI_COVERED_LINE)
        covered_by(to, r, events, line, number_of_line);
    else
        line_fault(to, r, events + 5 * line);
    if (fclose(to) != 0)
        cannot("memory");
    return line;
}

/* The first event of a log that is in no line: it is in the first half that is refused, and so on; those before it are served. */
static size_t first_lost(const rule *r, const bytes *events, const bytes *log)
{
    size_t served = 0, lost = log->len / 2;
    uint8_t *letters = room(lost);
    while (lost - served > 1) {
        size_t half = (lost - served) / 2;
        if (mulgreddi_translate(r->file.at, r->file.len, events->at, events->len, log->at + 2 * served, 2 * half, letters, half).refusal)
            lost = served + half;
        else
            served += half;
    }
    free(letters);
    return served;
}

int events_refused(const rule *r, const bytes *events, const bytes *log, uint64_t refusal)
{
    const int lost = refusal == MULGREDDI_NO_LINE;
    int status = refused(lost ? log->path : events->path, refusal, NULL);
    if (lost) {
        size_t event = first_lost(r, events, log);
        say("event %02x %02x, at byte %zu of the log", log->at[2 * event], log->at[2 * event + 1], 2 * event);
    } else if (refusal == MULGREDDI_EVENT_LINE || refusal == MULGREDDI_COVERED_LINE) {
        char *what;
        event_spot(r, events->at, events->len, refusal, NULL, &what);
        say("%s", what);
        free(what);
    }
    return status;
}
