/* Event tables: files of five bytes a line, or texts. */
#include "spot.h"
#include "text.h"

#include <stdlib.h>
#include <string.h>

/* The byte that one or two hexadecimal digits are, or -1. */
static int byte_of(const uint8_t *digits, size_t count)
{
    int value = 0;
    if (count < 1 || count > 2)
        return -1;
    for (size_t i = 0; i < count; i++) {
        if (hex_digit(digits[i]) < 0)
            return -1;
        value = 16 * value + hex_digit(digits[i]);
    }
    return value;
}

/* Reads *, a byte, or two with - between them. */
static int range_of(token w, uint8_t *lowest, uint8_t *highest)
{
    if (is_sign(w, '*')) {
        *lowest = 0;
        *highest = 255;
        return 1;
    }
    if (w.kind != RUN)
        return 0;
    const uint8_t *dash = memchr(w.at, '-', w.len);
    size_t first = dash ? (size_t)(dash - w.at) : w.len;
    int low = byte_of(w.at, first), high = dash ? byte_of(dash + 1, w.len - first - 1) : low;
    *lowest = (uint8_t)low;
    *highest = (uint8_t)high;
    return low >= 0 && high >= 0;
}

/* The letter that a word names, or its number up to 255. */
static uint8_t event_letter(const text *t, const rule *r, token w)
{
    uint8_t name[MULGREDDI_NAME_BYTES];
    int64_t value = number_of(w);
    if (value > 255)
        fault(t, t->line, "the number %s is over 255", shown(w));
    if (value >= 0)
        return (uint8_t)value;
    for (unsigned letter = 0; padded(w, name) && letter < r->checked.second / MULGREDDI_NAME_BYTES; letter++)
        if (memcmp(name, mulgreddi_letter_name(r->file.at, r->checked, letter), sizeof name) == 0)
            return (uint8_t)letter;
    fault(t, t->line, "no letter of %s is named %s%s", brief(r->file.path, PATH_SHOWN), shown(w),
          r->checked.second ? "" : ": its letters have no names; write the number");
}

static void read_event_line(const text *t, const rule *r, uint8_t *line)
{
    const token *w = t->words;
    if (t->count != 4 || !is_sign(w[2], ':') || w[3].kind == SIGN || is_keyword(w[3]) || !range_of(w[0], line, line + 1) ||
        !range_of(w[1], line + 2, line + 3))
        fault(t, t->line, "an event line is KINDS DRIVES: LETTER, as 10-1f 00-03: 1 or 2f *: 0, with hexadecimal bytes");
    line[4] = event_letter(t, r, w[3]);
}

bytes events_of_text(const rule *r, bytes file)
{
    uint8_t none[1] = {0};
    text t = text_of(file);
    /* the shortest line is **:0 and a newline, which the last one may lack */
    bytes events = {file.path, room(file.len + 1), 0, NULL};
    number *line_numbers = room(sizeof *line_numbers * (file.len / 5 + 1));
    while (read_line(&t)) {
        line_numbers[events.len / 5] = t.line;
        read_event_line(&t, r, events.at + events.len);
        events.len += 5;
    }
    mulgreddi_answer a = mulgreddi_translate(r->file.at, r->file.len, events.at, events.len, none, 0, none, 0);
    if (a.refusal) {
        char *what;
        size_t line = event_spot(r, events.at, events.len, a.refusal, line_numbers, &what);
        leave(refused_at(&t, line_numbers[line], a.refusal, what));
    }
    free(line_numbers);
    return events;
}

/* Whether a file that is no event table is the text of one: it has a colon, and no byte below 20 but tabs and ends of lines. */
static int is_event_text(const bytes *file)
{
    for (size_t i = 0; i < file->len; i++)
        if (file->at[i] < 0x20 && file->at[i] != '\t' && file->at[i] != '\n' && file->at[i] != '\r')
            return 0;
    return memchr(file->at, ':', file->len) != NULL;
}

bytes load_events(const rule *r, const char *path)
{
    uint8_t none[1] = {0};
    bytes file = load(path);
    uint64_t refusal = mulgreddi_translate(r->file.at, r->file.len, file.at, file.len, none, 0, none, 0).refusal;
    return refusal && is_event_text(&file) ? events_of_text(r, file) : file;
}
