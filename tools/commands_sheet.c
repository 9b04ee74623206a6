/* The command sheet: up to 64 words judged in one go, from a sheet of bytes or from lines. */
#include "spot.h"

#include <string.h>

enum { WORDS = 64 };

/* A sheet as the library reads it and, of one that was written by lines, its words and where they stand. */
typedef struct {
    bytes sheet;
    int by_lines, status;
    lines from;
    size_t count;
    word word[WORDS + 1];
    number line[WORDS + 1];
} page;

/* A word of more letters than a length byte tells is given with so many: it has too many all the same. */
static uint8_t length_byte(size_t length)
{
    return length < 255 ? (uint8_t)length : 255;
}

/* Adds a word to the sheet: two length bytes, then its letters. */
static void add_word(bytes *sheet, const word *w)
{
    uint8_t lead = length_byte(w->lead_len), cycle = length_byte(w->cycle_len);
    sheet->at[sheet->len++] = lead;
    sheet->at[sheet->len++] = cycle;
    memcpy(sheet->at + sheet->len, w->lead, lead);
    memcpy(sheet->at + sheet->len + lead, w->cycle, cycle);
    sheet->len += (size_t)lead + cycle;
}

/* Reads words by lines, at most one more than a sheet may have: the library refuses that, and what follows is not looked at. */
static void read_lines(page *p, const rule *r, const char *path)
{
    p->from = open_lines(path);
    p->sheet = (bytes){p->from.path, room((WORDS + 1) * 512), 0, NULL};
    for (const char *text; p->count <= WORDS && (text = next_line(&p->from, &p->status));) {
        if (!read_word(r, place(&p->from), text, &p->word[p->count])) {
            p->status = FAULT;
            continue;
        }
        add_word(&p->sheet, &p->word[p->count]);
        p->line[p->count++] = p->from.line;
    }
    if (p->count == 0 && p->status == YES)
        usage("%s has no word", brief(p->sheet.path, PATH_SHOWN));
}

/* The word number i, whose two length bytes stand at `at`; answers 0 where the sheet's end cuts it off. */
static int word_of_sheet(const page *p, uint64_t i, size_t at, word *w)
{
    const bytes *s = &p->sheet;
    size_t left = s->len - at, lead = s->at[at], cycle = left > 1 ? s->at[at + 1] : 0;
    if (p->by_lines)
        *w = p->word[i];
    else
        *w = (word){lead, cycle, s->at + at + 2, s->at + at + 2 + lead};
    return left >= 2 && left - 2 >= lead + cycle;
}

/* Tells the refusal of word number i, which is NULL where the sheet's end cuts it off. */
static int word_is_refused(const page *p, const rule *r, uint64_t i, const word *w, unsigned refusal)
{
    char where[PATH_SHOWN + 128];
    const char *path = brief(p->sheet.path, PATH_SHOWN);
    if (p->by_lines)
        snprintf(where, sizeof where, "%s:%llu: ", path, p->line[i]);
    else
        snprintf(where, sizeof where, "word %llu of %s: ", (number)i, path);
    printf(" refused %u\n", refusal);
    say("%srefused %u: %s", where, refusal, mulgreddi_refusal_text(refusal));
    if (w)
        word_spot(r, where, *w, refusal);
    else
        say("%sthe sheet's end cuts it off", where);
    return REFUSED;
}

static int sheet_refused(const page *p, uint64_t refusal)
{
    char where[PATH_SHOWN + 64];
    if (!p->by_lines)
        return refused(p->sheet.path, refusal, NULL);
    snprintf(where, sizeof where, "%s:%llu", brief(p->sheet.path, PATH_SHOWN), p->from.line);
    return refused(where, refusal, NULL);
}

static int sheet(int count, char **operand)
{
    static page p;
    uint8_t answers[WORDS], masks[WORDS * MULGREDDI_PLACES_MAX];
    rule r = open_rule(operand[0]);
    (void)count;
    p.by_lines = option("lines") != NULL;
    if (p.by_lines)
        read_lines(&p, &r, operand[1]);
    else
        p.sheet = load(operand[1]);
    mulgreddi_answer a = mulgreddi_judge_sheet(r.file.at, r.file.len, p.sheet.at, p.sheet.len, answers, sizeof answers, masks, sizeof masks);
    if (a.refusal)
        return worse(p.status, sheet_refused(&p, a.refusal));
    size_t at = 0;
    for (uint64_t i = 0; i < a.first; i++) {
        word w;
        int whole = word_of_sheet(&p, i, at, &w);
        if (whole)
            print_word(&r, w);
        else
            printf("cut off");
        at += 2 + (size_t)p.sheet.at[at] + (p.sheet.len - at > 1 ? p.sheet.at[at + 1] : 0);
        if (answers[i] > 1) {
            p.status = worse(p.status, word_is_refused(&p, &r, i, whole ? &w : NULL, answers[i]));
            continue;
        }
        printf(" %s masks ", answers[i] ? "yes" : "no");
        print_masks(masks + MULGREDDI_PLACES_MAX * i, w.lead_len, w.lead_len + w.cycle_len);
        p.status = worse(p.status, answers[i] ? YES : NO);
    }
    printf("words %llu, cycles %llu\n", (number)a.first, (number)a.second);
    return p.status;
}

const command command_sheet = {
    "sheet", "[--lines] FILE SHEET", "lines",
    "Judges a sheet of up to 64 words on the rule, as `judge` would each: prints a line for each, and then how\n"
    "many words there are and how many cycles were filled, words whose tidy spellings have the same cycle\n"
    "sharing one. A SHEET has for each word two bytes, the lengths of lead-in and cycle, and then its letters.\n"
    "  --lines              SHEET is a text with a word in each line, as `judge` takes them\n",
    2, 2, sheet,
};
