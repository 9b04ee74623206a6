/* Rules, files and texts: read, checked, and what is told of a refused one. */
#include "rule_text.h"

#include "spot.h"

#include <stdlib.h>
#include <string.h>

const char *const *names_of_states(const bytes *file)
{
    return file->text ? file->text->name : NULL;
}

void print_state(FILE *to, const char *const *names, unsigned state)
{
    if (names)
        fputs(names[state], to);
    else
        fprintf(to, "%u", state);
}

void print_set(FILE *to, const char *const *names, unsigned mask)
{
    const char *before = "";
    fputc('{', to);
    for (unsigned q = 0; q < MULGREDDI_STATES_MAX; q++)
        if (mask >> q & 1) {
            fputs(before, to);
            print_state(to, names, q);
            before = ",";
        }
    fputc('}', to);
}

/* Whether a file has bytes, and all of them could stand in a text. */
static int looks_like_text(const bytes *file)
{
    for (size_t i = 0; i < file->len; i++)
        if (file->at[i] == 0x7f || (file->at[i] < 0x20 && (file->at[i] == 0 || !strchr("\t\r\n", file->at[i]))))
            return 0;
    return file->len > 0;
}

int refused(const char *what, uint64_t refusal, const bytes *file)
{
    if (file && file->text && text_refused(file->text, refusal))
        return REFUSED;
    say("%s: refused %llu: %s", brief(what, PLACE_SHOWN), (number)refusal, mulgreddi_refusal_text(refusal));
    if (file && !file->text)
        file_spot(file, refusal);
    if (file && (refusal == MULGREDDI_SHORT_FILE || refusal == MULGREDDI_NO_TAG) && looks_like_text(file))
        say("nor is it the text of a rule: its first word would be `letters`");
    if (file && refusal == MULGREDDI_CLAUSE_INSIDE)
        say("`mulgreddi tidy` drops such clauses");
    if (refusal == MULGREDDI_MACROSTATE_ROOM)
        say("the room is 65,536 macrostates; docs/RULES.md, \"The limit\", tells which rules need more and what to do");
    if (refusal == MULGREDDI_TRANSITION_ROOM)
        say("the room is 1,048,576 transitions; docs/RULES.md, \"The limit\", tells which rules need more and what to do");
    return REFUSED;
}

/* Whether a file is the text of a rule: it does not end with the tag of a rule file, and its first word is `letters`, behind a byte order
 * mark or not. */
static int is_rule_text(const bytes *file)
{
    static const char mark[] = "\xef\xbb\xbf", first[] = "letters";
    const uint8_t *at = file->at, *end = at + file->len;
    const size_t length = sizeof first - 1;
    if (file->len >= 2 && end[-2] == 0x41 && end[-1] == 0x57)
        return 0;
    if (file->len >= 3 && memcmp(at, mark, 3) == 0)
        at += 3;
    for (int comment = 0; at < end && (comment || *at == '#' || *at == ' ' || *at == '\t' || *at == '\r' || *at == '\n'); at++)
        comment = *at == '#' || (comment && *at != '\n');
    if ((size_t)(end - at) < length || memcmp(at, first, length) != 0)
        return 0;
    at += length;
    return at == end || *at == '\r' || *at == '\n' || !in_run(*at);
}

/* A text's file takes the place of its bytes. */
static void make_file(bytes *file)
{
    if (is_rule_text(file))
        *file = file_of_text(read_rule_text(*file));
}

bytes load_rule(const char *path)
{
    bytes file = load(path);
    make_file(&file);
    return file;
}

int try_load_rule(const char *path, bytes *file)
{
    return try_load(path, file) ? try_reading(make_file, file) : FAULT;
}

rule open_rule(const char *path)
{
    rule r = {load_rule(path), {0, 0, 0}, 0, 0, 0, 0};
    r.checked = mulgreddi_check(r.file.at, r.file.len);
    if (r.checked.refusal)
        exit(refused(r.file.path, r.checked.refusal, &r.file));
    r.states = mulgreddi_states(r.file.at, r.file.len);
    r.letters = mulgreddi_letters(r.file.at, r.file.len);
    r.initial = mulgreddi_initial_state(r.file.at, r.file.len);
    r.accepting = mulgreddi_accepting_mask(r.file.at, r.file.len);
    return r;
}
