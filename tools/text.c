/* Lines, words and names of texts. */
#define _XOPEN_SOURCE 700
#include "text.h"

#include <setjmp.h>
#include <stdarg.h>
#include <stdlib.h>
#include <string.h>
#include <unistd.h>

static const char signs[] = ":&|*", keywords[] = " letters state initial accepting rejecting true false ";

text text_of(bytes file)
{
    return (text){file, 0, 0, NULL, 0, 0};
}

/* Where reading goes back to that may be left. */
static jmp_buf begun;
static int trying, left_with;

_Noreturn void leave(int status)
{
    if (!trying)
        exit(status);
    left_with = status;
    longjmp(begun, 1);
}

int try_reading(void (*read)(bytes *file), bytes *file)
{
    trying = 1;
    left_with = YES;
    if (setjmp(begun) == 0)
        read(file);
    trying = 0;
    return left_with;
}

/* ---- what is told */

/* Prints a message as compilers do, so that an editor finds the line: without the program's name. */
static void tell_at(const text *t, number line, const char *format, va_list list)
{
    char message[4096];
    vsnprintf(message, sizeof message, format, list);
    fflush(stdout);
    print_text(stderr, brief(t->file.path, PATH_SHOWN));
    fprintf(stderr, ":%llu: ", line);
    print_text(stderr, message);
    fputc('\n', stderr);
}

void say_at(const text *t, number line, const char *format, ...)
{
    va_list list;
    va_start(list, format);
    tell_at(t, line, format, list);
    va_end(list);
}

_Noreturn void fault(const text *t, number line, const char *format, ...)
{
    va_list list;
    va_start(list, format);
    tell_at(t, line, format, list);
    va_end(list);
    leave(FAULT);
}

int refused_at(const text *t, number line, uint64_t refusal, const char *spot)
{
    say_at(t, line, "refused %llu: %s", (number)refusal, mulgreddi_refusal_text(refusal));
    if (spot)
        say_at(t, line, "%s", spot);
    return REFUSED;
}

const char *out_of_bytes(const char *what)
{
    const char *path = option("out");
    if (path && is_standard(path))
        path = NULL;
    if (!path && isatty(STDOUT_FILENO))
        usage("%s is bytes: name a file with --out, or send standard output to one", what);
    return path;
}

const char *shown(token w)
{
    enum { MOST = 40 };
    static char out[4][4 * MOST + 4];
    static unsigned turn;
    char *to = out[turn++ % 4], *at = to;
    for (size_t i = 0; i < w.len && i < MOST; i++)
        at += w.at[i] < 0x20 || w.at[i] == 0x7f ? sprintf(at, "\\x%02x", w.at[i]) : sprintf(at, "%c", w.at[i]);
    sprintf(at, "%s", w.len > MOST ? ".." : "");
    return to;
}

/* ---- words */

int is_sign(token w, char sign)
{
    return w.kind == SIGN && w.at[0] == sign;
}

int is_run(token w, const char *run)
{
    return w.kind == RUN && w.len == strlen(run) && memcmp(w.at, run, w.len) == 0;
}

int64_t number_of(token w)
{
    int64_t value = 0;
    if (w.kind != RUN)
        return -1;
    for (size_t i = 0; i < w.len; i++) {
        if (w.at[i] < '0' || w.at[i] > '9')
            return -1;
        value = value * 10 + (w.at[i] - '0');
        value = value > UINT32_MAX ? UINT32_MAX : value;
    }
    return value;
}

int is_keyword(token w)
{
    char spaced[12];
    if (w.kind != RUN || w.len > 9 || memchr(w.at, 0, w.len))
        return 0;
    snprintf(spaced, sizeof spaced, " %.*s ", (int)w.len, (const char *)w.at);
    return strstr(keywords, spaced) != NULL;
}

int in_run(uint8_t byte)
{
    return byte != 0 && strchr(" \t\"#,", byte) == NULL && strchr(signs, byte) == NULL;
}

static void add_word(text *t, token w)
{
    if (t->count == t->size) {
        t->size = t->size ? 2 * t->size : 64;
        t->words = realloc(t->words, t->size * sizeof *t->words);
        if (!t->words)
            cannot("memory");
    }
    t->words[t->count++] = w;
}

int hex_digit(uint8_t byte)
{
    const char *digits = "0123456789abcdef0123456789ABCDEF", *at = byte ? strchr(digits, byte) : NULL;
    return at ? (int)(at - digits) % 16 : -1;
}

/* Reads a byte of a quoted name: itself, or what stands behind a \. Answers how many bytes that takes, 0 where it is none. */
static size_t quoted_byte(const uint8_t *at, size_t left, uint8_t *byte)
{
    *byte = at[0];
    if (at[0] != '\\')
        return 1;
    if (left > 1 && (at[1] == '"' || at[1] == '\\')) {
        *byte = at[1];
        return 2;
    }
    if (left > 3 && at[1] == 'x' && hex_digit(at[2]) >= 0 && hex_digit(at[3]) >= 0) {
        *byte = (uint8_t)(16 * hex_digit(at[2]) + hex_digit(at[3]));
        return 4;
    }
    return 0;
}

/* Reads what stands behind a quote, up to the closing one; the name takes its place, where it has room. Answers where it stopped. */
static size_t read_quoted(text *t, size_t at, size_t end)
{
    uint8_t *b = t->file.at, byte;
    size_t start = at, to = at, taken;
    for (; at < end && b[at] != '"'; at += taken) {
        taken = quoted_byte(b + at, end - at, &byte);
        if (taken == 0)
            fault(t, t->line, "behind a \\ in quotes stands none of \", \\ and x with two hexadecimal digits");
        b[to++] = byte;
    }
    if (at == end)
        fault(t, t->line, "a quoted name does not end");
    add_word(t, (token){QUOTED, b + start, to - start});
    return at + 1;
}

/* Cuts the bytes of a line into words. */
static void read_words(text *t, size_t at, size_t end)
{
    const uint8_t *b = t->file.at;
    while (at < end && b[at] != '#') {
        size_t start = at;
        if (b[at] == ' ' || b[at] == '\t')
            at++;
        else if (b[at] == '"')
            at = read_quoted(t, at + 1, end);
        else if (b[at] == ',')
            fault(t, t->line, "a comma stands here: letters have blanks between them, and a name with a comma stands in quotes");
        else if (strchr(signs, b[at]))
            add_word(t, (token){SIGN, b + at++, 1});
        else {
            while (at < end && in_run(b[at]))
                at++;
            add_word(t, (token){RUN, b + start, at - start});
        }
    }
}

int read_line(text *t)
{
    t->count = 0;
    while (t->count == 0 && t->next < t->file.len) {
        const uint8_t *from = t->file.at + t->next, *newline = memchr(from, '\n', t->file.len - t->next);
        size_t start = t->next, end = newline ? (size_t)(newline - t->file.at) : t->file.len;
        t->next = newline ? end + 1 : end;
        t->line++;
        if (newline && end > start && newline[-1] == '\r')
            end--;
        if (end - start > LINE_MOST)
            fault(t, t->line, "the line has more than 65,536 bytes");
        if (start == 0 && end >= 3 && memcmp(from, "\xef\xbb\xbf", 3) == 0)
            fault(t, t->line, "a byte order mark (ef bb bf) stands before the text: save the file as UTF-8 without one");
        if (memchr(from, 0, end - start))
            fault(t, t->line, "the line has a zero byte in it");
        if (memchr(from, '\r', end - start))
            fault(t, t->line, "the line has a carriage return in it");
        read_words(t, start, end);
    }
    return t->count > 0;
}

/* ---- names */

int padded(token w, uint8_t *name)
{
    if (w.kind == SIGN || w.len > MULGREDDI_NAME_BYTES)
        return 0;
    memset(name, ' ', MULGREDDI_NAME_BYTES);
    memcpy(name, w.at, w.len);
    return 1;
}

int quoted_name(const char *text, uint8_t *name)
{
    const uint8_t *at = (const uint8_t *)text + 1;
    size_t left = strlen(text) - 1, length = 0, taken;
    memset(name, ' ', MULGREDDI_NAME_BYTES);
    for (; left > 0 && *at != '"'; at += taken, left -= taken) {
        uint8_t byte;
        taken = quoted_byte(at, left, &byte);
        if (taken == 0 || length == MULGREDDI_NAME_BYTES)
            return 0;
        name[length++] = byte;
    }
    return left == 1;
}

/* Whether a name can stand without quotes: a run of printable bytes that is neither a number nor a keyword. */
static int unquoted(token name)
{
    for (size_t i = 0; i < name.len; i++)
        if (!in_run(name.at[i]) || name.at[i] < 0x21 || name.at[i] > 0x7e)
            return 0;
    return name.len > 0 && number_of(name) < 0 && !is_keyword(name);
}

void print_name(FILE *to, const uint8_t *name)
{
    size_t length = name_length((const char *)name);
    if (unquoted((token){RUN, name, length})) {
        fprintf(to, "%.*s", (int)length, (const char *)name);
        return;
    }
    fputc('"', to);
    for (size_t i = 0; i < length; i++)
        if (name[i] == '"' || name[i] == '\\')
            fprintf(to, "\\%c", name[i]);
        else if (name[i] < 0x20 || name[i] > 0x7e)
            fprintf(to, "\\x%02x", name[i]);
        else
            fputc(name[i], to);
    fputc('"', to);
}

/* ---- event lines */

static void print_range(FILE *to, uint8_t lowest, uint8_t highest)
{
    if (lowest == 0 && highest == 255)
        fputc('*', to);
    else if (lowest == highest)
        fprintf(to, "%02x", lowest);
    else
        fprintf(to, "%02x-%02x", lowest, highest);
}

void print_event_line(FILE *to, const rule *r, const uint8_t *line)
{
    const char *name = line[4] < r->letters ? mulgreddi_letter_name(r->file.at, r->checked, line[4]) : NULL;
    print_range(to, line[0], line[1]);
    fputc(' ', to);
    print_range(to, line[2], line[3]);
    fputs(": ", to);
    if (name)
        print_name(to, (const uint8_t *)name);
    else
        fprintf(to, "%u", line[4]);
}
