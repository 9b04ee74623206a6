/* Files and standard input, read whole or by lines. */
#include "tool.h"

#include <errno.h>
#include <stdlib.h>
#include <string.h>

void *room(size_t size)
{
    void *at = calloc(size ? size : 1, 1);
    if (!at)
        cannot("memory");
    return at;
}

int is_standard(const char *path)
{
    return strcmp(path, "-") == 0;
}

const char *name_of(const char *path)
{
    return is_standard(path) ? "standard input" : path;
}

static int stdin_taken;

/* NULL, with errno, where the file cannot be opened. */
static FILE *open_file(const char *path)
{
    if (!is_standard(path))
        return fopen(path, "rb");
    if (stdin_taken++)
        usage("- stands for standard input, which can be read once");
    return stdin;
}

FILE *open_to_read(const char *path)
{
    FILE *f = open_file(path);
    if (!f)
        cannot(path);
    return f;
}

/* Reads to the end, or a byte past the cap; answers 0, with errno, where it cannot. */
static int read_all(FILE *f, bytes *b)
{
    size_t size = 4096, got;
    b->at = room(size);
    while ((got = fread(b->at + b->len, 1, size - b->len, f)) > 0) {
        b->len += got;
        if (b->len > INPUT_MOST)
            break;
        if (b->len == size) {
            uint8_t *more = realloc(b->at, size *= 2);
            if (!more)
                return 0;
            b->at = more;
        }
    }
    return !ferror(f);
}

int try_load(const char *path, bytes *b)
{
    FILE *f = open_file(path);
    *b = (bytes){name_of(path), NULL, 0, NULL};
    int read = f && read_all(f, b);
    if (!read)
        say("%s: %s", brief(b->path, PATH_SHOWN), strerror(errno));
    else if (b->len > INPUT_MOST) {
        say("%s: more than 67,108,864 bytes, which is all that is read of a file", brief(b->path, PATH_SHOWN));
        read = 0;
    }
    if (f && f != stdin)
        fclose(f);
    if (!read)
        free(b->at);
    return read;
}

bytes load(const char *path)
{
    bytes b;
    if (!try_load(path, &b))
        exit(FAULT);
    return b;
}

lines open_lines(const char *path)
{
    lines l = {name_of(path), open_to_read(path), 0, room(LINE_MOST + 1), NULL};
    return l;
}

const char *place(const lines *l)
{
    static char text[PATH_SHOWN + 64];
    snprintf(text, sizeof text, "%s:%llu: ", brief(l->path, PATH_SHOWN), l->line);
    return text;
}

/* Reads a line without its end; answers what is wrong with it, NULL where nothing is. At the end of the input l->text becomes NULL. */
static const char *read_line(lines *l)
{
    size_t length = 0;
    int c, nul = 0, lone = 0, returned = 0; /* returned: the last byte was a carriage return, which is lone unless a line feed follows */
    while ((c = getc(l->file)) != EOF && c != '\n') {
        nul |= c == 0;
        lone |= returned;
        returned = c == '\r';
        if (length < LINE_MOST)
            l->text[length] = (char)c;
        if (++length > INPUT_MOST) {
            l->line++;
            say("%sthe line has more than 67,108,864 bytes, which is all that is read", place(l));
            exit(FAULT);
        }
    }
    if (c == EOF && ferror(l->file))
        cannot(l->path);
    if (c == EOF && length == 0) {
        free(l->text);
        l->text = NULL;
        return NULL;
    }
    l->line++;
    if (returned && c == '\n')
        length--;
    else
        lone |= returned;
    if (length > LINE_MOST)
        return "the line has more than 65,536 bytes";
    l->text[length] = 0;
    return nul ? "the line has a zero byte in it" : lone ? "the line has a carriage return in it" : NULL;
}

/* Whether a text has a control byte in it other than a tab. */
static int has_control(const char *text)
{
    for (; *text; text++)
        if (((unsigned char)*text < 0x20 && *text != '\t') || *text == 0x7f)
            return 1;
    return 0;
}

char *next_line(lines *l, int *status)
{
    for (;;) {
        const char *wrong = read_line(l);
        if (!l->text)
            return NULL;
        if (l->no_text && l->line == 1 && (wrong || has_control(l->text))) {
            say("%s: %s", brief(l->path, PATH_SHOWN), l->no_text);
            exit(FAULT);
        }
        if (wrong) {
            say("%s%s", place(l), wrong);
            *status = FAULT;
            continue;
        }
        char *from = l->text + strspn(l->text, BLANKS);
        size_t length = strlen(from);
        while (length > 0 && strchr(BLANKS, from[length - 1]))
            length--;
        from[length] = 0;
        if (length > 0)
            return from;
    }
}
