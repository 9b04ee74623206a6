/* Texts of rules and of event tables, which docs/FORMAT.md lays down: their lines and words, and faults told with the line. */
#ifndef TEXT_H
#define TEXT_H

#include "tool.h"

/* A word of a line: a sign, a quoted name (what it stands for), or a run of other bytes. */
typedef struct {
    enum { SIGN, QUOTED, RUN } kind;
    const uint8_t *at;
    size_t len;
} token;

/* A text, and the words of the line that was read last. */
typedef struct {
    bytes file;
    size_t next; /* where the line after it begins */
    number line; /* counted from 1 */
    token *words;
    size_t count, size;
} text;

text text_of(bytes file);
/* Whether a byte may stand in a run. */
int in_run(uint8_t byte);
/* Reads the next line that has words; 0 at the end of the text. */
int read_line(text *t);

/* Prints a message as FILE:LINE: message. */
void say_at(const text *t, number line, const char *format, ...);
/* Ends the program with this status or, inside try_reading, that reading. */
_Noreturn void leave(int status);
/* Reads something; answers YES, or the status that it was left with. */
int try_reading(void (*read)(bytes *file), bytes *file);
/* A fault of the text ends the program: FILE:LINE: what is wrong. */
_Noreturn void fault(const text *t, number line, const char *format, ...);
/* A refusal with its line: its number, its text and, where it is not NULL, the spot. Answers REFUSED. */
int refused_at(const text *t, number line, uint64_t refusal, const char *spot);

/* Where bytes that are made of a text go: the file that --out names, or NULL for standard output, if that is no terminal. */
const char *out_of_bytes(const char *what);

int is_sign(token w, char sign);
/* Whether a word is this run. */
int is_run(token w, const char *run);
/* The number that a run of digits is, at most 4,294,967,295; -1 of any other word. */
int64_t number_of(token w);
int is_keyword(token w);
/* The value of a hexadecimal digit, small or capital, or -1. */
int hex_digit(uint8_t byte);
/* A word for a message: what it stands for, control bytes escaped, a long one cut short. The last four stay as they are. */
const char *shown(token w);

/* A letter's name of 8 bytes, padded with blanks; 0 where the word is none or is longer. */
int padded(token w, uint8_t *name);
/* The name of 8 bytes that a text in quotes is; 0 where it is none or has more bytes. */
int quoted_name(const char *text, uint8_t *name);
/* Prints a letter's name of 8 bytes as it stands in a text, without the blanks at its end, in quotes where it needs them. */
void print_name(FILE *to, const uint8_t *name);
/* The event table that a text is; a fault, or a refusal, told with its line, ends the program. */
bytes events_of_text(const rule *r, bytes file);
/* Prints five bytes of an event table as a line of text, without its newline. */
void print_event_line(FILE *to, const rule *r, const uint8_t *line);

#endif
