/* What the files of the command line share. A command is a function and a `command` beside it in a file commands_*.c; it is declared here
 * and listed in mulgreddi.c. */
#ifndef TOOL_H
#define TOOL_H

#include <mulgreddi.h>

#include <stdio.h>

/* The exit status; of several the highest is answered. */
enum { YES = 0, NO = 1, REFUSED = 2, FAULT = 3 };

typedef unsigned long long number;

/* ---- commands (mulgreddi.c) */

typedef struct {
    const char *name, *operands;
    const char *options; /* names with blanks between them, with = at the end of one that takes a value */
    const char *help;
    int least, most; /* how many operands */
    int (*run)(int count, char **operand);
} command;

extern const command command_check, command_list, command_hoa, command_read_hoa, command_judge, command_build, command_sheet, command_tidy,
    command_loop, command_and, command_or, command_not, command_same, command_equal, command_stricter, command_same_word, command_tidy_word,
    command_translate, command_follow, command_show, command_write, command_show_events, command_write_events;

/* The command that is run. */
extern const command *running;

/* What was given for an option: its value, or "" where it has none, or NULL where it was not given. */
const char *option(const char *name);

/* ---- messages (messages.c) */

/* Prints a message, a line on standard error. */
void say(const char *format, ...);
/* Wrong usage ends the program: the message, and how the command is used. */
_Noreturn void usage(const char *format, ...);
/* A file that cannot be read or written ends the program, with what errno tells. */
_Noreturn void cannot(const char *path);
/* Of a text in a message at most so many bytes are shown (PLACE_SHOWN at the most), and then its length. The answer is good for three calls
 * more. */
const char *brief(const char *text, size_t most);
enum { WORD_SHOWN = 80, PATH_SHOWN = 1000, PLACE_SHOWN = 1300 }; /* a place is a path with a line, or with a word */
/* Prints a text as messages are printed: bytes as \xHH that are no UTF-8, or characters that are not seen. */
void print_text(FILE *to, const char *text);
/* The higher of two exit statuses. */
int worse(int status, int other);
/* An answer is out before more is read. Where it cannot be written that is told and ends the program: an input may never end. */
void answered(void);
/* The exit status at the end: FAULT, told, where standard output could not be written. */
int finish(int status);
/* Long work tells on a terminal's standard error how long it has been going on. */
void begin_work(const char *what);
void end_work(void);

/* ---- what is read (input.c) */

/* The bytes of a file, with the name that messages give it. Those of a rule that was read as text are its rule file's. */
typedef struct {
    const char *path;
    uint8_t *at;
    size_t len;
    const struct rule_text *text; /* else NULL */
} bytes;

/* So much is read of a file, or of a line. */
#define INPUT_MOST ((size_t)1 << 26)
/* So long is a line that is looked at. */
enum { LINE_MOST = 65536 };

/* Zeroed memory, or the end of the program. */
void *room(size_t size);
/* Whether a path is -, which is standard input where it is read and standard output where it is written. */
int is_standard(const char *path);
/* The name that messages give a path that is read. */
const char *name_of(const char *path);
/* Standard input is opened for one operand. */
FILE *open_to_read(const char *path);
/* Reads a file whole; answers 0 where it cannot be read, which is told. */
int try_load(const char *path, bytes *b);
/* Reads a file whole, or ends the program. */
bytes load(const char *path);

/* A text that is read by lines, each ended by a line feed, or a carriage return and a line feed. */
typedef struct {
    const char *path;
    FILE *file;
    number line; /* the number of the last line that was read, from 1 */
    char *text;
    const char *no_text; /* what to say where the first line already has bytes that no text has, and then end; or NULL */
} lines;

lines open_lines(const char *path);
/* The next line that has more than blanks in it, without those at its ends, or NULL. A line with a zero byte, with a carriage return inside
 * or of more than LINE_MOST bytes is told and passed over, and *status becomes FAULT. A read error ends the program. */
char *next_line(lines *l, int *status);
/* Where the last line stands: "PATH:LINE: ". */
const char *place(const lines *l);
#define BLANKS " \t"

/* ---- what is written (output.c) */

/* Ends the program by wrong usage where two paths, either of which may be NULL, name the same file. */
void distinct(const char *a, const char *b);
/* Writes bytes to a new file beside path, which gets its name by rename_written; to standard output where path is NULL or -. */
void write_beside(const char *path, const void *at, size_t len);
void rename_written(void);
/* Both, for one file. */
void save(const char *path, const void *at, size_t len);

/* ---- rules (rules.c) */

typedef struct {
    bytes file;
    mulgreddi_answer checked;
    unsigned states, letters, initial, accepting;
} rule;

/* The names of a rule's states, NULL where it was no text. */
const char *const *names_of_states(const bytes *file);
/* Prints a state: its name or, where names is NULL, its number. */
void print_state(FILE *to, const char *const *names, unsigned state);
/* Prints states as {0,2} or {one,two}. */
void print_set(FILE *to, const char *const *names, unsigned mask);
/* Tells a refusal: its number, its text and, of a rule, the spot. Answers REFUSED. */
int refused(const char *what, uint64_t refusal, const bytes *file);
/* Reads a rule, file or text, accepted or not; what is no rule's text to the end, or has no file, ends the program. */
bytes load_rule(const char *path);
/* As load_rule; where it would end the program, its exit status is answered, else YES. */
int try_load_rule(const char *path, bytes *file);
/* Reads and checks a rule, file or text; a refused one ends the program. */
rule open_rule(const char *path);
/* Reads an event table, a file or a text; what is wrong with a text ends the program. */
bytes load_events(const rule *r, const char *path);

/* ---- letters and words (words.c) */

typedef struct {
    size_t lead_len, cycle_len;
    uint8_t *lead, *cycle;
} word;

/* The length of a letter's name without the blanks at its end. */
size_t name_length(const char *name);
/* Whether a name can stand in a word: it has no blank, comma or colon, does not begin with -, and is no number. */
int is_plain(const char *name, size_t length);
/* The letter with a name of this length, or -1; r may be NULL. */
int letter_named(const rule *r, const char *name, size_t length);
/* The letter that a text of this length writes, in a word: a number up to 255, or a name that can stand there; or -1. */
int letter_of(const rule *r, const char *text, size_t length);
/* The letter that a line of a log writes: also any other name, as it stands or in quotes as in the text of a rule. */
int letter_of_line(const rule *r, const char *line);
/* Tells once how the letters of a rule are written; r may be NULL. */
void tell_letters(const rule *r);
/* A letter is written by its name, if it has one that can stand in a word, else by its number. */
void print_letter(const rule *r, unsigned letter);
void print_letters(const rule *r, const uint8_t *letters, size_t length);
void print_word(const rule *r, word w);
/* Prints the masks of the places of a word, with commas and a colon as in the word, and ends the line. */
void print_masks(const uint8_t *masks, size_t lead_len, size_t places);
/* Reads a word, LEAD:CYCLE, letters with commas between them; where the text is none, that is told, after `where`, and 0 is answered. */
int read_word(const rule *r, const char *where, const char *text, word *w);
void free_word(word *w);
/* Tells the refusal of a word and its spot, after `where`; r may be NULL. Answers REFUSED. */
int word_refused(const rule *r, const char *where, const char *text, word w, uint64_t refusal);
/* A word of a command without a rule has names if --rule gives them. */
const rule *rule_of_names(void);

/* ---- spellings (spelling.c) */

/* Makes a word of any length its tidy spelling, in place: the shortest cycle, then the shortest lead-in. */
void tidy_spelling(word *w);

/* ---- tables (tables.c) */

extern uint64_t codes[MULGREDDI_MACROSTATES_MAX], transitions[MULGREDDI_TRANSITIONS_MAX];

/* Builds the table of a rule in codes and transitions, the trimmed one with --trimmed. */
mulgreddi_answer build_of(const rule *r);
/* Numbers as bytes, low byte first, which is how the library reads tables. */
uint8_t *low_first(const uint64_t *numbers, uint64_t count);

#endif
