/* mulgreddi: the library's calls on the command line. `mulgreddi --help` tells how it is used.
 *
 * It reads files and words, calls the library and prints what is answered; what is right or wrong with a rule, a word or a table is said
 * by the library alone. Exit status: 0 served and yes, 1 no or different, 2 refused, 3 wrong usage or a file that cannot be read or written. */
#define _XOPEN_SOURCE 700
#include "tool.h"

#include <errno.h>
#include <fcntl.h>
#include <signal.h>
#include <stdlib.h>
#include <string.h>

/* The commands, in the order of --help. */
static const command *const commands[] = {
    &command_check,
    &command_show,
    &command_write,
    &command_list,
    &command_hoa,
    &command_read_hoa,
    &command_judge,
    &command_build,
    &command_sheet,
    &command_tidy,
    &command_loop,
    &command_and,
    &command_or,
    &command_not,
    &command_same,
    &command_equal,
    &command_stricter,
    &command_same_word,
    &command_tidy_word,
    &command_show_events,
    &command_write_events,
    &command_translate,
    &command_follow,
};

enum { COMMANDS = sizeof commands / sizeof *commands };

const command *running;

/* Options are the words of the command line that begin with --. */
enum { OPTIONS = 8 };
static struct { const char *name, *value; } given[OPTIONS];

const char *option(const char *name)
{
    for (int i = 0; i < OPTIONS && given[i].name; i++)
        if (strcmp(given[i].name, name) == 0)
            return given[i].value;
    return NULL;
}

static void help(FILE *to)
{
    fputs("usage: mulgreddi COMMAND [OPTION..] OPERAND..\n", to);
    for (int i = 0; i < COMMANDS; i++)
        fprintf(to, "  %-12s %s\n", commands[i]->name, commands[i]->operands);
    fputs("A FILE is a rule file or the text of a rule, whose first word is `letters`; - is standard input and, as --out,\n"
          "standard output. EVENTS is an event table or its text. A WORD is LEAD:CYCLE, a lead-in that may be empty and a cycle\n"
          "that repeats for ever, letters with commas between them: 0,1:0 or :0,1. Where the rule has names, a letter is\n"
          "written by its name without the blanks at its end (its number will do, too), or by its number if the name has a\n"
          "blank, comma or colon in it, begins with - or is a number.\n"
          "Limits: a rule has up to 8 states, 16 letters and 8 clauses for each state and letter; a word a lead-in of up to 32\n"
          "letters and a cycle of up to 32; a sheet 64 words; an event table 64 lines; a live log 512 letters and 16 marks; a\n"
          "table 65,536 macrostates and 1,048,576 transitions. Of a file 67,108,864 bytes are read, of a line 65,536.\n"
          "Exit status: 0 served and yes, 1 no or different, 2 refused, 3 wrong usage or a file that cannot be read or written;\n"
          "of several files or words the highest.\n"
          "`mulgreddi help COMMAND` tells more, `mulgreddi --version` the version.\n", to);
}

static void help_running(void)
{
    printf("usage: mulgreddi %s %s\n%s", running->name, running->operands, running->help);
}

/* The option of the running command that has this name, as it stands in the command's list, or NULL. */
static const char *known_option(const char *name, size_t length)
{
    for (const char *known = running->options; *known; known += strspn(known, " ")) {
        if (strcspn(known, " =") == length && strncmp(known, name, length) == 0)
            return known;
        known += strcspn(known, " ");
    }
    return NULL;
}

/* Takes an option of the command line; next is the word after it, or NULL. */
static void take_option(char *text, const char *next)
{
    static int taken;
    size_t length = strcspn(text, "=");
    const char *known = text[1] == '-' ? known_option(text + 2, length - 2) : NULL, *shown = brief(text, WORD_SHOWN);
    if (!known)
        usage("%s: no such option", shown);
    int valued = known[length - 2] == '=';
    if (valued && text[length] == '=' && text[length + 1] == 0)
        usage("%s takes a value right behind the =, without a blank: write %sVALUE", shown, shown);
    if (valued && text[length] == 0)
        usage("%s takes a value: write %.*s=%s", shown, (int)length, text, next && next[0] != '-' ? brief(next, WORD_SHOWN) : "VALUE");
    if (!valued && text[length] == '=')
        usage("%s: the option takes no value", shown);
    text[length] = 0;
    if (option(text + 2))
        usage("%s is given twice", text);
    if (taken == OPTIONS)
        usage("%s: an option too many", text);
    given[taken].value = valued ? text + length + 1 : "";
    given[taken++].name = text + 2;
}

/* Takes the options out of the words that follow the command; what is left are its operands, whose number is answered. */
static int take_options(int count, char **words)
{
    int left = 0, over = 0;
    for (int i = 0; i < count; i++) {
        char *text = words[i];
        if (over || text[0] != '-' || text[1] == 0)
            words[left++] = text;
        else if (strcmp(text, "--") == 0)
            over = 1;
        else if (strcmp(text, "--help") == 0 || strcmp(text, "-h") == 0) {
            help_running();
            exit(finish(YES));
        } else
            take_option(text, i + 1 < count ? words[i + 1] : NULL);
    }
    return left;
}

/* A standard descriptor that is closed is opened so that its use fails: else the first file that is opened would be taken for it. */
static void open_standard(void)
{
    for (int fd = 0; fd <= 2; fd++)
        if (fcntl(fd, F_GETFD) == -1 && errno == EBADF && open("/dev/null", fd == 0 ? O_WRONLY : O_RDONLY) != fd)
            exit(FAULT);
}

static int is_one_of(const char *text, const char *a, const char *b, const char *c)
{
    return strcmp(text, a) == 0 || strcmp(text, b) == 0 || strcmp(text, c) == 0;
}

static const command *command_named(const char *name)
{
    for (int i = 0; i < COMMANDS; i++)
        if (strcmp(commands[i]->name, name) == 0)
            return commands[i];
    say("no command %s; `mulgreddi --help` lists them", brief(name, WORD_SHOWN));
    exit(FAULT);
}

int main(int argc, char **argv)
{
    open_standard();
    /* a message is one write, whole beside those of other programs */
    setvbuf(stderr, NULL, _IOLBF, 0);
    /* a file that grows over the limit of its size is one that cannot be written */
    signal(SIGXFSZ, SIG_IGN);
    if (!mulgreddi_version_serves(mulgreddi_version())) {
        say("the library is version %u, too old or too new for this program, which is %s", (unsigned)mulgreddi_version(), MULGREDDI_VERSION);
        return FAULT;
    }
    if (argc < 2) {
        help(stderr);
        return FAULT;
    }
    if (is_one_of(argv[1], "help", "--help", "-h")) {
        if (argc > 2) {
            running = command_named(argv[2]);
            help_running();
        } else
            help(stdout);
        return finish(YES);
    }
    if (is_one_of(argv[1], "version", "--version", "-V")) {
        printf("mulgreddi %s\n", MULGREDDI_VERSION);
        return finish(YES);
    }
    running = command_named(argv[1]);
    int count = take_options(argc - 2, argv + 2);
    if (count < running->least)
        usage("an operand is missing");
    if (count > running->most)
        usage("%s: an operand too many", brief(argv[2 + running->most], PATH_SHOWN));
    return finish(running->run(count, argv + 2));
}
