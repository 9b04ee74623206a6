/* Messages on standard error, and how long long work has been going on. */
#define _XOPEN_SOURCE 700
#include "tool.h"

#include <errno.h>
#include <signal.h>
#include <stdarg.h>
#include <stdlib.h>
#include <string.h>
#include <sys/time.h>
#include <unistd.h>

/* Characters that are not seen, end a line or turn the direction of what follows: a name with one is read as another. */
static int is_seen(unsigned code)
{
    static const unsigned unseen[][2] = {{0, 0x1f}, {0x7f, 0x9f}, {0x61c, 0x61c}, {0x200b, 0x200f}, {0x2028, 0x202e}, {0x2060, 0x206f},
                                         {0xfeff, 0xfeff}, {0xfff9, 0xfffb}, {0xe0000, 0xe007f}};
    for (size_t i = 0; i < sizeof unseen / sizeof *unseen; i++)
        if (unseen[i][0] <= code && code <= unseen[i][1])
            return 0;
    return 1;
}

/* How many bytes the character of a UTF-8 text takes that begins here; 0 where it is none, or not seen. */
static int character(const unsigned char *at)
{
    static const unsigned least[] = {0, 0, 0x80, 0x800, 0x10000}; /* what so many bytes are needed for */
    int length = at[0] < 0x80 ? 1 : at[0] >= 0xc0 && at[0] < 0xe0 ? 2 : at[0] >= 0xe0 && at[0] < 0xf0 ? 3 : at[0] >= 0xf0 && at[0] < 0xf8 ? 4 : 0;
    unsigned code = length > 1 ? at[0] & (0x7fu >> length) : at[0];
    for (int i = 1; i < length; i++) {
        if ((at[i] & 0xc0) != 0x80)
            return 0;
        code = code << 6 | (at[i] & 0x3f);
    }
    if (length == 0 || code < least[length] || code > 0x10ffff || (code >= 0xd800 && code <= 0xdfff) || !is_seen(code))
        return 0;
    return length;
}

void print_text(FILE *to, const char *text)
{
    for (const unsigned char *at = (const unsigned char *)text; *at;) {
        int length = character(at);
        if (length == 0)
            fprintf(to, "\\x%02x", *at++);
        for (; length > 0; length--)
            fputc(*at++, to);
    }
}

const char *brief(const char *text, size_t most)
{
    enum { TEXTS = 4, SIZE = PLACE_SHOWN + 100 };
    static char ring[TEXTS][SIZE];
    static int next;
    size_t length = strlen(text);
    if (length <= most)
        return text;
    char *out = ring[next++ % TEXTS];
    snprintf(out, SIZE, "%.*s.. (%zu bytes)", (int)(most < SIZE - 50 ? most : SIZE - 50), text, length);
    return out;
}

/* A message is at most so long: texts of the user's come shortened. */
enum { MESSAGE = 4096 };

static void print_message(const char *format, va_list list)
{
    char message[MESSAGE];
    vsnprintf(message, sizeof message, format, list);
    print_text(stderr, message);
}

void say(const char *format, ...)
{
    va_list list;
    fflush(stdout);
    fputs("mulgreddi: ", stderr);
    va_start(list, format);
    print_message(format, list);
    va_end(list);
    fputc('\n', stderr);
}

_Noreturn void usage(const char *format, ...)
{
    va_list list;
    fflush(stdout);
    fprintf(stderr, "mulgreddi %s: ", running->name);
    va_start(list, format);
    print_message(format, list);
    va_end(list);
    fprintf(stderr, "\nusage: mulgreddi %s %s\n", running->name, running->operands);
    exit(FAULT);
}

_Noreturn void cannot(const char *path)
{
    say("%s: %s", brief(path, PATH_SHOWN), strerror(errno));
    exit(FAULT);
}

int worse(int status, int other)
{
    return other > status ? other : status;
}

static void tell_unwritten(void)
{
    say("standard output: %s", errno ? strerror(errno) : "not all of it could be written");
}

void answered(void)
{
    errno = 0;
    if (ferror(stdout) || fflush(stdout) != 0) {
        tell_unwritten();
        exit(FAULT);
    }
}

int finish(int status)
{
    errno = 0;
    if (ferror(stdout) || fflush(stdout) != 0 || close(STDOUT_FILENO) != 0) {
        tell_unwritten();
        return FAULT;
    }
    return status;
}

/* Long work tells on a terminal's standard error how long it has been going on. */
static const char *work;
static volatile sig_atomic_t seconds;

static void tick(int signal)
{
    char line[64], digits[12];
    size_t length = 0, left = sizeof digits;
    (void)signal;
    seconds++;
    for (int n = seconds; n > 0; n /= 10)
        digits[--left] = (char)('0' + n % 10);
    line[length++] = '\r';
    for (const char *c = work; *c && length < 40; c++)
        line[length++] = *c;
    line[length++] = ' ';
    while (left < sizeof digits)
        line[length++] = digits[left++];
    line[length++] = ' ';
    line[length++] = 's';
    if (write(STDERR_FILENO, line, length) < 0)
        return;
}

void begin_work(const char *what)
{
    struct sigaction action;
    const struct itimerval every = {{1, 0}, {1, 0}};
    if (!isatty(STDERR_FILENO))
        return;
    work = what;
    seconds = 0;
    memset(&action, 0, sizeof action);
    action.sa_handler = tick;
    action.sa_flags = SA_RESTART;
    sigaction(SIGALRM, &action, NULL);
    setitimer(ITIMER_REAL, &every, NULL);
}

void end_work(void)
{
    const struct itimerval never = {{0, 0}, {0, 0}};
    if (!isatty(STDERR_FILENO))
        return;
    setitimer(ITIMER_REAL, &never, NULL);
    if (seconds > 0) {
        fputs("\r\033[K", stderr);
        fflush(stderr);
    }
}
