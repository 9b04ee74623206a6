/* Files written: each whole to a new file beside its target, which takes the target's name only when nothing can fail any more, so that a
 * full disk leaves what was there. Of two files both get their names or neither; a signal that ends the program leaves nothing beside them. */
#define _XOPEN_SOURCE 700
#include "tool.h"

#include <errno.h>
#include <fcntl.h>
#include <limits.h>
#include <signal.h>
#include <stdlib.h>
#include <string.h>
#include <sys/stat.h>
#include <unistd.h>

/* The length of the folder's part of a path, with its slash. */
static size_t folder_length(const char *path)
{
    const char *slash = strrchr(path, '/');
    return slash ? (size_t)(slash + 1 - path) : 0;
}

static int stat_folder(const char *path, struct stat *status)
{
    size_t length = folder_length(path);
    char *folder = room(length + 2);
    memcpy(folder, path, length);
    folder[length] = '.';
    int there = stat(folder, status) == 0;
    free(folder);
    return there;
}

/* ---- where a path leads */

/* Whether a link stands in /proc: it is no name of a file, but a file that a program has open, as /dev/stdout leads to. */
static int leads_to_open(const char *link)
{
    size_t length = folder_length(link);
    char *folder = room(length + 2);
    memcpy(folder, link, length);
    folder[length] = '.';
    char *whole = realpath(folder, NULL);
    int open_file = whole && strncmp(whole, "/proc/", 6) == 0;
    free(whole);
    free(folder);
    return open_file;
}

/* The path that is left when all links at the end of a path are followed, also to where nothing is yet; where one leads to an open file, that
 * link. NULL, with errno, where it cannot be told. */
static char *follow_links(const char *path)
{
    enum { LINKS = 40 };
    char *at = strcpy(room(strlen(path) + 1), path), to[PATH_MAX];
    for (int links = 0; links < LINKS; links++) {
        ssize_t length = readlink(at, to, sizeof to);
        if (length < 0 && (errno == EINVAL || errno == ENOENT))
            return at;
        if (length < 0 || length == (ssize_t)sizeof to)
            return NULL;
        if (leads_to_open(at))
            return at;
        size_t folder = to[0] == '/' ? 0 : folder_length(at);
        char *next = room(folder + (size_t)length + 1);
        memcpy(next, at, folder);
        memcpy(next + folder, to, (size_t)length);
        free(at);
        at = next;
    }
    errno = ELOOP;
    return NULL;
}

static int same_inode(const struct stat *x, const struct stat *y)
{
    return x->st_dev == y->st_dev && x->st_ino == y->st_ino;
}

/* What a path names: the file that is there or, where there is none, the folder and the name in it. */
static int same_file(const char *a, const char *b)
{
    struct stat x, y;
    int there = stat(a, &x) == 0;
    if (there != (stat(b, &y) == 0))
        return 0;
    if (there)
        return same_inode(&x, &y);
    char *to_a = follow_links(a), *to_b = follow_links(b);
    return to_a && to_b && strcmp(to_a + folder_length(to_a), to_b + folder_length(to_b)) == 0 && stat_folder(to_a, &x) && stat_folder(to_b, &y)
           && same_inode(&x, &y);
}

void distinct(const char *a, const char *b)
{
    if (a && b && !is_standard(a) && !is_standard(b) && same_file(a, b))
        usage("%s and %s are the same file", brief(a, PATH_SHOWN), brief(b, PATH_SHOWN));
}

/* What the program was given to read, or to add to, is not replaced. */
static void apart_from_standard(const char *path, const struct stat *there)
{
    static const char *const names[] = {"standard input", "standard output", "standard error"};
    struct stat status;
    for (int fd = 0; fd <= 2; fd++)
        if (fstat(fd, &status) == 0 && same_inode(&status, there))
            usage("%s and %s are the same file", names[fd], brief(path, PATH_SHOWN));
}

/* ---- files beside their targets */

/* Files that are whole and wait for their names; kept is what stood there, under a name of its own, until all have theirs. */
enum { WRITTEN = 4 };
static struct {
    char *path, *target, *kept;
    const char *name; /* the target as it was given */
} written[WRITTEN];
static volatile sig_atomic_t written_count;

static void remove_written(void)
{
    for (; written_count > 0; written_count--)
        unlink(written[written_count - 1].path);
}

/* The signals that end a program. */
static const int endings[] = {SIGHUP, SIGINT, SIGQUIT, SIGPIPE, SIGTERM, SIGXCPU};
enum { ENDINGS = sizeof endings / sizeof *endings };

/* Takes away what waits; then the signal, which is the default one again, ends the program. */
static void end_by(int signal)
{
    for (int i = 0; i < written_count; i++)
        unlink(written[i].path);
    raise(signal);
}

/* From here on the signals are caught, but for those that the caller has had ignored. */
static void catch_endings(void)
{
    struct sigaction action, old;
    memset(&action, 0, sizeof action);
    action.sa_handler = end_by;
    action.sa_flags = SA_RESETHAND;
    sigfillset(&action.sa_mask);
    for (int i = 0; i < ENDINGS; i++)
        if (sigaction(endings[i], NULL, &old) == 0 && old.sa_handler == SIG_DFL)
            sigaction(endings[i], &action, NULL);
}

/* Holds the signals back while the list of files and the files differ; then those that the caller lets come come again. */
static void hold_endings(int hold)
{
    static sigset_t before;
    sigset_t set;
    if (!hold) {
        sigprocmask(SIG_SETMASK, &before, NULL);
        return;
    }
    sigemptyset(&set);
    for (int i = 0; i < ENDINGS; i++)
        sigaddset(&set, endings[i]);
    sigprocmask(SIG_BLOCK, &set, &before);
}

/* Writes all bytes and closes the file; answers 0, with errno, where it cannot. */
static int write_and_close(int fd, const void *at, size_t len)
{
    const char *from = at;
    int wrong = 0;
    while (len > 0 && !wrong) {
        ssize_t put = write(fd, from, len);
        if (put < 0)
            wrong = errno == EINTR ? 0 : errno;
        else {
            from += put;
            len -= (size_t)put;
        }
    }
    /* a disk may tell late that it is full; a device or a pipe has nothing to be told */
    if (!wrong && fsync(fd) != 0 && errno != EINVAL && errno != ENOSYS)
        wrong = errno;
    if (close(fd) != 0 && !wrong)
        wrong = errno;
    errno = wrong;
    return !wrong;
}

/* Gives a new file the owner, the group and the rights of the one that it takes the place of, as far as it may. What another group was
 * allowed is left to a group only where all are allowed it. Answers 0, with errno, where it cannot. */
static int take_over(int fd, const struct stat *there)
{
    mode_t mode = there->st_mode & 07777;
    if (fchown(fd, there->st_uid, there->st_gid) != 0) {
        if (errno != EPERM && errno != EINVAL)
            return 0;
        mode &= ~(mode_t)S_ISUID;
        if (fchown(fd, (uid_t)-1, there->st_gid) != 0)
            mode &= ~(mode_t)(S_ISGID | S_IRWXG) | (mode & S_IRWXO) << 3;
    }
    return fchmod(fd, mode) == 0;
}

/* A new file in the folder of the target, with the target's rights and owner where it is there; answers its descriptor, or -1 with errno. */
static int open_beside(const char *name, char *target, const struct stat *there)
{
    static const char unique[] = ".mulgreddi-XXXXXX";
    size_t folder = folder_length(target);
    char *path = room(folder + sizeof unique);
    memcpy(path, target, folder);
    memcpy(path + folder, unique, sizeof unique);
    if (written_count == 0) {
        atexit(remove_written);
        catch_endings();
    }
    hold_endings(1);
    errno = EMFILE;
    int fd = written_count < WRITTEN ? mkstemp(path) : -1;
    if (fd >= 0) {
        written[written_count].path = path;
        written[written_count].target = target;
        written[written_count].kept = NULL;
        written[written_count++].name = name;
    }
    hold_endings(0);
    if (fd < 0)
        return -1;
    mode_t mask = umask(0);
    umask(mask);
    if (there ? !take_over(fd, there) : fchmod(fd, 0666 & ~mask) != 0)
        return -1;
    return fd;
}

/* Opens what path leads to, to be written; answers -1, with errno, where it cannot. */
static int open_to_write(const char *path)
{
    struct stat status, *there = &status;
    char *target;
    if (stat(path, there) != 0) {
        if (errno != ENOENT)
            return -1;
        there = NULL;
    }
    if (there && !S_ISREG(there->st_mode)) /* a device or a pipe: it has nothing to keep, and no file takes its place */
        return open(path, O_WRONLY | O_NOCTTY);
    if (there)
        apart_from_standard(path, there);
    if ((there && access(path, W_OK) != 0) || !(target = follow_links(path)))
        return -1;
    if (there && lstat(target, &status) == 0 && S_ISLNK(status.st_mode)) {
        say("%s leads to a file that is open; name the file itself", brief(path, PATH_SHOWN));
        exit(FAULT);
    }
    return open_beside(path, target, there);
}

void write_beside(const char *path, const void *at, size_t len)
{
    if (!path || is_standard(path)) {
        if (fwrite(at, 1, len, stdout) != len || fflush(stdout) != 0)
            cannot("standard output");
        return;
    }
    int fd = open_to_write(path);
    if (fd < 0 || !write_and_close(fd, at, len))
        cannot(path);
}

/* ---- their names */

/* Keeps what has the name of file number i under another one; answers 0, with errno, where it cannot. */
static int keep_old(int i)
{
    static const char end[] = ".old";
    size_t length = strlen(written[i].path);
    char *kept = room(length + sizeof end);
    memcpy(kept, written[i].path, length);
    memcpy(kept + length, end, sizeof end);
    /* a second name or, where files have one alone, another; nothing is kept where nothing is */
    if (link(written[i].target, kept) == 0 || (errno != ENOENT && rename(written[i].target, kept) == 0))
        written[i].kept = kept;
    return written[i].kept || errno == ENOENT;
}

/* Gives its name back to what had it before file number i took it; a name that nothing had is free again. */
static void put_back(int i, int taken)
{
    const char *kept = written[i].kept, *target = written[i].target;
    if (!kept && taken)
        unlink(target);
    if (!kept)
        return;
    if (rename(kept, target) != 0 && !(unlink(target) == 0 && link(kept, target) == 0)) {
        say("%s: what was there is now %s", brief(written[i].name, PATH_SHOWN), brief(kept, PATH_SHOWN));
        return;
    }
    unlink(kept); /* two names of one file stay two when one is renamed to the other */
}

void rename_written(void)
{
    int count = written_count, done = 0;
    hold_endings(1);
    /* the last one needs no way back */
    while (done < count && (done == count - 1 || keep_old(done)) && rename(written[done].path, written[done].target) == 0)
        done++;
    if (done < count) {
        int wrong = errno;
        for (int i = done; i >= 0; i--)
            put_back(i, i < done);
        errno = wrong;
        cannot(written[done].name);
    }
    for (int i = 0; i < count; i++)
        if (written[i].kept)
            unlink(written[i].kept);
    written_count = 0;
    hold_endings(0);
}

void save(const char *path, const void *at, size_t len)
{
    write_beside(path, at, len);
    rename_written();
}
