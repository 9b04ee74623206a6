/* Loaded before the C library (LD_PRELOAD), this has calls of rename and link fail, as a disk may at the worst moment. FAIL_RENAME=2-3 has the
 * second and the third call of rename fail, with EIO; FAIL_LINK=1-9 the first nine of link, with EPERM, as on disks whose files have one name. */
#define _GNU_SOURCE
#include <dlfcn.h>
#include <errno.h>
#include <stdio.h>
#include <stdlib.h>
#include <unistd.h>

typedef int call(const char *, const char *);

static int fails(const char *variable, int number)
{
    const char *range = getenv(variable);
    int first, last;
    return range && sscanf(range, "%d-%d", &first, &last) == 2 && first <= number && number <= last;
}

/* A pointer to a function is not one to data, which is what dlsym answers. */
static call *next(const char *name)
{
    union { void *data; call *code; } found;
    found.data = dlsym(RTLD_NEXT, name);
    return found.code;
}

int rename(const char *from, const char *to)
{
    static int calls;
    if (fails("FAIL_RENAME", ++calls)) {
        errno = EIO;
        return -1;
    }
    return next("rename")(from, to);
}

int link(const char *from, const char *to)
{
    static int calls;
    if (fails("FAIL_LINK", ++calls)) {
        errno = EPERM;
        return -1;
    }
    return next("link")(from, to);
}
