/* Stands before the C library's read and write: each call moves at most seven bytes. Where
 * LAWCHECK_CALL is "read" or "write", that call on standard input or output meets what LAWCHECK_HOW
 * says:
 *
 *   fails        the tenth call fails
 *   interrupted  a signal interrupts three calls of four, the first too
 *   stuck        a signal interrupts every call from the tenth on
 *   nothing      the tenth call moves no byte, and errno is an older call's
 */
#define _GNU_SOURCE
#include <errno.h>
#include <stdlib.h>
#include <string.h>
#include <sys/syscall.h>
#include <unistd.h>

enum meets { MOVES, FAILS, INTERRUPTED, NOTHING };

static enum meets meets(const char *name, int call)
{
    const char *which = getenv("LAWCHECK_CALL");
    const char *how = getenv("LAWCHECK_HOW");
    if (which == NULL || how == NULL || strcmp(which, name) != 0)
        return MOVES;
    if (strcmp(how, "fails") == 0)
        return call == 10 ? FAILS : MOVES;
    if (strcmp(how, "interrupted") == 0)
        return call % 4 != 0 ? INTERRUPTED : MOVES;
    if (strcmp(how, "stuck") == 0)
        return call >= 10 ? INTERRUPTED : MOVES;
    if (strcmp(how, "nothing") == 0)
        return call == 10 ? NOTHING : MOVES;
    abort();
}

static ssize_t part(long number, enum meets what, int file, const void *bytes, size_t count)
{
    if (what == MOVES)
        return syscall(number, file, bytes, count < 7 ? count : 7);
    errno = what == INTERRUPTED ? EINTR : EIO;
    return what == NOTHING ? 0 : -1;
}

ssize_t read(int file, void *bytes, size_t count)
{
    static int calls;
    return part(SYS_read, file == 0 ? meets("read", ++calls) : MOVES, file, bytes, count);
}

ssize_t write(int file, const void *bytes, size_t count)
{
    static int calls;
    return part(SYS_write, file == 1 ? meets("write", ++calls) : MOVES, file, bytes, count);
}
