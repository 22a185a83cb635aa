/* Loaded before the C library, this gives a program its input, and takes its output, in pieces of at most PIECE
 * bytes; and every read after the first READS, every write to standard output after the first WRITES, fails. */
#define _GNU_SOURCE
#include <dlfcn.h>
#include <errno.h>
#include <stdlib.h>
#include <unistd.h>

/* A number of the environment, or one that no test reaches. */
static size_t asked(const char *name)
{
    const char *text = getenv(name);
    return text ? (size_t)strtoul(text, NULL, 10) : (size_t)1 << 40;
}

static size_t piece_of(size_t length)
{
    return length < asked("PIECE") ? length : asked("PIECE");
}

ssize_t read(int from, void *bytes, size_t length)
{
    static size_t reads;
    ssize_t (*next)(int, void *, size_t) = (ssize_t(*)(int, void *, size_t))dlsym(RTLD_NEXT, "read");
    if (reads++ < asked("READS"))
        return next(from, bytes, piece_of(length));
    errno = EIO;
    return -1;
}

ssize_t write(int to, const void *bytes, size_t length)
{
    static size_t writes;
    ssize_t (*next)(int, const void *, size_t) =
        (ssize_t(*)(int, const void *, size_t))dlsym(RTLD_NEXT, "write");
    if (to != STDOUT_FILENO || writes++ < asked("WRITES"))
        return next(to, bytes, piece_of(length));
    errno = EIO;
    return -1;
}
