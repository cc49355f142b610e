/* Refuses calls on files: a library for LD_PRELOAD, which tools/crash_test.py builds. Of the calls of pread, pwrite, fsync
   and fdatasync, counted from 1 over the whole process, those from IO_FROM to IO_TO fail: with IO_HOW=fault by EIO, with
   IO_HOW=full by ENOSPC where they write; with IO_HOW=short they read or write a byte and no more; with IO_HOW=signal they
   are interrupted before they begin, once each. A byte is written to the descriptor IO_TELL for each. */
#define _GNU_SOURCE
#include <dlfcn.h>
#include <errno.h>
#include <stdatomic.h>
#include <stdlib.h>
#include <string.h>
#include <unistd.h>

enum how { FAULT, FULL, SHORT, SIGNAL };
enum kind { READS, WRITES, SYNCS };
enum outcome { GOES_ON, IS_SHORT, FAILS };

static atomic_ulong calls;
static unsigned long from, to;
static enum how how;
static int tell = -1;

__attribute__((constructor)) static void begin(void)
{
    const char *words[] = { getenv("IO_FROM"), getenv("IO_TO"), getenv("IO_TELL"), getenv("IO_HOW") };
    from = words[0] ? strtoul(words[0], NULL, 10) : 0;
    to = words[1] ? strtoul(words[1], NULL, 10) : 0;
    tell = words[2] ? atoi(words[2]) : -1;
    if (words[3] && !strcmp(words[3], "full"))
        how = FULL;
    else if (words[3] && !strcmp(words[3], "short"))
        how = SHORT;
    else if (words[3] && !strcmp(words[3], "signal"))
        how = SIGNAL;
}

static enum outcome outcome_of(enum kind kind)
{
    unsigned long call = atomic_fetch_add(&calls, 1) + 1;
    if (call < from || call > to)
        return GOES_ON;
    if (tell >= 0 && write(tell, "r", 1) < 0)
        abort();
    switch (how) {
    case SHORT:
        return kind == SYNCS ? GOES_ON : IS_SHORT;
    case SIGNAL:
        errno = EINTR;
        return FAILS;
    case FULL:
        errno = ENOSPC;
        return kind == READS ? GOES_ON : FAILS;
    default:
        errno = EIO;
        return FAILS;
    }
}

#define NEXT(type, name) ((type)dlsym(RTLD_NEXT, name))

ssize_t pread(int file, void *into, size_t size, off_t place)
{
    ssize_t (*next)(int, void *, size_t, off_t) = NEXT(ssize_t (*)(int, void *, size_t, off_t), "pread");
    enum outcome it = outcome_of(READS);
    return it == FAILS ? -1 : next(file, into, it == IS_SHORT && size > 1 ? 1 : size, place);
}

ssize_t pwrite(int file, const void *bytes, size_t size, off_t place)
{
    ssize_t (*next)(int, const void *, size_t, off_t) = NEXT(ssize_t (*)(int, const void *, size_t, off_t), "pwrite");
    enum outcome it = outcome_of(WRITES);
    return it == FAILS ? -1 : next(file, bytes, it == IS_SHORT && size > 1 ? 1 : size, place);
}

ssize_t pread64(int file, void *into, size_t size, off_t place)
{
    return pread(file, into, size, place);
}

ssize_t pwrite64(int file, const void *bytes, size_t size, off_t place)
{
    return pwrite(file, bytes, size, place);
}

int fsync(int file)
{
    int (*next)(int) = NEXT(int (*)(int), "fsync");
    return outcome_of(SYNCS) == FAILS ? -1 : next(file);
}

int fdatasync(int file)
{
    int (*next)(int) = NEXT(int (*)(int), "fdatasync");
    return outcome_of(SYNCS) == FAILS ? -1 : next(file);
}
