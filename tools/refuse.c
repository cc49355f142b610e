/* Refuses allocations: a library for LD_PRELOAD, which tools/faults.py builds. Of the calls of malloc, calloc and
   realloc, counted from 1 over the whole process, those from REFUSE_FROM to REFUSE_TO are answered NULL, and a byte is
   written to the descriptor REFUSE_TELL for each. It stands on the entries of glibc below these names. */
#include <errno.h>
#include <stdatomic.h>
#include <stddef.h>
#include <stdlib.h>
#include <unistd.h>

void *__libc_malloc(size_t size);
void *__libc_calloc(size_t count, size_t size);
void *__libc_realloc(void *old, size_t size);

static atomic_ulong calls;
static unsigned long from, to;
static int tell;

__attribute__((constructor)) static void begin(void)
{
    const char *words[] = { getenv("REFUSE_FROM"), getenv("REFUSE_TO"), getenv("REFUSE_TELL") };
    from = words[0] ? strtoul(words[0], NULL, 10) : 0;
    to = words[1] ? strtoul(words[1], NULL, 10) : 0;
    tell = words[2] ? atoi(words[2]) : -1;
    /* what the loader took before this is not counted */
    atomic_store(&calls, 0);
}

static int is_refused(void)
{
    unsigned long call = atomic_fetch_add(&calls, 1) + 1;
    if (call < from || call > to)
        return 0;
    if (tell >= 0 && write(tell, "r", 1) < 0)
        abort();
    errno = ENOMEM;
    return 1;
}

void *malloc(size_t size)
{
    return is_refused() ? NULL : __libc_malloc(size);
}

void *calloc(size_t count, size_t size)
{
    return is_refused() ? NULL : __libc_calloc(count, size);
}

void *realloc(void *old, size_t size)
{
    return is_refused() ? NULL : __libc_realloc(old, size);
}
