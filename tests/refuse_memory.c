/* Refuses a program's requests for memory, for tests/memory.py: loaded before the C library (LD_PRELOAD).

   REFUSE     the number of the first request that is refused, from 1; 0: none
   REFUSE_ALL 1: each one after it too
   FIRST      the size of the request after which requests are counted; 0: from the start on
   LAST       the size of the one up to which they are
   COUNTED    a file of eight octets, in which the number of requests so far stands */
#include <errno.h>
#include <fcntl.h>
#include <stdlib.h>
#include <sys/mman.h>
#include <unistd.h>

void *__libc_malloc(size_t);
void *__libc_calloc(size_t, size_t);
void *__libc_realloc(void *, size_t);
void *__libc_memalign(size_t, size_t);

static unsigned long refuse, refuse_all, first, last, *counted;
static enum { BEFORE, BETWEEN, AFTER } place;

static unsigned long number(const char *name)
{
    const char *text = getenv(name);
    return text ? strtoul(text, NULL, 10) : 0;
}

__attribute__((constructor)) static void begin(void)
{
    const char *path = getenv("COUNTED");
    int file = path ? open(path, O_RDWR) : -1;
    refuse = number("REFUSE");
    refuse_all = number("REFUSE_ALL");
    first = number("FIRST");
    last = number("LAST");
    place = first ? BEFORE : BETWEEN;
    if (file >= 0) {
        void *shared = mmap(NULL, sizeof *counted, PROT_READ | PROT_WRITE, MAP_SHARED, file, 0);
        close(file);
        counted = shared == MAP_FAILED ? NULL : shared;
    }
}

static int is_refused(size_t size)
{
    if (!counted)
        return 0;
    if (place == BEFORE && size == first) {
        place = BETWEEN;
        return 0;
    }
    if (place == BETWEEN && first && size == last)
        place = AFTER;
    if (place != BETWEEN)
        return 0;
    ++*counted;
    if (!refuse || !(*counted == refuse || (refuse_all && *counted > refuse)))
        return 0;
    errno = ENOMEM;
    return 1;
}

void *malloc(size_t size)
{
    return is_refused(size) ? NULL : __libc_malloc(size);
}

void *calloc(size_t count, size_t size)
{
    return is_refused(count * size) ? NULL : __libc_calloc(count, size);
}

void *realloc(void *old, size_t size)
{
    return is_refused(size) ? NULL : __libc_realloc(old, size);
}

void *memalign(size_t boundary, size_t size)
{
    return is_refused(size) ? NULL : __libc_memalign(boundary, size);
}

void *aligned_alloc(size_t boundary, size_t size)
{
    return memalign(boundary, size);
}

int posix_memalign(void **place, size_t boundary, size_t size)
{
    void *found = memalign(boundary, size);
    if (!found)
        return ENOMEM;
    *place = found;
    return 0;
}
