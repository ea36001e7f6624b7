/* Lies under a program, between it and the C library, and refuses requests for memory as the program wants it.

   A request for REFUSE bytes and n more is refused, and so is, of the requests after it, the one with the number n, counting
   from 0. A request for TELL bytes or more ends that: it is granted where one was refused, and else refused. Every other
   request is the C library's. Nobody else grants requests of these sizes.

   In a program that doesn't want it the environment can: REFUSE_NUMBER is the number of the one request that is refused. Or
   another process can, while the program stands still: REFUSE_PAGE names a file that begins with a number, as the machine has it
   in memory, and both have it there. Where it is above 0 each request takes one off, and the one that makes it 0 is refused.

   tools/try-faults and tools/check-rounds compile it, and the loader puts it there: cc -shared -fPIC, and the path in LD_PRELOAD. */

#include <fcntl.h>
#include <stddef.h>
#include <stdlib.h>
#include <sys/mman.h>
#include <unistd.h>

#define REFUSE ((size_t)1 << 36)
#define TELL ((size_t)1 << 37)

extern void *__libc_malloc(size_t);
extern void *__libc_realloc(void *, size_t);

static int waiting;
static int was_refused;
static size_t left;
static int has_begun;
static volatile long *shared;

/* The number that another process may set. */
static void share(const char *name)
{
    int file = open(name, O_RDWR | O_CLOEXEC);
    void *found = file < 0 ? MAP_FAILED : mmap(NULL, sizeof *shared, PROT_READ | PROT_WRITE, MAP_SHARED, file, 0);
    if (found == MAP_FAILED)
        abort();
    close(file);
    shared = found;
}

/* The first request: what the environment wants. */
static void begin(void)
{
    const char *number = getenv("REFUSE_NUMBER"), *name = getenv("REFUSE_PAGE");
    has_begun = 1;
    if (name)
        share(name);
    if (number) {
        left = strtoul(number, NULL, 10);
        waiting = 1;
    }
}

/* Whether the request is refused. */
static int refuses(size_t size)
{
    if (!has_begun)
        begin();
    if (shared && *shared > 0 && --*shared == 0)
        return 1;
    if (size >= TELL) {
        int told = was_refused;
        waiting = was_refused = 0;
        return !told;
    }
    if (size >= REFUSE) {
        left = size - REFUSE;
        waiting = 1;
        was_refused = 0;
        return 1;
    }
    if (!waiting || left-- > 0)
        return 0;
    waiting = 0;
    was_refused = 1;
    return 1;
}

void *malloc(size_t size)
{
    if (refuses(size))
        return NULL;
    return __libc_malloc(size >= TELL ? 1 : size);
}

void *realloc(void *old, size_t size)
{
    return refuses(size) ? NULL : __libc_realloc(old, size);
}
