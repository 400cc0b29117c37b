/* Loaded before a program (LD_PRELOAD): a call of malloc or realloc finds no memory.

   SCARCE_AT=N      the Nth call finds none, counted from 1 over both; 0: none
   SCARCE_ON=1      no later call finds any either
   SCARCE_COUNT=F   the file F, of at least 8 bytes, holds the number of calls so far

   Calls are counted from the moment the program's own code begins. */
#define _GNU_SOURCE
#include <dlfcn.h>
#include <errno.h>
#include <fcntl.h>
#include <stdlib.h>
#include <sys/mman.h>

static void *(*libc_malloc)(size_t);
static void *(*libc_realloc)(void *, size_t);
static unsigned long own_count, at;
static unsigned long *count = &own_count;
static int stays, has_begun;

static void find(void)
{
    libc_malloc = (void *(*)(size_t))dlsym(RTLD_NEXT, "malloc");
    libc_realloc = (void *(*)(void *, size_t))dlsym(RTLD_NEXT, "realloc");
}

__attribute__((constructor)) static void begin(void)
{
    const char *said_at = getenv("SCARCE_AT"), *said_on = getenv("SCARCE_ON"), *file = getenv("SCARCE_COUNT");
    at = said_at ? strtoul(said_at, 0, 10) : 0;
    stays = said_on && *said_on == '1';
    if (file) {
        int handle = open(file, O_RDWR);
        void *found = mmap(0, sizeof *count, PROT_READ | PROT_WRITE, MAP_SHARED, handle, 0);
        if (handle < 0 || found == MAP_FAILED)
            abort();
        count = found;
    }
    if (!libc_malloc)
        find();
    has_begun = 1;
}

static int finds_none(void)
{
    unsigned long call;
    if (!has_begun)
        return 0;
    call = __atomic_add_fetch(count, 1, __ATOMIC_SEQ_CST);
    if (at == 0 || call < at || (call > at && !stays))
        return 0;
    errno = ENOMEM;
    return 1;
}

void *malloc(size_t size)
{
    if (!libc_malloc)
        find();
    return finds_none() ? 0 : libc_malloc(size);
}

void *realloc(void *old, size_t size)
{
    if (!libc_realloc)
        find();
    return finds_none() ? 0 : libc_realloc(old, size);
}
