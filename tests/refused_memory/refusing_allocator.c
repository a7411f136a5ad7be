/* Stands before the C library's allocator and refuses requests of a program, counted from its `main` on.

   REFUSE=N refuses request number N alone, REFUSE=N.. that one and all after it. Requests are calls of malloc, calloc,
   realloc and the aligned ones; giving memory back is no request. At the first refusal a byte is written to
   descriptor 3, so that whoever runs the program knows whether anything was refused. */
#define _GNU_SOURCE
#include <dlfcn.h>
#include <errno.h>
#include <stddef.h>
#include <stdlib.h>
#include <unistd.h>

/* The C library's own allocator, under the names that it keeps for callers like this. */
extern void *__libc_malloc(size_t size);
extern void *__libc_calloc(size_t count, size_t size);
extern void *__libc_realloc(void *old, size_t size);
extern void *__libc_memalign(size_t alignment, size_t size);

typedef int main_function(int, char **, char **);

static main_function *program_main;
static int is_counting;
static int refuses_on;
static unsigned long requests;
static unsigned long refused;

static int is_refused(void)
{
    if (!is_counting)
        return 0;
    requests++;
    if (refused == 0 || requests < refused || (requests > refused && !refuses_on))
        return 0;
    if (requests == refused && write(3, "R", 1) != 1)
        abort();
    errno = ENOMEM;
    return 1;
}

void *malloc(size_t size)
{
    return is_refused() ? NULL : __libc_malloc(size);
}

void *calloc(size_t count, size_t size)
{
    return is_refused() ? NULL : __libc_calloc(count, size);
}

void *realloc(void *old, size_t size)
{
    return is_refused() ? NULL : __libc_realloc(old, size);
}

void *aligned_alloc(size_t alignment, size_t size)
{
    return is_refused() ? NULL : __libc_memalign(alignment, size);
}

void *memalign(size_t alignment, size_t size)
{
    return is_refused() ? NULL : __libc_memalign(alignment, size);
}

int posix_memalign(void **memory, size_t alignment, size_t size)
{
    if (is_refused())
        return ENOMEM;
    *memory = __libc_memalign(alignment, size);
    return *memory == NULL ? ENOMEM : 0;
}

static int counted_main(int count, char **words, char **environment)
{
    const char *wanted = getenv("REFUSE");
    char *rest;
    if (wanted != NULL) {
        refused = strtoul(wanted, &rest, 10);
        refuses_on = *rest != '\0';
    }
    is_counting = 1;
    int status = program_main(count, words, environment);
    is_counting = 0;
    return status;
}

/* Called by the start of the program in place of the C library's. */
int __libc_start_main(main_function *own_main, int count, char **words, void (*begin)(void), void (*end)(void),
                      void (*unload)(void), void *stack_end)
{
    int (*start)(main_function *, int, char **, void (*)(void), void (*)(void), void (*)(void), void *)
        = dlsym(RTLD_NEXT, "__libc_start_main");
    program_main = own_main;
    return start(counted_main, count, words, begin, end, unload, stack_end);
}
