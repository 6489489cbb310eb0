/* Stands before the C library's malloc and realloc, and refuses the call whose number (from 1) is in REFUSE, and where
   AFTER is set all calls behind it too. Where REFUSE is 0, it refuses none. It says on the file COUNTED how many calls
   there were. Zero bytes are never refused. */
#define _GNU_SOURCE
#include <dlfcn.h>
#include <stddef.h>
#include <stdio.h>
#include <stdlib.h>

static unsigned long calls;

static int refused(size_t size)
{
    static unsigned long refuse;
    static int after;
    static int known;
    if (!known) {
        const char *text = getenv("REFUSE");
        refuse = text ? strtoul(text, NULL, 10) : 0;
        after = getenv("AFTER") != NULL;
        known = 1;
    }
    if (size == 0)
        return 0;
    calls++;
    return calls == refuse || (after && refuse > 0 && calls > refuse);
}

void *malloc(size_t size)
{
    static void *(*next)(size_t);
    if (!next)
        next = (void *(*)(size_t))dlsym(RTLD_NEXT, "malloc");
    return refused(size) ? NULL : next(size);
}

void *realloc(void *old, size_t size)
{
    static void *(*next)(void *, size_t);
    if (!next)
        next = (void *(*)(void *, size_t))dlsym(RTLD_NEXT, "realloc");
    return refused(size) ? NULL : next(old, size);
}

__attribute__((destructor)) static void tell(void)
{
    const char *name = getenv("COUNTED");
    unsigned long total = calls;
    FILE *file = name ? fopen(name, "w") : NULL;
    if (file) {
        fprintf(file, "%lu\n", total);
        fclose(file);
    }
}
