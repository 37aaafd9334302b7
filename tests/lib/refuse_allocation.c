/* For tests/refused_memory.sh and the sessions of tests/refused_growths.py: loaded in front of the C library, it refuses the allocation whose number stands
   in REFUSED_ALLOCATION (from 1), and says so by making the file that REFUSED_NOTE names. */
#define _GNU_SOURCE
#include <dlfcn.h>
#include <fcntl.h>
#include <stddef.h>
#include <stdlib.h>
#include <unistd.h>

static long count;

static int is_refused(void) {
    const char *number = getenv("REFUSED_ALLOCATION");
    if (number == NULL || ++count != atol(number)) return 0;
    const char *note = getenv("REFUSED_NOTE");
    if (note != NULL) close(open(note, O_CREAT | O_WRONLY, 0600));
    return 1;
}

void *malloc(size_t size) {
    static void *(*next)(size_t);
    if (next == NULL) next = (void *(*)(size_t))dlsym(RTLD_NEXT, "malloc");
    return is_refused() ? NULL : next(size);
}

void *realloc(void *old, size_t size) {
    static void *(*next)(void *, size_t);
    if (next == NULL) next = (void *(*)(void *, size_t))dlsym(RTLD_NEXT, "realloc");
    return is_refused() ? NULL : next(old, size);
}
