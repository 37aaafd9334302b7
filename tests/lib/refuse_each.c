/* For tests/refused_growths.py: loaded in front of the C library, it refuses many allocations of one run, one at a time: the one whose number is
   REFUSED_FIRST (from 1), and each REFUSED_STEP behind it. At each the process parts in two. The one is refused the allocation, and goes on to its end, for
   20 seconds at most, with its output in the file REFUSED_OUT. The other waits for it, writes the number and the status (less than 0 for a signal) to the
   descriptor REFUSED_ASK, and goes on when it can read a byte from REFUSED_GO: it puts back what stood in the file REFUSED_FILE and in its log, and is granted the
   allocation. */
#define _GNU_SOURCE
#include <dlfcn.h>
#include <fcntl.h>
#include <stdio.h>
#include <stdlib.h>
#include <string.h>
#include <sys/stat.h>
#include <sys/wait.h>
#include <unistd.h>

enum { MOST = 1 << 25, DESCRIPTORS = 64 };

/* A file as it stood when the process parted. */
struct kept {
    char path[4096], bytes[MOST];
    long length;
};

static struct kept files[2];
static off_t places[DESCRIPTORS];
static long count;
static int is_apart;

static long number(const char *name) {
    const char *text = getenv(name);
    return text == NULL ? 0 : atol(text);
}

static void keep(struct kept *kept, const char *end) {
    snprintf(kept->path, sizeof kept->path, "%s%s", getenv("REFUSED_FILE"), end);
    kept->length = -1;
    int file = open(kept->path, O_RDONLY);
    if (file < 0) return;
    kept->length = pread(file, kept->bytes, MOST, 0);
    if (kept->length < 0 || kept->length == MOST) abort();
    close(file);
}

static void put_back(const struct kept *kept) {
    if (kept->length < 0) {
        unlink(kept->path);
        return;
    }
    int file = open(kept->path, O_WRONLY);
    if (file < 0 || pwrite(file, kept->bytes, kept->length, 0) != kept->length || ftruncate(file, kept->length) != 0) abort();
    close(file);
}

/* The end of the other part is told, and what it changed is put back. */
static void wait_for(pid_t other) {
    int status;
    char line[64];
    if (waitpid(other, &status, 0) != other) abort();
    int length = snprintf(line, sizeof line, "%ld %d\n", count, WIFEXITED(status) ? WEXITSTATUS(status) : -WTERMSIG(status));
    if (write(number("REFUSED_ASK"), line, length) != length || read(number("REFUSED_GO"), line, 1) != 1) abort();
    put_back(&files[0]);
    put_back(&files[1]);
    for (int file = 3; file < DESCRIPTORS; file++)
        if (places[file] >= 0) lseek(file, places[file], SEEK_SET);
}

static int is_refused(void) {
    long first = number("REFUSED_FIRST");
    if (first == 0 || is_apart || ++count < first || (count - first) % number("REFUSED_STEP") != 0) return 0;
    keep(&files[0], "");
    keep(&files[1], "-wal");
    for (int file = 3; file < DESCRIPTORS; file++) places[file] = lseek(file, 0, SEEK_CUR);
    pid_t other = fork();
    if (other < 0) abort();
    if (other > 0) {
        wait_for(other);
        return 0;
    }
    is_apart = 1;
    alarm(20);
    if (dup2(open(getenv("REFUSED_OUT"), O_CREAT | O_TRUNC | O_WRONLY, 0600), 1) != 1) abort();
    return 1;
}

void *malloc(size_t size) {
    static void *(*next)(size_t);
    if (next == NULL) next = (void *(*)(size_t))dlsym(RTLD_NEXT, "malloc");
    return is_refused() ? NULL : next(size);
}

void *realloc(void *old, size_t size) {
    static void *(*next)(void *, size_t);
    if (next == NULL) next = (void *(*)(void *, size_t))dlsym(RTLD_NEXT, "realloc");
    return is_refused() ? NULL : next(old, size);
}
