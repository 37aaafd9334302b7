/* For tests/stopped_files.py: loaded in front of the C library, it ends the process at the call whose number stands in STOPPED_CALL (from 1), of those that
   write, cut or sync a file whose path begins with STOPPED_FILE, and says what call it was in the file that STOPPED_NOTE names. With STOPPED_HOW
   "half" the first half of the bytes of that write is written before; with "lost" all that was written to these files since they were last synced is
   taken back. */
#define _GNU_SOURCE
#include <dlfcn.h>
#include <fcntl.h>
#include <limits.h>
#include <stdio.h>
#include <stdlib.h>
#include <string.h>
#include <sys/stat.h>
#include <sys/uio.h>
#include <unistd.h>

#define NEXT(name, type, ...) ((type(*)(__VA_ARGS__))dlsym(RTLD_NEXT, name))

/* What stood where something was written or cut since the last sync of the file. */
struct before {
    char path[PATH_MAX];
    off_t place, size;
    size_t length;
    char *bytes;
    struct before *older;
};

static long count;
static struct before *newest;

static int is_how(const char *word) {
    const char *how = getenv("STOPPED_HOW");
    return how != NULL && strcmp(how, word) == 0;
}

/* Whether it is one of the files, and its path. */
static int is_watched(int file, char *path) {
    char link[64];
    const char *wanted = getenv("STOPPED_FILE");
    if (wanted == NULL) return 0;
    snprintf(link, sizeof link, "/proc/self/fd/%d", file);
    ssize_t length = readlink(link, path, PATH_MAX - 1);
    if (length < 0) return 0;
    path[length] = 0;
    return strncmp(path, wanted, strlen(wanted)) == 0;
}

static void take_back(void) {
    for (; newest != NULL; newest = newest->older) {
        int file = open(newest->path, O_RDWR);
        if (file < 0) continue;
        NEXT("pwrite", ssize_t, int, const void *, size_t, off_t)(file, newest->bytes, newest->length, newest->place);
        NEXT("ftruncate", int, int, off_t)(file, newest->size);
        close(file);
    }
}

static void stop(const char *call) {
    const char *note = getenv("STOPPED_NOTE");
    int file = note == NULL ? -1 : open(note, O_CREAT | O_WRONLY | O_TRUNC, 0600);
    if (file >= 0) {
        NEXT("write", ssize_t, int, const void *, size_t)(file, call, strlen(call));
        close(file);
    }
    if (is_how("lost")) take_back();
    _exit(137);
}

/* Whether the process is to end at this call. */
static int is_last(void) {
    const char *number = getenv("STOPPED_CALL");
    return ++count == (number == NULL ? 0 : atol(number));
}

static void keep(int file, const char *path, off_t place, off_t length) {
    struct stat now;
    if (!is_how("lost") || fstat(file, &now) != 0) return;
    struct before *kept = calloc(1, sizeof *kept);
    strcpy(kept->path, path);
    kept->place = place;
    kept->size = now.st_size;
    if (place < now.st_size) kept->length = length < now.st_size - place ? length : now.st_size - place;
    kept->bytes = malloc(kept->length + 1);
    if (kept->length > 0 && pread(file, kept->bytes, kept->length, place) < 0) kept->length = 0;
    kept->older = newest;
    newest = kept;
}

static void synced(const char *path) {
    for (struct before **at = &newest; *at != NULL;)
        if (strcmp((*at)->path, path) == 0) *at = (*at)->older;
        else at = &(*at)->older;
}

static ssize_t written(const char *call, int file, const void *bytes, size_t length, off_t place) {
    char path[PATH_MAX];
    if (is_watched(file, path)) {
        keep(file, path, place, length);
        if (is_last()) {
            if (is_how("half")) NEXT("pwrite", ssize_t, int, const void *, size_t, off_t)(file, bytes, length / 2, place);
            stop(call);
        }
    }
    return NEXT("pwrite", ssize_t, int, const void *, size_t, off_t)(file, bytes, length, place);
}

ssize_t pwrite(int file, const void *bytes, size_t length, off_t place) {
    return written("pwrite", file, bytes, length, place);
}

ssize_t pwrite64(int file, const void *bytes, size_t length, off_t place) {
    return written("pwrite", file, bytes, length, place);
}

ssize_t write(int file, const void *bytes, size_t length) {
    char path[PATH_MAX];
    if (is_watched(file, path)) {
        keep(file, path, lseek(file, 0, SEEK_CUR), length);
        if (is_last()) {
            if (is_how("half")) NEXT("write", ssize_t, int, const void *, size_t)(file, bytes, length / 2);
            stop("write");
        }
    }
    return NEXT("write", ssize_t, int, const void *, size_t)(file, bytes, length);
}

ssize_t __write(int file, const void *bytes, size_t length) {
    return write(file, bytes, length);
}

ssize_t pwritev(int file, const struct iovec *parts, int length, off_t place) {
    ssize_t done = 0;
    for (int at = 0; at < length; at++) {
        ssize_t now = written("pwritev", file, parts[at].iov_base, parts[at].iov_len, place + done);
        if (now < 0) return done > 0 ? done : now;
        done += now;
        if ((size_t)now < parts[at].iov_len) break;
    }
    return done;
}

ssize_t pwritev64(int file, const struct iovec *parts, int length, off_t place) {
    return pwritev(file, parts, length, place);
}

ssize_t writev(int file, const struct iovec *parts, int length) {
    ssize_t done = 0;
    for (int at = 0; at < length; at++) {
        ssize_t now = write(file, parts[at].iov_base, parts[at].iov_len);
        if (now < 0) return done > 0 ? done : now;
        done += now;
        if ((size_t)now < parts[at].iov_len) break;
    }
    return done;
}

static int truncated(int file, off_t size) {
    char path[PATH_MAX];
    if (is_watched(file, path)) {
        keep(file, path, size, LONG_MAX);
        if (is_last()) stop("ftruncate");
    }
    return NEXT("ftruncate", int, int, off_t)(file, size);
}

int ftruncate(int file, off_t size) {
    return truncated(file, size);
}

int ftruncate64(int file, off_t size) {
    return truncated(file, size);
}

static int is_synced(const char *call, int file) {
    char path[PATH_MAX];
    int is_ours = is_watched(file, path);
    if (is_ours && is_last()) stop(call);
    int result = NEXT(call, int, int)(file);
    if (is_ours && result == 0) synced(path);
    return result;
}

int fsync(int file) {
    return is_synced("fsync", file);
}

int fdatasync(int file) {
    return is_synced("fdatasync", file);
}
