/* For tests/failed_output.py: loaded in front of the C library, it makes the write to standard output fail whose number stands in FAILED_WRITE
   (from 1), with the error FAILED_ERROR, and says so by making the file that FAILED_NOTE names; with FAILED_SINCE all writes after it fail too. With
   FAILED_PART no write takes more bytes than that. An error 0 is a write that takes none. */
#define _GNU_SOURCE
#include <dlfcn.h>
#include <errno.h>
#include <fcntl.h>
#include <stdlib.h>
#include <sys/uio.h>
#include <unistd.h>

static long count;

static long number(const char *name) {
    const char *text = getenv(name);
    return text == NULL ? 0 : atol(text);
}

ssize_t write(int file, const void *bytes, size_t length) {
    static ssize_t (*next)(int, const void *, size_t);
    if (next == NULL) next = (ssize_t (*)(int, const void *, size_t))dlsym(RTLD_NEXT, "write");
    long failed = number("FAILED_WRITE"), part = number("FAILED_PART");
    if (file != 1 || failed == 0) return next(file, bytes, length);
    if (++count == failed || (count > failed && getenv("FAILED_SINCE") != NULL)) {
        const char *note = getenv("FAILED_NOTE");
        if (note != NULL) close(open(note, O_CREAT | O_WRONLY, 0600));
        errno = number("FAILED_ERROR");
        return errno == 0 ? 0 : -1;
    }
    return next(file, bytes, part > 0 && length > (size_t)part ? (size_t)part : length);
}

ssize_t __write(int file, const void *bytes, size_t length) {
    return write(file, bytes, length);
}

ssize_t writev(int file, const struct iovec *parts, int length) {
    static ssize_t (*next)(int, const struct iovec *, int);
    if (next == NULL) next = (ssize_t (*)(int, const struct iovec *, int))dlsym(RTLD_NEXT, "writev");
    if (file != 1 || number("FAILED_WRITE") == 0) return next(file, parts, length);
    for (int place = 0; place < length; place++)
        if (parts[place].iov_len > 0) return write(file, parts[place].iov_base, parts[place].iov_len);
    return 0;
}
