/* A program's reads of its standard input and writes to its standard output, for preloading. Each gives or takes so many bytes at most as PIECE
 * says. The one behind so many reads as READS says fails, or so many writes as WRITES says, with the error of the number ERROR; where that is
 * 0, the write takes no byte. All others are done.
 */
#define _GNU_SOURCE
#include <errno.h>
#include <stdlib.h>
#include <sys/syscall.h>
#include <unistd.h>

static long number(const char *name, long otherwise) {
    const char *text = getenv(name);
    return text ? atol(text) : otherwise;
}

static ssize_t done(long call, const char *failing, long before, int file, void *bytes, size_t length) {
    size_t piece = number("PIECE", 1 << 16);
    if (number(failing, -1) == before) {
        errno = number("ERROR", EIO);
        return errno ? -1 : 0;
    }
    return syscall(call, file, bytes, length < piece ? length : piece);
}

ssize_t read(int file, void *room, size_t length) {
    static long reads;
    return file == STDIN_FILENO ? done(SYS_read, "READS", reads++, file, room, length) : syscall(SYS_read, file, room, length);
}

ssize_t write(int file, const void *bytes, size_t length) {
    static long writes;
    return file == STDOUT_FILENO ? done(SYS_write, "WRITES", writes++, file, (void *)bytes, length) : syscall(SYS_write, file, bytes, length);
}

ssize_t __write(int file, const void *bytes, size_t length) { return write(file, bytes, length); }
