/* Input and output that fail, for a program that it is loaded into with LD_PRELOAD. The environment says how:
 *   FAULT_READ_AFTER, FAULT_READ_ERRNO    standard input gives so many bytes, and then fails with that error
 *   FAULT_WRITE_AFTER, FAULT_WRITE_ERRNO  standard output takes so many bytes, and then fails with that error; error 0: it takes nothing
 *   FAULT_CLOSE_ERRNO                     the file of standard output fails with that error once all is written, as its last sync says
 *   FAULT_MOST                            no read or write moves more bytes than that
 *   FAULT_INTERRUPT                       every other read and write, the first one among them, is interrupted by a signal */
#include <errno.h>
#include <stdlib.h>
#include <sys/stat.h>
#include <sys/syscall.h>
#include <sys/types.h>
#include <unistd.h>

/* What one descriptor has been asked so far, and where it is to fail. */
struct stream {
    const char *after, *error;
    long moved, calls;
};

static struct stream input = {"FAULT_READ_AFTER", "FAULT_READ_ERRNO", 0, 0};
static struct stream output = {"FAULT_WRITE_AFTER", "FAULT_WRITE_ERRNO", 0, 0};
static struct stream marks = {"", "", 0, 0};

/* A number of the environment, or -1. */
static long number(const char *name) {
    const char *text = getenv(name);
    return text ? atol(text) : -1;
}

/* Whether a call is to fail, with errno set. Otherwise it may move fewer bytes than asked. */
static int fails(struct stream *stream, size_t *count) {
    if (number("FAULT_INTERRUPT") > 0 && stream->calls++ % 2 == 0) {
        errno = EINTR;
        return 1;
    }
    long most = number("FAULT_MOST");
    if (most >= 0 && *count > (size_t)most) *count = (size_t)most;
    long left = number(stream->after) - stream->moved;
    if (number(stream->after) < 0) return 0;
    if (left == 0) {
        errno = (int)number(stream->error);
        return 1;
    }
    if (*count > (size_t)left) *count = (size_t)left;
    return 0;
}

ssize_t read(int descriptor, void *buffer, size_t count) {
    if (descriptor != STDIN_FILENO) return syscall(SYS_read, descriptor, buffer, count);
    if (fails(&input, &count)) return -1;
    ssize_t got = syscall(SYS_read, descriptor, buffer, count);
    if (got > 0) input.moved += got;
    return got;
}

ssize_t write(int descriptor, const void *buffer, size_t count) {
    if (descriptor == STDERR_FILENO) return syscall(SYS_write, descriptor, buffer, count);
    struct stream *stream = descriptor == STDOUT_FILENO ? &output : &marks;
    if (fails(stream, &count)) return errno ? -1 : 0;
    ssize_t put = syscall(SYS_write, descriptor, buffer, count);
    if (put > 0) stream->moved += put;
    return put;
}

/* Whether a descriptor is of the file that standard output writes to. */
static int is_output(int descriptor) {
    struct stat asked, written;
    return fstat(descriptor, &asked) == 0 && fstat(STDOUT_FILENO, &written) == 0 && asked.st_dev == written.st_dev && asked.st_ino == written.st_ino;
}

int fsync(int descriptor) {
    int answer = (int)syscall(SYS_fsync, descriptor);
    if (number("FAULT_CLOSE_ERRNO") < 0 || !is_output(descriptor)) return answer;
    errno = (int)number("FAULT_CLOSE_ERRNO");
    return -1;
}
