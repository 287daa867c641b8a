// Preloaded into a program: how its standard input gives bytes, and its standard output takes them. Calls that move none are not counted. And how
// its files are synced.
//
//   STREAM_MOST=N        a call moves at most N bytes
//   STREAM_READ=N        read number N fails
//   STREAM_WRITE=N       write number N fails
//   STREAM_SYNC=N        sync number N fails, of whatever file
//   STREAM_INTERRUPTS=1  every other call is interrupted, the first one among them
#include <errno.h>
#include <stdlib.h>
#include <sys/syscall.h>
#include <sys/types.h>
#include <unistd.h>

struct stream { long fails, calls; int was_interrupted; };

static struct stream input, output, syncs;
static long most, interrupts;

static long number(const char *name) {
    const char *it = getenv(name);
    return it ? atol(it) : 0;
}

static __attribute__((constructor)) void start(void) {
    input.fails = number("STREAM_READ");
    output.fails = number("STREAM_WRITE");
    syncs.fails = number("STREAM_SYNC");
    most = number("STREAM_MOST");
    interrupts = number("STREAM_INTERRUPTS");
}

static ssize_t fails(int why) {
    errno = why;
    return -1;
}

static ssize_t moves(struct stream *it, size_t len) { // how many bytes a call moves, or -1 if it fails
    if (len == 0) return 0;
    if (interrupts && (it->was_interrupted = !it->was_interrupted)) return fails(EINTR);
    if (++it->calls == it->fails) return fails(EIO);
    return most && len > (size_t)most ? most : (ssize_t)len;
}

ssize_t read(int fd, void *to, size_t len) {
    ssize_t now = fd == STDIN_FILENO ? moves(&input, len) : (ssize_t)len;
    return now < 0 ? now : syscall(SYS_read, fd, to, now);
}

ssize_t write(int fd, const void *from, size_t len) {
    ssize_t now = fd == STDOUT_FILENO ? moves(&output, len) : (ssize_t)len;
    return now < 0 ? now : syscall(SYS_write, fd, from, now);
}

static int synced(long call, int fd) { return ++syncs.calls == syncs.fails ? (int)fails(EIO) : (int)syscall(call, fd); }
int fsync(int fd) { return synced(SYS_fsync, fd); }
int fdatasync(int fd) { return synced(SYS_fdatasync, fd); }
