// Preloaded into a program that keeps its data in the folder CRASH_FOLDER: stops it at one of its calls that change files there, or
// lets such a call fail. Calls are counted from 1: open for writing, write, fsync and fdatasync, rename, unlink, ftruncate, mkdir.
// Calls that only read there are counted apart: open, read, list, statx.
//
//   CRASH_TELL=FILE     writes a letter for each call: o w s r u t m, and x for each that only reads
//   CRASH_AT=N          the process stops in place of call N, and CRASH_WAY says what of its earlier calls the disk has:
//       kept            all of them
//       half            all of them, and half of this write
//       lost            those that were synced: what a file had at its sync, and the names that the folder had at its own
//       torn            as lost, but this write is half done, and its file has what was written
//       names           as lost, but files have what was written
//       contents        as lost, but the folder has the names that were given
//       mixed           of each name and of each file's bytes either, by CRASH_SEED; a file's end may be zeros; a name that was renamed may be there too
//   CRASH_SPOILT=FILE   what the disk has of the edits, or of the file CRASH_SPOILT_OF, is written there if a sync of it fails, and at a stop after that;
//                       a process that finds the file begins with it, as if it saw by memory what the disk does not have
//   FAIL_AT=N           call N fails with FAIL_ERRNO; a write then takes half of its bytes if FAIL_HALF=1, and the next call fails
//   FAIL_COUNT=C        so do the C - 1 calls after it
//   FAIL_READ_AT=N      call N of those that only read fails with FAIL_ERRNO
//
// A sync that fails spoils what it was to bring to the disk: a later one does not bring it unless it is written again.
#define _GNU_SOURCE
#include <dirent.h>
#include <errno.h>
#include <fcntl.h>
#include <limits.h>
#include <stdarg.h>
#include <stdint.h>
#include <stdio.h>
#include <stdlib.h>
#include <string.h>
#include <sys/stat.h>
#include <sys/syscall.h>
#include <sys/uio.h>
#include <unistd.h>

#define FDS 1024
#define FILES 4096
#define NAMES 512

struct bytes { unsigned char *at; size_t len; };
// A file: what it had when it was synced, what it had when its last name was removed, and which of its bytes a failed sync has spoilt.
struct file { struct bytes synced, last, spoilt; int is_gone; };
struct name { char text[64]; int file; };
struct names { struct name of[NAMES]; int count; };

static char folder[PATH_MAX], way[16], spoilt_of[64];
static long crash_at, fail_at, fail_count, calls, fail_read_at, reads;
static int fail_errno, fail_half, tell_fd = -1, is_made = 0, is_made_synced = 1, torn_file = -1;
static uint64_t seed;
static struct file files[FILES];
static int file_count;
static struct names now, synced, past; // past: names that the folder has had since its sync
static int file_of[FDS]; // the file of a descriptor and 1, or 0
static int is_read[FDS]; // whether a descriptor reads the folder or a file there

static uint64_t drawn(uint64_t below) {
    seed = seed * 6364136223846793005ull + 1442695040888963407ull;
    return below ? (seed >> 33) % below : 0;
}

static const char *name_in(const char *path) { // the name of a file in the folder, or none
    size_t len = strlen(folder);
    if (strncmp(path, folder, len) != 0 || path[len] != '/') return NULL;
    path += len + 1;
    return strchr(path, '/') || strcmp(path, "..") == 0 || strcmp(path, ".") == 0 ? NULL : path;
}

static struct name *found(struct names *in, const char *text) {
    for (int i = 0; i < in->count; i++) if (strcmp(in->of[i].text, text) == 0) return &in->of[i];
    return NULL;
}

static void gives(struct names *in, const char *text, int file) {
    struct name *it = found(in, text);
    if (!it) { if (in->count == NAMES) abort(); it = &in->of[in->count++]; }
    snprintf(it->text, sizeof it->text, "%s", text);
    it->file = file;
}

static void takes(struct names *in, const char *text) {
    struct name *it = found(in, text);
    if (!it) return;
    if (in == &now) gives(&past, text, it->file);
    *it = in->of[--in->count];
}

static struct bytes content(int at, const char *path) {
    struct bytes all = {NULL, 0};
    int fd = syscall(SYS_openat, at, path, O_RDONLY | O_CLOEXEC, 0);
    struct stat it;
    if (fd < 0 || syscall(SYS_fstat, fd, &it) != 0) return all;
    all.at = malloc(it.st_size + 1);
    while (all.len < (size_t)it.st_size) {
        long got = syscall(SYS_read, fd, all.at + all.len, it.st_size - all.len);
        if (got <= 0) break;
        all.len += got;
    }
    syscall(SYS_close, fd);
    return all;
}

static struct bytes of_name(const char *text) {
    char path[PATH_MAX + 80];
    snprintf(path, sizeof path, "%s/%s", folder, text);
    return content(AT_FDCWD, path);
}

// A failed sync: where the file differs from what the disk has, no later sync brings it.
static void spoil(int number, struct bytes seen) {
    struct file *it = &files[number];
    struct bytes is = {calloc(seen.len + 1, 1), seen.len};
    for (size_t i = 0; i < seen.len; i++)
        is.at[i] = (i < it->spoilt.len && it->spoilt.at[i]) || i >= it->synced.len || it->synced.at[i] != seen.at[i];
    it->spoilt = is;
}

// What is written again, or cut off, is no longer spoilt.
static void mend(int number, size_t from, size_t to) {
    struct bytes *it = &files[number].spoilt;
    for (size_t i = from; i < to && i < it->len; i++) it->at[i] = 0;
}

// What a sync brings to the disk of a file that has these bytes.
static struct bytes brought(int number, struct bytes seen) {
    struct file *it = &files[number];
    struct bytes all = {malloc(seen.len + 1), seen.len};
    int is_spoilt = 0;
    for (size_t i = 0; i < seen.len; i++) {
        int is_old = i < it->spoilt.len && it->spoilt.at[i];
        all.at[i] = !is_old ? seen.at[i] : i < it->synced.len ? it->synced.at[i] : 0;
        is_spoilt |= is_old;
    }
    while (is_spoilt && all.len > it->synced.len && all.len <= it->spoilt.len && it->spoilt.at[all.len - 1]) all.len--;
    return all;
}

static int has_spoilt(int number) {
    struct bytes it = files[number].spoilt;
    return it.len && memchr(it.at, 1, it.len) != NULL;
}

static int new_file(struct bytes synced_bytes) {
    if (file_count == FILES) abort();
    files[file_count].synced = synced_bytes;
    return file_count++;
}

// The file of a name that is there at the start: that of another name, if it is a link to the same.
static int file_named(const char *text) {
    char path[PATH_MAX + 80];
    struct stat one, other;
    for (int i = 0; i < now.count; i++) {
        snprintf(path, sizeof path, "%s/%s", folder, text);
        if (stat(path, &one) != 0) break;
        snprintf(path, sizeof path, "%s/%s", folder, now.of[i].text);
        if (stat(path, &other) == 0 && one.st_ino == other.st_ino && one.st_dev == other.st_dev) return now.of[i].file;
    }
    return new_file(of_name(text));
}

static __attribute__((constructor)) void start(void) {
    const char *it;
    snprintf(folder, sizeof folder, "%s", (it = getenv("CRASH_FOLDER")) ? it : "/nowhere");
    snprintf(way, sizeof way, "%s", (it = getenv("CRASH_WAY")) ? it : "kept");
    crash_at = (it = getenv("CRASH_AT")) ? atol(it) : 0;
    fail_at = (it = getenv("FAIL_AT")) ? atol(it) : 0;
    fail_count = (it = getenv("FAIL_COUNT")) ? atol(it) : 1;
    fail_errno = (it = getenv("FAIL_ERRNO")) ? atoi(it) : EIO;
    fail_half = getenv("FAIL_HALF") != NULL;
    fail_read_at = (it = getenv("FAIL_READ_AT")) ? atol(it) : 0;
    seed = (it = getenv("CRASH_SEED")) ? strtoull(it, NULL, 10) : 1;
    if ((it = getenv("CRASH_TELL"))) tell_fd = syscall(SYS_openat, AT_FDCWD, it, O_WRONLY | O_CREAT | O_TRUNC, 0644);
    DIR *all = opendir(folder);
    is_made = all != NULL;
    for (struct dirent *entry; all && (entry = readdir(all));)
        if (entry->d_name[0] != '.') gives(&now, entry->d_name, file_named(entry->d_name));
    if (all) closedir(all);
    synced = now;
    snprintf(spoilt_of, sizeof spoilt_of, "%s", (it = getenv("CRASH_SPOILT_OF")) ? it : "edits");
    struct name *named = found(&now, spoilt_of);
    struct bytes disk = (it = getenv("CRASH_SPOILT")) ? content(AT_FDCWD, it) : (struct bytes){NULL, 0};
    if (named && disk.at) {
        files[named->file].synced = disk;
        spoil(named->file, of_name(spoilt_of));
    }
}

// Leaves what the disk has of the edits, or of another file, to the next process, if a sync of it failed.
static void leave_spoilt(void) {
    const char *to = getenv("CRASH_SPOILT");
    struct name *named = found(&now, spoilt_of);
    if (!to || !named || !has_spoilt(named->file)) return;
    struct bytes disk = brought(named->file, of_name(spoilt_of));
    int fd = syscall(SYS_openat, AT_FDCWD, to, O_WRONLY | O_CREAT | O_TRUNC, 0644);
    if (syscall(SYS_write, fd, disk.at, disk.len) != (long)disk.len) abort();
}

// What the disk has of a file whose bytes are these when the process stops.
static struct bytes survives(int number, struct bytes last) {
    struct bytes old = files[number].synced;
    last = brought(number, last);
    if (strcmp(way, "names") == 0 || number == torn_file) return last;
    if (strcmp(way, "mixed") != 0) return old;
    size_t cut = drawn(last.len + 1), len = drawn(2) ? last.len : cut > old.len ? cut : old.len;
    int zeros = drawn(2);
    struct bytes mix = {malloc(len + 1), len};
    for (size_t i = 0; i < len; i++)
        mix.at[i] = i < cut && i < last.len ? last.at[i] : i < old.len ? old.at[i] : zeros || i >= last.len ? 0 : last.at[i];
    return mix;
}

static int named_before(struct names *in, int at) { // an earlier name of the same file, or -1
    for (int i = 0; i < at; i++) if (in->of[i].file == in->of[at].file) return i;
    return -1;
}

static void rewrite(struct names *in) { // gives the folder these names, and their files what survives
    static struct bytes left[NAMES];
    for (int i = 0; i < in->count; i++) {
        struct file *it = &files[in->of[i].file];
        struct bytes last = it->last;
        for (int j = 0; j < now.count && !it->is_gone; j++) if (now.of[j].file == in->of[i].file) last = of_name(now.of[j].text);
        if (named_before(in, i) < 0) left[i] = survives(in->of[i].file, last);
    }
    for (int i = 0; i < now.count; i++) {
        char path[PATH_MAX + 80];
        snprintf(path, sizeof path, "%s/%s", folder, now.of[i].text);
        syscall(SYS_unlink, path);
    }
    if (!is_made_synced) { syscall(SYS_rmdir, folder); return; }
    for (int i = 0; i < in->count; i++) {
        char path[PATH_MAX + 80];
        snprintf(path, sizeof path, "%s/%s", folder, in->of[i].text);
        int other = named_before(in, i);
        if (other >= 0) {
            char first[PATH_MAX + 80];
            snprintf(first, sizeof first, "%s/%s", folder, in->of[other].text);
            if (syscall(SYS_link, first, path) != 0) abort();
            continue;
        }
        int fd = syscall(SYS_openat, AT_FDCWD, path, O_WRONLY | O_CREAT | O_TRUNC, 0644);
        for (size_t at = 0; at < left[i].len;) {
            long done = syscall(SYS_write, fd, left[i].at + at, left[i].len - at);
            if (done <= 0) abort();
            at += done;
        }
    }
}

static void stop(void) {
    static struct names mixed;
    crash_at = 0;
    if (is_made && strcmp(way, "kept") != 0 && strcmp(way, "half") != 0) {
        if (strcmp(way, "mixed") == 0) {
            for (int i = 0; i < synced.count; i++) if (!found(&now, synced.of[i].text) && drawn(2)) gives(&mixed, synced.of[i].text, synced.of[i].file);
            for (int i = 0; i < now.count; i++) {
                struct name *was = found(&synced, now.of[i].text);
                if (drawn(2)) gives(&mixed, now.of[i].text, now.of[i].file);
                else if (was) gives(&mixed, was->text, was->file);
            }
            for (int i = 0; i < past.count; i++)
                if (!found(&mixed, past.of[i].text) && drawn(4) == 0) gives(&mixed, past.of[i].text, past.of[i].file);
            is_made_synced = is_made_synced || drawn(2);
        }
        rewrite(strcmp(way, "mixed") == 0 ? &mixed : strcmp(way, "contents") == 0 ? &now : &synced);
    }
    leave_spoilt();
    syscall(SYS_exit_group, 137);
}

// Counts a call; whether it fails. If the process stops here, this does not come back.
static int fails(char kind) {
    calls++;
    if (tell_fd >= 0) syscall(SYS_write, tell_fd, &kind, 1);
    if (calls == crash_at) stop();
    if (fail_at == 0 || calls < fail_at || calls >= fail_at + fail_count) return 0;
    errno = fail_errno;
    return 1;
}

// Counts a call that only reads; whether it fails.
static int read_fails(void) {
    reads++;
    if (tell_fd >= 0) syscall(SYS_write, tell_fd, "x", 1);
    if (reads != fail_read_at) return 0;
    errno = fail_errno;
    return 1;
}

static int opened(int dir, const char *path, int flags, mode_t mode) {
    const char *text = name_in(path);
    int writes = text && (flags & O_ACCMODE) != O_RDONLY, only_reads = !writes && (text || strcmp(path, folder) == 0);
    if ((writes && fails('o')) || (only_reads && read_fails())) return -1;
    int fd = syscall(SYS_openat, dir, path, flags, mode);
    if (fd < 0 || fd >= FDS) return fd;
    file_of[fd] = 0;
    is_read[fd] = only_reads;
    if (!writes) return fd;
    struct name *it = found(&now, text);
    // The bytes that a truncation takes away stay on the disk until the file is synced.
    int number = it ? it->file : new_file((struct bytes){NULL, 0});
    if (!it) gives(&now, text, number);
    file_of[fd] = number + 1;
    return fd;
}

static mode_t mode_in(int flags, va_list rest) { return flags & O_CREAT ? va_arg(rest, int) : 0; }
#define OPEN(name) int name(const char *path, int flags, ...) { va_list rest; va_start(rest, flags); mode_t mode = mode_in(flags, rest); va_end(rest); return opened(AT_FDCWD, path, flags, mode); }
#define OPENAT(name) int name(int dir, const char *path, int flags, ...) { va_list rest; va_start(rest, flags); mode_t mode = mode_in(flags, rest); va_end(rest); return opened(dir, path, flags, mode); }
OPEN(open) OPEN(open64) OPENAT(openat) OPENAT(openat64)

int close(int fd) {
    if (fd >= 0 && fd < FDS) file_of[fd] = is_read[fd] = 0;
    return syscall(SYS_close, fd);
}

static int reads_in(int fd) { return fd >= 0 && fd < FDS && is_read[fd]; }
ssize_t read(int fd, void *to, size_t n) { return reads_in(fd) && read_fails() ? -1 : syscall(SYS_read, fd, to, n); }
ssize_t getdents64(int fd, void *to, size_t n) { return reads_in(fd) && read_fails() ? -1 : syscall(SYS_getdents64, fd, to, n); }
int statx(int dir, const char *path, int flags, unsigned mask, struct statx *to) {
    int is_there = *path ? name_in(path) != NULL || strcmp(path, folder) == 0 : reads_in(dir);
    return is_there && read_fails() ? -1 : syscall(SYS_statx, dir, path, flags, mask, to);
}

static ssize_t written(int fd, const void *bytes, size_t n) {
    long at = syscall(SYS_lseek, fd, 0, SEEK_CUR), done = syscall(SYS_write, fd, bytes, n);
    if (at >= 0 && done > 0) mend(file_of[fd] - 1, at, at + done);
    return done;
}

ssize_t write(int fd, const void *bytes, size_t n) {
    if (fd < 0 || fd >= FDS || !file_of[fd]) return syscall(SYS_write, fd, bytes, n);
    int is_half = calls + 1 == crash_at && (strcmp(way, "half") == 0 || strcmp(way, "torn") == 0 || strcmp(way, "mixed") == 0);
    if (is_half) {
        written(fd, bytes, n / 2);
        if (strcmp(way, "torn") == 0) torn_file = file_of[fd] - 1;
    }
    if (fail_half && calls + 1 == fail_at && n > 1) {
        calls++, fail_at++;
        return written(fd, bytes, n / 2);
    }
    if (fails('w')) return -1;
    return written(fd, bytes, n);
}

ssize_t writev(int fd, const struct iovec *parts, int count) {
    if (fd < 0 || fd >= FDS || !file_of[fd]) return syscall(SYS_writev, fd, parts, count);
    for (int i = 0; i < count; i++) if (parts[i].iov_len) return write(fd, parts[i].iov_base, parts[i].iov_len);
    return 0;
}

// Nothing is brought to a real disk: what counts is what this file notes.
static int sync_one(int fd) {
    struct stat it, of_folder;
    char above[PATH_MAX + 4];
    if (syscall(SYS_fstat, fd, &it) != 0) return -1;
    int is_failed = fails('s');
    if (fd < FDS && file_of[fd]) {
        char path[64];
        snprintf(path, sizeof path, "/proc/self/fd/%d", fd);
        struct bytes seen = content(AT_FDCWD, path);
        if (is_failed) spoil(file_of[fd] - 1, seen), leave_spoilt();
        else files[file_of[fd] - 1].synced = brought(file_of[fd] - 1, seen);
    }
    if (is_failed) return -1;
    if (fd < FDS && file_of[fd]) return 0;
    snprintf(above, sizeof above, "%s/..", folder);
    if (stat(folder, &of_folder) == 0 && it.st_ino == of_folder.st_ino && it.st_dev == of_folder.st_dev) synced = now, past.count = 0;
    if (stat(above, &of_folder) == 0 && it.st_ino == of_folder.st_ino && it.st_dev == of_folder.st_dev) is_made_synced = 1;
    return 0;
}
int fsync(int fd) { return sync_one(fd); }
int fdatasync(int fd) { return sync_one(fd); }

static void gone(const char *text) { // keeps the bytes of a file that loses its name
    struct name *it = found(&now, text);
    if (!it) return;
    for (int i = 0; i < now.count; i++) if (&now.of[i] != it && now.of[i].file == it->file) return;
    files[it->file].last = of_name(text);
    files[it->file].is_gone = 1;
}

int rename(const char *from, const char *to) {
    const char *old = name_in(from), *new = name_in(to);
    if (!old || !new) return syscall(SYS_rename, from, to);
    if (fails('r')) return -1;
    struct name *it = found(&now, old);
    struct name *there = it ? found(&now, new) : NULL;
    if (there && there->file == it->file) return syscall(SYS_rename, from, to); // two names of one file stay
    if (there) gone(new), takes(&now, new), it = found(&now, old);
    int done = syscall(SYS_rename, from, to), file = it ? it->file : -1;
    if (done == 0 && it) { takes(&now, old); gives(&now, new, file); }
    return done;
}

int unlink(const char *path) {
    const char *text = name_in(path);
    if (!text) return syscall(SYS_unlink, path);
    if (fails('u')) return -1;
    gone(text);
    int done = syscall(SYS_unlink, path);
    if (done == 0) takes(&now, text);
    return done;
}
int unlinkat(int dir, const char *path, int flags) {
    return dir == AT_FDCWD && !flags ? unlink(path) : syscall(SYS_unlinkat, dir, path, flags);
}

static int cut(int fd, off_t n) {
    int is_noted = fd >= 0 && fd < FDS && file_of[fd];
    if (is_noted && fails('t')) return -1;
    int done = syscall(SYS_ftruncate, fd, n);
    if (is_noted && done == 0) mend(file_of[fd] - 1, n, SIZE_MAX);
    return done;
}
int ftruncate(int fd, off_t n) { return cut(fd, n); }
int ftruncate64(int fd, off_t n) { return cut(fd, n); }

int mkdir(const char *path, mode_t mode) {
    if (strcmp(path, folder) != 0) return syscall(SYS_mkdir, path, mode);
    if (fails('m')) return -1;
    int done = syscall(SYS_mkdir, path, mode);
    if (done == 0) is_made = 1, is_made_synced = 0;
    return done;
}
