// The start of the program.
#define _GNU_SOURCE
#include "spawn.h"

#include "say.h"

#include <errno.h>
#include <fcntl.h>
#include <limits.h>
#include <linux/close_range.h>
#include <signal.h>
#include <string.h>
#include <sys/syscall.h>
#include <sys/wait.h>
#include <unistd.h>

// The ends of a pipe.
struct pipe_ends {
    int read, write;
};

// How many bytes the program's input holds, as far as the system allows it: what is read at once is run before one sync.
enum { INPUT_BYTES = 1 << 20 };

static struct pipe_ends new_pipe(const char *program) {
    int ends[2];
    if (pipe2(ends, O_CLOEXEC) < 0) fail("%s: %s", program, strerror(errno));
    return (struct pipe_ends){ends[0], ends[1]};
}

// Makes a descriptor this one of the new process.
static void become(int descriptor, int standard) {
    if (descriptor == standard) fcntl(standard, F_SETFD, 0);
    else dup2(descriptor, standard);
}

// Becomes the program: it ends by its input's end alone, and so ignores the signals at which this process ends.
static void run(char **words) {
    sigset_t ends;
    sigemptyset(&ends);
    sigaddset(&ends, SIGTERM);
    sigaddset(&ends, SIGINT);
    signal(SIGTERM, SIG_IGN);
    signal(SIGINT, SIG_IGN);
    signal(SIGPIPE, SIG_DFL);
    sigprocmask(SIG_UNBLOCK, &ends, NULL);
    setsid();
    syscall(SYS_close_range, STDERR_FILENO + 1, UINT_MAX, CLOSE_RANGE_CLOEXEC); // an older system leaves it those that this process was given
    execvp(words[0], words);
}

// Waits for what the new process says: nothing if it is the program now, and why not otherwise. Returns that error, or 0.
static int why_not(int told) {
    int why = 0;
    ssize_t size;
    do size = read(told, &why, sizeof why);
    while (size < 0 && errno == EINTR);
    return size == (ssize_t)sizeof why ? why : 0;
}

struct spawned spawn(char **words) {
    struct pipe_ends input = new_pipe(words[0]), output = new_pipe(words[0]), told = new_pipe(words[0]);
    fcntl(input.write, F_SETPIPE_SZ, INPUT_BYTES); // if it is refused, the pipe keeps the system's size
    pid_t process = fork();
    if (process < 0) fail("%s: %s", words[0], strerror(errno));
    if (process == 0) {
        become(input.read, STDIN_FILENO);
        become(output.write, STDOUT_FILENO);
        run(words);
        int why = errno;
        _exit(write(told.write, &why, sizeof why) < 0 ? 1 : 127);
    }
    close(input.read);
    close(output.write);
    close(told.write);
    int why = why_not(told.read);
    close(told.read);
    if (why) {
        waitpid(process, NULL, 0);
        fail("%s: %s", words[0], strerror(why));
    }
    return (struct spawned){process, input.write, output.read};
}
