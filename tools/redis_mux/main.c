// Many clients for one store: passes their requests in turn to one program, and each reply back to the client that asked. 'arguments.c' has the help.
//
// It is one thread, and its loop calls what is ready: listeners let clients in (listening.c); a client finds its next request (client.c, client_turn.c,
// wire_request.c) and gets in line; the program gets what waits, and its replies go to those who asked (program.c, wire_reply.c, queue.c).
#define _GNU_SOURCE
#include "arguments.h"
#include "listening.h"
#include "loop.h"
#include "say.h"
#include "serving.h"

#include <errno.h>
#include <signal.h>
#include <string.h>
#include <sys/epoll.h>
#include <sys/resource.h>
#include <sys/signalfd.h>
#include <unistd.h>

// Descriptors that are no client's.
enum { RESERVED = 32 };

// The signals at which it ends.
static sigset_t ends;

// Keeps the signals at which it ends for the loop, from now on, and has a connection that is closed be an error of the call.
static void hold_signals(void) {
    sigemptyset(&ends);
    sigaddset(&ends, SIGTERM);
    sigaddset(&ends, SIGINT);
    sigprocmask(SIG_BLOCK, &ends, NULL);
    signal(SIGTERM, SIG_DFL);
    signal(SIGINT, SIG_DFL);
    signal(SIGPIPE, SIG_IGN);
}

// The descriptor that these signals come from, and the program that they end.
struct signals {
    struct watched watched;
    struct program *program;
};

static void stop(void *owner, uint32_t ready) {
    (void)ready;
    struct signals *signals = owner;
    struct signalfd_siginfo come;
    if (read(signals->watched.descriptor, &come, sizeof come) == (ssize_t)sizeof come) program_stop(signals->program);
}

static void watch_signals(struct signals *signals, struct program *program) {
    int descriptor = signalfd(-1, &ends, SFD_NONBLOCK | SFD_CLOEXEC);
    if (descriptor < 0) fail("signals: %s", strerror(errno));
    *signals = (struct signals){.program = program};
    signals->watched = (struct watched){.descriptor = descriptor, .ready = stop, .owner = signals};
    if (!loop_watch(program->loop, &signals->watched, EPOLLIN)) fail_for_memory();
}

// As many descriptors as this process may have. Returns how many of them clients may take.
static size_t more_descriptors(void) {
    struct rlimit limit;
    if (getrlimit(RLIMIT_NOFILE, &limit) < 0) fail("descriptors: %s", strerror(errno));
    limit.rlim_cur = limit.rlim_max;
    if (setrlimit(RLIMIT_NOFILE, &limit) < 0) fail("descriptors: %s", strerror(errno));
    return limit.rlim_max > RESERVED ? (size_t)(limit.rlim_max - RESERVED) : 0;
}

static void say_where(const struct arguments *told) {
    const char *path = told->path ? told->path : "";
    if (told->port) say("listening on 127.0.0.1:%d%s%s", told->port, told->path ? " and " : "", path);
    else say("listening on %s", path);
}

int main(int count, char **words) {
    (void)count;
    static struct loop loop;
    static struct program program;
    static struct signals signals;
    static struct listener of_port, of_path;
    struct arguments told = arguments_of(words);
    hold_signals();
    int port = told.port ? listen_at_port(told.port) : -1;
    int path = told.path ? listen_at_path(told.path) : -1;
    loop_start(&loop);
    program_start(&program, &loop, told.program);
    watch_signals(&signals, &program);
    size_t most = more_descriptors();
    if (told.port) let_in(&of_port, &program, port, most);
    if (told.path) let_in(&of_path, &program, path, most);
    say_where(&told);
    return serve(&program);
}
