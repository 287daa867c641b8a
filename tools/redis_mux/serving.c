// The turns of the loop from the program's start to its end.
#define _GNU_SOURCE
#include "serving.h"

#include <errno.h>
#include <stdlib.h>
#include <sys/wait.h>
#include <time.h>

// For how many milliseconds clients have to read their last replies.
enum { FAREWELL = 5000 };

static int64_t milliseconds(void) {
    struct timespec now;
    clock_gettime(CLOCK_MONOTONIC, &now);
    return (int64_t)now.tv_sec * 1000 + now.tv_nsec / 1000000;
}

// Frees the clients that are gone. No turn is under way, so that nothing has one of them still to call.
static void free_gone(struct program *program) {
    struct client *client;
    while ((client = TAILQ_FIRST(&program->gone))) {
        TAILQ_REMOVE(&program->gone, client, among);
        free(client);
    }
}

// The program has ended: clients read their last replies, but not for ever.
static void take_leave(struct program *program) {
    int64_t end = milliseconds() + FAREWELL, left = FAREWELL;
    struct client *client, *next;
    program->has_stopped = true;
    loop_watch(program->loop, &program->output, 0);
    program_close_input(program);
    for (client = TAILQ_FIRST(&program->clients); client; client = next) {
        next = TAILQ_NEXT(client, among);
        client_end(client);
    }
    for (; program->client_count > 0 && left > 0; left = end - milliseconds()) {
        loop_turn(program->loop, (int)left);
        free_gone(program);
    }
}

static int status_of(pid_t process) {
    int status;
    while (waitpid(process, &status, 0) < 0)
        if (errno != EINTR) return 1;
    return WIFEXITED(status) ? WEXITSTATUS(status) : 1;
}

int serve(struct program *program) {
    while (!program->has_ended) {
        size_t seen = buffer_size(&program->unwritten) > 0 ? 0 : program->line_count;
        loop_turn(program->loop, seen > 0 ? AT_ONCE : WITHOUT_END);
        if (seen == program->line_count) program_pass_on(program);
        free_gone(program);
    }
    take_leave(program);
    return status_of(program->process);
}
