// The program: what it gets, and what becomes of its replies.
#define _GNU_SOURCE
#include "program.h"

#include "say.h"

#include <errno.h>
#include <fcntl.h>
#include <string.h>
#include <sys/epoll.h>
#include <unistd.h>

// How many bytes are written to the program at once.
enum { MAX_BATCH = 1 << 20 };

static void write_on(void *owner, uint32_t ready);
static void read_on(void *owner, uint32_t ready);

void program_start(struct program *program, struct loop *loop, char **words) {
    struct spawned spawned = spawn(words);
    *program = (struct program){.loop = loop, .process = spawned.process, .reply = NEW_REPLY};
    program->input = (struct watched){.descriptor = spawned.input, .ready = write_on, .owner = program};
    program->output = (struct watched){.descriptor = spawned.output, .ready = read_on, .owner = program};
    TAILQ_INIT(&program->clients);
    TAILQ_INIT(&program->line);
    TAILQ_INIT(&program->gone);
    int flags = fcntl(spawned.input, F_GETFL);
    if (flags < 0 || fcntl(spawned.input, F_SETFL, flags | O_NONBLOCK) < 0) fail("%s: %s", words[0], strerror(errno));
    if (!loop_watch(loop, &program->output, EPOLLIN)) fail_for_memory();
}

// ---- its clients

void program_add(struct program *program, struct client *client) {
    TAILQ_INSERT_TAIL(&program->clients, client, among);
    program->client_count++;
}

void program_remove(struct program *program, struct client *client) {
    TAILQ_REMOVE(&program->clients, client, among);
    program->client_count--;
    if (client->is_in_line) {
        TAILQ_REMOVE(&program->line, client, in_line);
        program->line_count--;
        client->is_in_line = false;
    }
    if (client->asked == 0) TAILQ_INSERT_TAIL(&program->gone, client, among);
}

void program_line_up(struct program *program, struct client *client) {
    client->is_in_line = true;
    TAILQ_INSERT_TAIL(&program->line, client, in_line);
    program->line_count++;
}

// Forgets what the program has not got, and lets clients ask for nothing more.
static void drop(struct program *program) {
    struct client *client, *next;
    program->has_stopped = true;
    while ((client = TAILQ_FIRST(&program->line))) {
        TAILQ_REMOVE(&program->line, client, in_line);
        client->is_in_line = false;
    }
    program->line_count = 0;
    for (client = TAILQ_FIRST(&program->clients); client; client = next) {
        next = TAILQ_NEXT(client, among);
        client_drop(client);
        client_watch(client);
    }
}

// ---- its input

void program_close_input(struct program *program) {
    if (program->input.descriptor < 0) return;
    loop_watch(program->loop, &program->input, 0);
    close(program->input.descriptor);
    program->input.descriptor = -1;
}

// Writes what the program takes now of what was passed on. Once it has stopped, its input ends behind that.
static void write_on(void *owner, uint32_t ready) {
    (void)ready;
    struct program *program = owner;
    struct bytes unwritten = buffer_bytes(&program->unwritten);
    ssize_t size = unwritten.size ? write(program->input.descriptor, unwritten.at, unwritten.size) : 0;
    if (size >= 0) {
        buffer_drop(&program->unwritten, (size_t)size);
    } else if (errno != EAGAIN && errno != EINTR) { // it reads no more
        buffer_clear(&program->unwritten);
        drop(program);
    }
    bool is_left = buffer_size(&program->unwritten) > 0;
    if (!loop_watch(program->loop, &program->input, is_left ? EPOLLOUT : 0)) fail_for_memory();
    if (program->has_stopped && !is_left) program_close_input(program);
}

// Takes a batch of what waits: a request of each client in line, and of each that lines up again, until it has enough bytes.
static void take_batch(struct program *program) {
    struct client *client;
    while (buffer_size(&program->unwritten) < MAX_BATCH && (client = TAILQ_FIRST(&program->line))) {
        TAILQ_REMOVE(&program->line, client, in_line);
        program->line_count--;
        size_t size = client_take(client, &program->unwritten);
        if (size && !queue_push(&program->waiting, (struct asked){client, size})) fail_for_memory();
        if (size && buffer_size(&client->come) > 0) client_pump(client);
    }
}

void program_pass_on(struct program *program) {
    while (program->line_count > 0 && buffer_size(&program->unwritten) == 0) {
        take_batch(program);
        write_on(program, 0);
    }
}

void program_stop(struct program *program) {
    if (program->has_stopped) return;
    drop(program);
    write_on(program, 0);
}

// ---- its output

// Gives the reply ahead to the client that waits for it, and puts that on the list of those that are answered.
static void give(struct program *program, struct bytes reply, struct client_list *answered) {
    struct asked asked = queue_pop(&program->waiting);
    struct client *client = asked.client;
    client->asked--;
    client->asked_bytes -= asked.size;
    if (client->is_gone) {
        if (client->asked == 0) TAILQ_INSERT_TAIL(&program->gone, client, among);
        return;
    }
    if (!client->is_answered) TAILQ_INSERT_TAIL(answered, client, answered);
    client_keep(client, reply);
}

// Reads replies, and gives each client what has come of its own.
static void read_on(void *owner, uint32_t ready) {
    (void)ready;
    struct program *program = owner;
    struct client_list answered = TAILQ_HEAD_INITIALIZER(answered);
    struct client *client;
    unsigned char *space = buffer_space(&program->come, MAX_READ);
    if (!space) fail_for_memory();
    ssize_t size = read(program->output.descriptor, space, MAX_READ);
    if (size < 0 && errno == EINTR) return;
    program->has_ended = size <= 0;
    if (size > 0) buffer_extend(&program->come, (size_t)size);
    enum found found = WHOLE;
    while (program->waiting.count > 0 && (found = reply_at(buffer_bytes(&program->come), &program->reply)) == WHOLE) {
        give(program, (struct bytes){buffer_bytes(&program->come).at, program->reply.at}, &answered);
        buffer_drop(&program->come, program->reply.at);
        program->reply = NEW_REPLY;
    }
    if (found == FAULT) fail("the program's output is no reply");
    while ((client = TAILQ_FIRST(&answered))) {
        TAILQ_REMOVE(&answered, client, answered);
        client_answer(client);
    }
}
