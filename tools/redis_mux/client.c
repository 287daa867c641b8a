// A client's connection: what comes of it, what is sent to it, and its end.
#define _GNU_SOURCE
#include "client.h"

#include "program.h"

#include <errno.h>
#include <stdlib.h>
#include <string.h>
#include <sys/epoll.h>
#include <sys/socket.h>
#include <unistd.h>

// How many bytes a client may send ahead, and how many bytes of replies it may leave unread.
enum { MAX_AHEAD = 4194304, MAX_UNREAD = 268435456 };

static void client_ready(void *owner, uint32_t ready);

static void pump_again(void *owner) {
    struct client *client = owner;
    client->is_called = false;
    client_pump(client);
}

bool client_start(struct program *program, int descriptor) {
    struct client *client = calloc(1, sizeof *client);
    if (!client) {
        close(descriptor);
        return false;
    }
    client->program = program;
    client->need = 1;
    client->watched = (struct watched){.descriptor = descriptor, .ready = client_ready, .again = pump_again, .owner = client};
    program_add(program, client);
    client_watch(client);
    return !client->is_gone;
}

void client_watch(struct client *client) {
    if (client->is_gone) return;
    bool has_unread = buffer_size(&client->unread) > 0;
    if (client->has_ended && !client->asked && client->next == NOTHING && !client->is_called && !has_unread) {
        client_close(client);
        return;
    }
    size_t ahead = buffer_size(&client->come) - client->next_size;
    bool is_enough = client->is_over || client->has_ended || ahead >= MAX_AHEAD;
    uint32_t mask = (is_enough ? 0 : EPOLLIN) | (has_unread ? EPOLLOUT : 0);
    if (!loop_watch(client->program->loop, &client->watched, mask)) client_close(client);
}

void client_drop(struct client *client) {
    client->next = NOTHING;
    client->next_size = 0;
    client->is_over = true;
    buffer_clear(&client->come);
    buffer_clear(&client->line);
}

void client_end(struct client *client) {
    client_drop(client);
    client->asked = 0;
    client->has_ended = true;
    client_watch(client);
}

void client_close(struct client *client) {
    if (client->is_gone) return;
    client_drop(client);
    client->is_gone = true;
    client->is_called = false;
    loop_watch(client->program->loop, &client->watched, 0);
    loop_forget(client->program->loop, &client->watched);
    close(client->watched.descriptor);
    buffer_free(&client->come);
    buffer_free(&client->line);
    buffer_free(&client->unread);
    program_remove(client->program, client);
}

// Sends what the connection takes now of what is unread. Returns false if the connection is gone, and then the client is closed.
static bool sends(struct client *client) {
    struct bytes unread = buffer_bytes(&client->unread);
    ssize_t sent = send(client->watched.descriptor, unread.at, unread.size, MSG_NOSIGNAL);
    if (sent >= 0) {
        buffer_drop(&client->unread, (size_t)sent);
        return true;
    }
    if (errno == EAGAIN || errno == EINTR) return true;
    client_close(client);
    return false;
}

// Sends what was put behind what is unread. A client that leaves too much unread is cut off.
static void send_on(struct client *client, bool had_unread) {
    if (!had_unread && !sends(client)) return;
    size_t left = buffer_size(&client->unread);
    if (left > MAX_UNREAD) client_close(client);
    else if (left > 0) client_watch(client);
}

void client_say(struct client *client, const char *text) {
    bool had_unread = buffer_size(&client->unread) > 0;
    if (!buffer_append(&client->unread, (struct bytes){(const unsigned char *)text, strlen(text)})) client_close(client);
    else if (*text) send_on(client, had_unread);
}

void client_keep(struct client *client, struct bytes reply) {
    if (client->is_gone) return;
    if (!client->is_answered) client->had_unread = buffer_size(&client->unread) > 0;
    client->is_answered = true;
    if (!buffer_append(&client->unread, reply)) client_close(client);
}

void client_answer(struct client *client) {
    client->is_answered = false;
    if (client->is_gone) return;
    send_on(client, client->had_unread);
    if (buffer_size(&client->come) > 0 || client->next != NOTHING || client->has_ended) client_pump(client);
}

// Reads what has come. Of what comes behind an end, or is closed, there is nothing.
static void read_on(struct client *client) {
    static unsigned char data[MAX_READ];
    ssize_t size = recv(client->watched.descriptor, data, sizeof data, 0);
    if (size < 0) {
        if (errno != EAGAIN && errno != EINTR) client_close(client);
        return;
    }
    client->has_ended = size == 0;
    if (!buffer_append(&client->come, (struct bytes){data, (size_t)size})) client_close(client);
    client_pump(client);
}

static void client_ready(void *owner, uint32_t ready) {
    struct client *client = owner;
    if (!(client->watched.mask & EPOLLOUT)) {
        read_on(client);
        return;
    }
    if (!sends(client)) return;
    client_watch(client);
    if (client->watched.mask & ready & EPOLLIN) read_on(client);
}
