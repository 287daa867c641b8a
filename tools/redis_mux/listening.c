// Where clients come in.
#define _GNU_SOURCE
#include "listening.h"

#include "say.h"

#include <arpa/inet.h>
#include <errno.h>
#include <netinet/tcp.h>
#include <stdlib.h>
#include <string.h>
#include <sys/epoll.h>
#include <sys/socket.h>
#include <sys/stat.h>
#include <sys/un.h>
#include <unistd.h>

// How many connections wait at a socket to be let in.
enum { BACKLOG = 1024 };

static const char TOO_MANY[] = "-ERR max number of clients reached\r\n";

// The socket in the file system.
static const char *removed;

static void remove_socket(void) {
    unlink(removed);
}

static int new_socket(int family) {
    return socket(family, SOCK_STREAM | SOCK_NONBLOCK | SOCK_CLOEXEC, 0);
}

int listen_at_port(int port) {
    int listener = new_socket(AF_INET), yes = 1;
    struct sockaddr_in at = {.sin_family = AF_INET, .sin_port = htons((uint16_t)port), .sin_addr.s_addr = htonl(INADDR_LOOPBACK)};
    bool listens = listener >= 0 && setsockopt(listener, SOL_SOCKET, SO_REUSEADDR, &yes, sizeof yes) == 0;
    if (!listens || bind(listener, (struct sockaddr *)&at, sizeof at) < 0 || listen(listener, BACKLOG) < 0) fail("port %d: %s", port, strerror(errno));
    return listener;
}

// Whether a socket is there that nobody listens on.
static bool is_left_over(const struct sockaddr_un *at) {
    struct stat found;
    if (stat(at->sun_path, &found) < 0 || !S_ISSOCK(found.st_mode)) return false;
    int tried = new_socket(AF_UNIX);
    if (tried < 0) return false;
    // One whose line of connections is full has somebody.
    bool is_alone = connect(tried, (const struct sockaddr *)at, sizeof *at) < 0 && errno != EAGAIN;
    close(tried);
    return is_alone;
}

int listen_at_path(const char *path) {
    struct sockaddr_un at = {.sun_family = AF_UNIX};
    if (strlen(path) >= sizeof at.sun_path) fail("%s: AF_UNIX path too long", path);
    memcpy(at.sun_path, path, strlen(path));
    if (is_left_over(&at) && unlink(path) < 0) fail("%s: %s", path, strerror(errno));
    int listener = new_socket(AF_UNIX);
    mode_t mask = umask(077);
    bool is_bound = listener >= 0 && bind(listener, (struct sockaddr *)&at, sizeof at) == 0;
    umask(mask);
    if (!is_bound || listen(listener, BACKLOG) < 0) fail("%s: %s", path, strerror(errno));
    removed = path;
    atexit(remove_socket);
    return listener;
}

// Refuses a client for which no descriptor is left.
static void refuse(int descriptor) {
    send(descriptor, TOO_MANY, sizeof TOO_MANY - 1, MSG_NOSIGNAL);
    close(descriptor);
}

// Lets a client in, or refuses it if no descriptor is left for one; nobody comes in after a stop.
static void let_one_in(void *owner, uint32_t ready) {
    (void)ready;
    struct listener *listener = owner;
    struct program *program = listener->program;
    int yes = 1;
    if (program->has_stopped) {
        loop_watch(program->loop, &listener->watched, 0);
        return;
    }
    int descriptor = accept4(listener->watched.descriptor, NULL, NULL, SOCK_NONBLOCK | SOCK_CLOEXEC);
    if (descriptor >= 0 && program->client_count >= listener->most) {
        refuse(descriptor);
        return;
    }
    setsockopt(descriptor, IPPROTO_TCP, TCP_NODELAY, &yes, sizeof yes); // refused of a socket in the file system, which has no such wait
    // Else the client is gone, or the machine has no descriptor or memory left.
    if (descriptor < 0 || !client_start(program, descriptor)) loop_rest(program->loop, &listener->watched);
}

static void watch_again(void *owner) {
    struct listener *listener = owner;
    if (!loop_watch(listener->program->loop, &listener->watched, EPOLLIN)) fail_for_memory();
}

void let_in(struct listener *listener, struct program *program, int socket, size_t most) {
    *listener = (struct listener){.program = program, .most = most};
    listener->watched = (struct watched){.descriptor = socket, .ready = let_one_in, .again = watch_again, .owner = listener};
    watch_again(listener);
}
