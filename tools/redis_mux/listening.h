// Where clients come in: a port of this machine, and a socket in the file system that is its owner's alone.
#ifndef LISTENING_H
#define LISTENING_H

#include "program.h"

// A socket that listens, whose clients are let in to the program, as many at a time as there are descriptors for.
struct listener {
    struct watched watched;
    struct program *program;
    size_t most;
};

// Listens on this port of 127.0.0.1. Ends the process, with a line that says why, if the system refuses it.
int listen_at_port(int port);

// The same, on a socket that only its owner can use; takes the place of one that nobody listens on. It is removed as the process ends.
int listen_at_path(const char *path);

// Lets clients in that come to a socket. The listener is the loop's from then on.
void let_in(struct listener *listener, struct program *program, int socket, size_t most);

#endif
