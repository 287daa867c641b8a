// A client: one connection, what has come of its requests, which of them is next, how many the program has, and which replies it has not read.
//
// Invariants: of what has come, the first 'next_size' bytes are the next request, and 0 unless that is for the program (ASK) and came as an array; one
// that came as a line is in 'line', as an array. 'asked' and 'asked_bytes' count its requests in the program's queue, so that it is freed only
// if 'asked' is 0. Once it 'is_gone' its descriptor is closed, it has no bytes, and it waits for being freed. 'text' is the next answer (SAY, END).
#ifndef CLIENT_H
#define CLIENT_H

#include "buffer.h"
#include "loop.h"

// How many requests of a client, and how many of their bytes, the program has at a time; a single one may be longer.
enum { MAX_ASKED = 64, MAX_ASKED_BYTES = 262144 };
// How many bytes are read at once.
enum { MAX_READ = 65536 };

struct program;

// What is next of a client: nothing yet, a request for the program, an answer of this process, or one that is its last.
enum next { NOTHING, ASK, SAY, END };

struct client {
    struct program *program;
    struct watched watched;
    struct buffer come, line, unread;
    size_t need; // how many bytes have to have come before it is worth another look
    enum next next;
    size_t next_size;
    const char *text;
    size_t asked, asked_bytes;
    bool is_in_line, is_called, is_over, has_ended, is_gone, in_multi, is_answered, had_unread;
    TAILQ_ENTRY(client) among, in_line, answered;
};

TAILQ_HEAD(client_list, client);

// Lets a connection in; the descriptor is the client's from then on. Returns whether there was memory for it; if not, it is closed.
bool client_start(struct program *program, int descriptor);

// Waits for more, unless enough has come, and for room for what is unread; closes what has ended and is answered.
void client_watch(struct client *client);

// Forgets what the program has not got of it.
void client_drop(struct client *client);

// Closes it once it has read what was answered; no more replies come.
void client_end(struct client *client);

void client_close(struct client *client);

// Keeps a reply of the program for it, which client_answer sends.
void client_keep(struct client *client, struct bytes reply);

// Sends it the replies that were kept, and goes on.
void client_answer(struct client *client);

// Sends it an answer of this process.
void client_say(struct client *client, const char *text);

// Goes on as far as it may now: finds the next request, answers what is not for the program, and gets in line with the rest.
void client_pump(struct client *client);

// Its turn: appends its next request to the batch, if it has not dropped it, and counts it as asked. Returns how many bytes it has.
size_t client_take(struct client *client, struct buffer *batch);

#endif
