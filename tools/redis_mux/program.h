// The program: the clients in line for it, who waits for its next replies, and what has come of them.
//
// Invariants: the bytes that it got are whole requests, each with its place in 'waiting' until its reply has come, except for those in 'unwritten', of
// which it gets the rest first. A client that is gone is on the list 'gone' once none of its requests is in 'waiting', and freed between two turns.
#ifndef PROGRAM_H
#define PROGRAM_H

#include "client.h"
#include "queue.h"
#include "spawn.h"
#include "wire.h"

struct program {
    struct loop *loop;
    pid_t process;
    struct watched input, output; // its input is -1 once it is closed
    struct client_list clients, line, gone;
    size_t client_count, line_count;
    struct queue waiting;
    struct buffer come, unwritten;
    struct reply reply; // the one that has come in part
    bool has_stopped, has_ended;
};

// Starts it, by these words.
void program_start(struct program *program, struct loop *loop, char **words);

// Passes on what waits, as long as the program takes it.
void program_pass_on(struct program *program);

// Ends the program's input. What it has not got is dropped.
void program_stop(struct program *program);

// Closes its input, if that is open.
void program_close_input(struct program *program);

// Counts a new client.
void program_add(struct program *program, struct client *client);

// Forgets a client that is gone, but for the requests that the program has of it.
void program_remove(struct program *program, struct client *client);

// Puts a client in line, which is not in line yet.
void program_line_up(struct program *program, struct client *client);

#endif
