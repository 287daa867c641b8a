// Who waits for the next replies of the program, in their order.
//
// Invariant: count <= room, and room is a power of two or 0; those who wait are at first, first + 1 .. modulo room. A struct of zeros is an empty queue.
#ifndef QUEUE_H
#define QUEUE_H

#include <stdbool.h>
#include <stddef.h>

struct client;

// A request that the program has: whose it is, and how many bytes.
struct asked {
    struct client *client;
    size_t size;
};

struct queue {
    struct asked *places;
    size_t first, count, room;
};

// Puts it at the end. Returns whether there was memory for it.
bool queue_push(struct queue *queue, struct asked asked);

// Takes the first of a queue that is not empty.
struct asked queue_pop(struct queue *queue);

#endif
