// Who waits for the next replies of the program, in their order.
#include "queue.h"

#include <stdint.h>
#include <stdlib.h>

enum { FIRST_ROOM = 1024 };

// Doubles the room.
static bool grow(struct queue *queue) {
    if (queue->room > SIZE_MAX / 2 / sizeof *queue->places) return false;
    size_t room = queue->room ? queue->room * 2 : FIRST_ROOM;
    struct asked *places = malloc(room * sizeof *places);
    if (!places) return false;
    for (size_t at = 0; at < queue->count; at++) places[at] = queue->places[(queue->first + at) & (queue->room - 1)];
    free(queue->places);
    *queue = (struct queue){places, 0, queue->count, room};
    return true;
}

bool queue_push(struct queue *queue, struct asked asked) {
    if (queue->count == queue->room && !grow(queue)) return false;
    queue->places[(queue->first + queue->count) & (queue->room - 1)] = asked;
    queue->count++;
    return true;
}

struct asked queue_pop(struct queue *queue) {
    struct asked first = queue->places[queue->first];
    queue->first = (queue->first + 1) & (queue->room - 1);
    queue->count--;
    return first;
}
