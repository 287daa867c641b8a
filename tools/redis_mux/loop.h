// The loop, which waits until one of its descriptors is ready.
//
// Invariant: a watched descriptor is one of the system's set exactly if its mask is not 0. Whoever closes a descriptor stops to watch it first, and
// whoever frees a struct watched does so between two turns, since a turn may have it still to call.
#ifndef LOOP_H
#define LOOP_H

#include <stdbool.h>
#include <stdint.h>
#include <sys/queue.h>

// A descriptor, for what it is watched (EPOLLIN, EPOLLOUT), and what is called of whom once it is ready; 'again' is called once after those that are.
struct watched {
    int descriptor;
    uint32_t mask;
    void (*ready)(void *owner, uint32_t ready);
    void (*again)(void *owner);
    void *owner;
    bool is_put_off;
    TAILQ_ENTRY(watched) put_off;
};

TAILQ_HEAD(watched_list, watched);

struct loop {
    int epoll;
    struct watched_list later, resting; // disjoint: who is called again, and listeners that rest
};

// How long a turn waits.
enum { AT_ONCE = 0, WITHOUT_END = -1 };

// Ends the process if the system has no loop for it.
void loop_start(struct loop *loop);

// Waits for what the mask says of the descriptor, and for nothing of it if the mask is 0. Returns whether the system has room for it.
bool loop_watch(struct loop *loop, struct watched *watched, uint32_t mask);

// Has 'again' called once, behind all that is ready in this turn or the next.
void loop_call_again(struct loop *loop, struct watched *watched);

// Does not look at a listener for a while.
void loop_rest(struct loop *loop, struct watched *listener);

// Forgets that it was to be called again.
void loop_forget(struct loop *loop, struct watched *watched);

// Calls what is ready, each once. If nothing is, and nothing is to be called again, it waits so many milliseconds, or as long as it takes.
void loop_turn(struct loop *loop, int wait);

#endif
