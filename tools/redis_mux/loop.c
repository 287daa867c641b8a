// The loop, which waits until one of its descriptors is ready.
#define _GNU_SOURCE
#include "loop.h"

#include "say.h"

#include <errno.h>
#include <string.h>
#include <sys/epoll.h>

// For how many milliseconds a listener that rests is not looked at, and how many descriptors are ready in a turn at most; others are in the next.
enum { REST = 100, MOST_READY = 1024 };

void loop_start(struct loop *loop) {
    loop->epoll = epoll_create1(EPOLL_CLOEXEC);
    if (loop->epoll < 0) fail("epoll: %s", strerror(errno));
    TAILQ_INIT(&loop->later);
    TAILQ_INIT(&loop->resting);
}

bool loop_watch(struct loop *loop, struct watched *watched, uint32_t mask) {
    if (mask == watched->mask) return true;
    struct epoll_event event = {.events = mask, .data.ptr = watched};
    int change = !mask ? EPOLL_CTL_DEL : watched->mask ? EPOLL_CTL_MOD : EPOLL_CTL_ADD;
    if (epoll_ctl(loop->epoll, change, watched->descriptor, &event) < 0 && mask) return false;
    watched->mask = mask;
    return true;
}

static void put_off(struct watched_list *list, struct watched *watched) {
    if (watched->is_put_off) return;
    watched->is_put_off = true;
    TAILQ_INSERT_TAIL(list, watched, put_off);
}

static void take_back(struct watched_list *list, struct watched *watched) {
    TAILQ_REMOVE(list, watched, put_off);
    watched->is_put_off = false;
}

void loop_call_again(struct loop *loop, struct watched *watched) {
    put_off(&loop->later, watched);
}

void loop_rest(struct loop *loop, struct watched *listener) {
    loop_watch(loop, listener, 0);
    put_off(&loop->resting, listener);
}

void loop_forget(struct loop *loop, struct watched *watched) {
    if (watched->is_put_off) take_back(&loop->later, watched);
}

// Calls those that are on the list now, and not those that come onto it meanwhile.
static void call_again(struct watched_list *list) {
    size_t count = 0;
    struct watched *it;
    TAILQ_FOREACH(it, list, put_off) count++;
    for (; count > 0 && (it = TAILQ_FIRST(list)); count--) {
        take_back(list, it);
        it->again(it->owner);
    }
}

void loop_turn(struct loop *loop, int wait) {
    struct epoll_event ready[MOST_READY];
    bool was_resting = !TAILQ_EMPTY(&loop->resting);
    if (!TAILQ_EMPTY(&loop->later)) wait = AT_ONCE;
    else if (was_resting && wait == WITHOUT_END) wait = REST;
    int count = epoll_wait(loop->epoll, ready, MOST_READY, wait);
    if (count < 0 && errno != EINTR) fail("epoll: %s", strerror(errno));
    for (int at = 0; at < count; at++) {
        struct watched *watched = ready[at].data.ptr;
        // Else one that was called before has closed it.
        if (watched->mask) watched->ready(watched->owner, ready[at].events);
    }
    call_again(&loop->later);
    if (was_resting) call_again(&loop->resting);
}
