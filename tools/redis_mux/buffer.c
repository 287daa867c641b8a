// Bytes that come at one end and go at the other.
#include "buffer.h"

#include <stdint.h>
#include <stdlib.h>
#include <string.h>

// The room of a buffer that gets its first bytes, at least.
enum { FIRST_ROOM = 256 };

size_t buffer_size(const struct buffer *buffer) {
    return buffer->end - buffer->begin;
}

struct bytes buffer_bytes(const struct buffer *buffer) {
    static const unsigned char nothing[1];
    return (struct bytes){buffer->bytes ? buffer->bytes + buffer->begin : nothing, buffer_size(buffer)};
}

// Moves what it holds to the front.
static void move_to_front(struct buffer *buffer) {
    size_t size = buffer_size(buffer);
    memmove(buffer->bytes, buffer->bytes + buffer->begin, size);
    buffer->begin = 0;
    buffer->end = size;
}

// Gives it room for at least so many bytes in all, and twice what it had, so that many small bytes cost few moves.
static bool grow(struct buffer *buffer, size_t needed) {
    size_t room = buffer->room > SIZE_MAX / 2 ? needed : buffer->room * 2;
    if (room < needed) room = needed;
    if (room < FIRST_ROOM) room = FIRST_ROOM;
    unsigned char *bytes = realloc(buffer->bytes, room);
    if (!bytes) return false;
    buffer->bytes = bytes;
    buffer->room = room;
    return true;
}

unsigned char *buffer_space(struct buffer *buffer, size_t size) {
    if (size > buffer->room - buffer->end) {
        size_t held = buffer_size(buffer);
        if (size > SIZE_MAX - held) return NULL;
        // Moving is worth it only where as much is dropped as is moved.
        bool fits = held + size <= buffer->room && held <= buffer->begin;
        if (!fits && !grow(buffer, buffer->end > SIZE_MAX - size ? held + size : buffer->end + size)) return NULL;
        if (size > buffer->room - buffer->end) move_to_front(buffer);
    }
    return buffer->bytes + buffer->end;
}

void buffer_extend(struct buffer *buffer, size_t size) {
    buffer->end += size;
}

bool buffer_append(struct buffer *buffer, struct bytes more) {
    if (more.size == 0) return true;
    unsigned char *space = buffer_space(buffer, more.size);
    if (!space) return false;
    memcpy(space, more.at, more.size);
    buffer_extend(buffer, more.size);
    return true;
}

void buffer_drop(struct buffer *buffer, size_t size) {
    buffer->begin += size;
    if (buffer->begin == buffer->end) buffer_clear(buffer);
}

void buffer_clear(struct buffer *buffer) {
    buffer->begin = buffer->end = 0;
    if (buffer->room > KEPT_ROOM) buffer_free(buffer);
}

void buffer_free(struct buffer *buffer) {
    free(buffer->bytes);
    *buffer = (struct buffer){0};
}
