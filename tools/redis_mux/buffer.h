// Bytes that come at one end and go at the other.
//
// Invariant: begin <= end <= room; 'bytes' has so much room, and is NULL if that is 0; the bytes from begin to end are held. A struct of zeros is an
// empty buffer. Who drops all that is held gives memory of more than KEPT_ROOM bytes back.
#ifndef BUFFER_H
#define BUFFER_H

#include <stdbool.h>
#include <stddef.h>

enum { KEPT_ROOM = 16384 };

struct buffer {
    unsigned char *bytes;
    size_t begin, end, room;
};

// Some bytes of another's.
struct bytes {
    const unsigned char *at;
    size_t size;
};

// What it holds, up to the next change of the buffer.
struct bytes buffer_bytes(const struct buffer *buffer);

size_t buffer_size(const struct buffer *buffer);

// Room for so many bytes, at least 1, behind what it holds, up to the next change of the buffer; NULL, and it is as it was, if there is no memory.
unsigned char *buffer_space(struct buffer *buffer, size_t size);

// Holds so many bytes more, which were written into the room that buffer_space gave.
void buffer_extend(struct buffer *buffer, size_t size);

// Holds a copy of the bytes behind what it holds. Returns whether there was memory for it; if not, the buffer is as it was.
bool buffer_append(struct buffer *buffer, struct bytes more);

// Drops so many bytes, of those that it holds, from the front.
void buffer_drop(struct buffer *buffer, size_t size);

// Drops all that it holds.
void buffer_clear(struct buffer *buffer);

// Drops all, and gives its memory back.
void buffer_free(struct buffer *buffer);

#endif
