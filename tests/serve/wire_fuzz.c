// Bytes at random where tools/redis-mux looks for the ends of requests and replies, for clang's libFuzzer. By hand, and not in the gate:
//
//     clang -std=c11 -g -O1 -fsanitize=fuzzer,address,undefined -fno-sanitize-recover=all -o fuzz tests/serve/wire_fuzz.c tools/redis_mux/{wire_*,buffer}.c
//     ./fuzz -max_total_time=300 -max_len=4096
//
// The sanitizers find a byte that is read outside of those that came. Beside that: what is whole ends within them, what is partial needs more of them, a
// request in full is found in no part of it, a line becomes an array of the same words, and a reply ends at one place, in whatever parts it comes.
#include "../../tools/redis_mux/wire.h"

#include <stdint.h>
#include <stdlib.h>
#include <string.h>

static void is_so(bool it) {
    if (!it) abort();
}

// The beginning of some bytes, as memory of its own, so that a byte behind it is nobody's.
static struct bytes beginning(const unsigned char *at, size_t size) {
    unsigned char *copy = malloc(size ? size : 1);
    is_so(copy != NULL);
    memcpy(copy, at, size);
    return (struct bytes){copy, size};
}

static void try_line(struct bytes data, struct request request) {
    struct buffer array = {0};
    is_so(append_as_array(&array, (struct bytes){data.at, request.size}, request.words));
    struct request again = request_at(buffer_bytes(&array));
    is_so(again.found == WHOLE && !again.is_line && again.size == buffer_size(&array) && again.words == request.words);
    is_so(again.words == 0 || (again.first.size == request.first.size && memcmp(again.first.at, request.first.at, again.first.size) == 0));
    buffer_free(&array);
}

static void try_part(struct bytes data, size_t size) {
    struct bytes part = beginning(data.at, size);
    struct request request = request_at(part);
    is_so(request.found != WHOLE);
    is_so(request.found != PARTIAL || request.size > size);
    free((void *)part.at);
}

static void try_requests(struct bytes data) {
    struct request request;
    while ((request = request_at(data)).found == WHOLE) {
        is_so(request.size > 0 && request.size <= data.size && request.words <= MAX_WORDS);
        if (request.words) is_so(request.first.at >= data.at && request.first.at + request.first.size <= data.at + request.size);
        if (request.is_line) try_line(data, request);
        for (size_t size = 0; size < request.size; size += 1 + size / 4) try_part(data, size);
        data = (struct bytes){data.at + request.size, data.size - request.size};
    }
    is_so(request.found == FAULT ? request.fault != NULL : request.size > data.size);
}

static void try_replies(struct bytes data, size_t step) {
    struct reply at_once = NEW_REPLY, in_parts = NEW_REPLY;
    enum found wanted = reply_at(data, &at_once), found = PARTIAL;
    for (size_t size = 0; found == PARTIAL && size < data.size; size += step) {
        struct bytes part = beginning(data.at, size);
        found = reply_at(part, &in_parts);
        is_so(in_parts.at <= size);
        free((void *)part.at);
    }
    if (found == PARTIAL) found = reply_at(data, &in_parts);
    is_so(found == wanted);
    if (found == WHOLE) is_so(in_parts.at == at_once.at && at_once.at <= data.size);
}

int LLVMFuzzerTestOneInput(const uint8_t *at, size_t size) {
    try_requests((struct bytes){at, size});
    try_replies((struct bytes){at, size}, 1 + size / 16);
    return 0;
}
