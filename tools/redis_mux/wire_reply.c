// Where a reply ends.
#include "wire.h"

#include <stdint.h>

// The most digits of a number in a reply, so that it is below 2^63.
enum { MAX_DIGITS = 18 };

// The number of a line behind its mark; a negative one, as of no value, is -1. Returns whether it is one.
static bool number_of(struct bytes line, int64_t *number) {
    bool is_negative = line.size > 1 && line.at[1] == '-';
    size_t at = is_negative ? 2 : 1;
    if (at >= line.size || line.size - at > MAX_DIGITS) return false;
    *number = 0;
    for (; at < line.size; at++) {
        if (line.at[at] < '0' || line.at[at] > '9') return false;
        *number = *number * 10 + (line.at[at] - '0');
    }
    if (is_negative) *number = -1;
    return true;
}

// Looks at the part ahead: a line, with the bytes that it announces. If it is whole, 'end' is where it ends, and 'parts' how many parts it announces.
static enum found part_at(struct bytes ahead, size_t *end, size_t *parts) {
    size_t line = line_end(ahead);
    int64_t number = -1;
    if (line == ahead.size) return PARTIAL;
    bool is_bulk = ahead.at[0] == '$', is_array = ahead.at[0] == '*';
    if ((is_bulk || is_array) && !number_of((struct bytes){ahead.at, line}, &number)) return FAULT;
    *end = line + 2;
    *parts = is_array && number > 0 ? (size_t)number : 0;
    if (!is_bulk || number < 0) return WHOLE;
    size_t body = (size_t)number + 2;
    if (ahead.size - *end < body) return PARTIAL;
    *end += body;
    return WHOLE;
}

enum found reply_at(struct bytes data, struct reply *reply) {
    while (reply->left > 0) {
        size_t end, parts;
        enum found found = part_at((struct bytes){data.at + reply->at, data.size - reply->at}, &end, &parts);
        if (found != WHOLE) return found;
        reply->left--;
        if (parts > SIZE_MAX - reply->left) return FAULT;
        reply->left += parts;
        reply->at += end;
    }
    return WHOLE;
}
