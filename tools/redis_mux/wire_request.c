// Where a request ends: an array of bulk strings, or a line.
#include "wire.h"

#include <stdio.h>
#include <string.h>

#define ERROR(why) "-ERR Protocol error: " why "\r\n"

// Bytes that are looked at from their beginning, up to a place of them, and what was found. Invariant: at <= data.size.
struct look {
    struct bytes data;
    size_t at;
    struct request found;
};

static bool is_partial(struct look *look, size_t needed) {
    look->found.found = PARTIAL;
    look->found.size = needed;
    return false;
}

static bool is_faulty(struct look *look, const char *fault) {
    look->found.found = FAULT;
    look->found.fault = fault;
    return false;
}

size_t line_end(struct bytes data) {
    size_t at = 0;
    while (at < data.size) {
        const unsigned char *found = memchr(data.at + at, '\r', data.size - at);
        if (!found) break;
        at = (size_t)(found - data.at);
        if (at + 1 < data.size && data.at[at + 1] == '\n') return at;
        at++;
    }
    return data.size;
}

// The number that digits are, without a zero in front of others, if it is at most so much.
static bool number_of(struct bytes digits, size_t most, size_t *number) {
    if (digits.size == 0 || (digits.size > 1 && digits.at[0] == '0')) return false;
    *number = 0;
    for (size_t at = 0; at < digits.size; at++) {
        if (digits.at[at] < '0' || digits.at[at] > '9') return false;
        *number = *number * 10 + (size_t)(digits.at[at] - '0'); // it was at most 'most', which is small
        if (*number > most) return false;
    }
    return true;
}

// Takes the line ahead, which announces a number behind a mark.
static bool takes_number(struct look *look, unsigned char mark, size_t most, const char *fault, size_t *number) {
    size_t left = look->data.size - look->at;
    struct bytes ahead = {look->data.at + look->at, left < MAX_HEADER ? left : MAX_HEADER};
    size_t end = line_end(ahead);
    if (end == ahead.size) return left < MAX_HEADER ? is_partial(look, look->data.size + 1) : is_faulty(look, ERROR("invalid length"));
    if (ahead.at[0] != mark || !number_of((struct bytes){ahead.at + 1, end - 1}, most, number)) return is_faulty(look, fault);
    look->at += end + 2;
    return true;
}

// Takes the bulk string ahead; 'total' are the bytes of those before it, and becomes those up to its end.
static bool takes_word(struct look *look, size_t *total, struct bytes *word) {
    struct bytes data = look->data;
    size_t size;
    if (look->at < data.size && data.at[look->at] != '$') return is_faulty(look, ERROR("expected '$'"));
    if (!takes_number(look, '$', MAX_WORD, ERROR("invalid bulk length"), &size)) return false;
    *total += size;
    if (*total > MAX_REQUEST) return is_faulty(look, ERROR("too big request"));
    if (data.size - look->at < size + 2) return is_partial(look, look->at + size + 2);
    if (memcmp(data.at + look->at + size, "\r\n", 2) != 0) return is_faulty(look, ERROR("expected a line end behind the bulk string"));
    *word = (struct bytes){data.at + look->at, size};
    look->at += size + 2;
    return true;
}

static void look_for_array(struct look *look) {
    size_t total = 0, count;
    struct bytes word;
    if (!takes_number(look, '*', MAX_WORDS, ERROR("invalid multibulk length"), &count)) return;
    for (size_t number = 0; number < count; number++) {
        if (!takes_word(look, &total, &word)) return;
        if (number == 0) look->found.first = word;
    }
    look->found.words = count;
    look->found.size = look->at;
}

static bool is_blank(unsigned char byte) {
    return byte == ' ' || byte == '\t' || byte == '\r';
}

// The next word of a line, which is dropped from its front, with the blanks before it; none has no bytes.
static struct bytes next_word(struct bytes *line) {
    size_t begin = 0;
    while (begin < line->size && is_blank(line->at[begin])) begin++;
    size_t end = begin;
    while (end < line->size && !is_blank(line->at[end])) end++;
    struct bytes word = {line->at + begin, end - begin};
    *line = (struct bytes){line->at + end, line->size - end};
    return word;
}

static void look_for_line(struct look *look) {
    size_t size = look->data.size;
    const unsigned char *end = memchr(look->data.at, '\n', size > MAX_LINE ? MAX_LINE + 1 : size);
    if (!end) {
        size > MAX_LINE ? is_faulty(look, ERROR("too big inline request")) : is_partial(look, size + 1);
        return;
    }
    struct request *found = &look->found;
    struct bytes line = {look->data.at, (size_t)(end - look->data.at)};
    found->is_line = true;
    found->size = line.size + 1;
    for (struct bytes word = next_word(&line); word.size; word = next_word(&line)) {
        if (found->words == 0) found->first = word;
        found->words++;
    }
    if (found->words > MAX_WORDS) is_faulty(look, ERROR("invalid multibulk length"));
}

struct request request_at(struct bytes data) {
    struct look look = {.data = data, .found = {.found = WHOLE}};
    if (data.size == 0) is_partial(&look, 1);
    else if (data.at[0] == '*') look_for_array(&look);
    else look_for_line(&look);
    return look.found;
}

// Appends the line that announces a number.
static bool append_number(struct buffer *buffer, char mark, size_t number) {
    char text[MAX_HEADER];
    int size = snprintf(text, sizeof text, "%c%zu\r\n", mark, number);
    return buffer_append(buffer, (struct bytes){(unsigned char *)text, (size_t)size});
}

bool append_as_array(struct buffer *array, struct bytes line, size_t words) {
    static const unsigned char ends[] = "\r\n";
    if (line.size > 0) line.size--; // its line feed
    bool is_whole = append_number(array, '*', words);
    for (struct bytes word = next_word(&line); is_whole && word.size; word = next_word(&line))
        is_whole = append_number(array, '$', word.size) && buffer_append(array, word) && buffer_append(array, (struct bytes){ends, 2});
    return is_whole;
}
