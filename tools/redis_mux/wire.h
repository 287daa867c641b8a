// Redis's protocol, RESP2, as far as this tool looks at it: where a request and a reply end, and the first word of a request.
//
// Invariant: no function reads outside of the bytes that it is given, and each looks at every byte a bounded number of times.
#ifndef WIRE_H
#define WIRE_H

#include "buffer.h"

// The limits of the program, 'luddimpa serve': words of a request, bytes of a word, of all words, of a line that is a request, and of a line that
// announces a number.
enum { MAX_WORDS = 2001, MAX_WORD = 131072, MAX_REQUEST = 4131072, MAX_LINE = 65536, MAX_HEADER = 32 };

// Whether what was looked for is there as a whole, or in part as yet, or can't be.
enum found { WHOLE, PARTIAL, FAULT };

// What there is of a request.
struct request {
    enum found found;
    size_t size;        // how many bytes the whole one has; of a part, how many are needed before it is worth another look
    size_t words;       // of a whole one
    struct bytes first; // its first word, if it has words
    bool is_line;       // whether it is a line, and no array of bulk strings
    const char *fault;  // the error reply to what is no request within the limits
};

struct request request_at(struct bytes data);

// Appends a whole request that is a line as an array of bulk strings. Returns whether there was memory for it.
bool append_as_array(struct buffer *array, struct bytes line, size_t words);

// How far a reply was looked at: up to this place of it, and so many parts are still to end.
struct reply {
    size_t at, left;
};

// A reply that was not looked at yet.
static const struct reply NEW_REPLY = {0, 1};

// Looks on at a reply, which the bytes begin with. If it is whole, 'at' is its end.
enum found reply_at(struct bytes data, struct reply *reply);

// Where the next line ends, before its "\r\n", or the size of the bytes if none does.
size_t line_end(struct bytes data);

#endif
