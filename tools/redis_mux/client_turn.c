// A client's requests: which is next, what is to become of it, and when it has its turn.
#include "client.h"

#include "program.h"
#include "say.h"
#include "wire.h"

#include <string.h>
#include <strings.h>

static const char NO_TRANSACTIONS[] = "-ERR transactions are not supported\r\n";
static const char GOODBYE[] = "+OK\r\n";

// Whether a word is this one, in whatever case.
static bool is_word(struct bytes word, const char *name) {
    return word.size == strlen(name) && strncasecmp((const char *)word.at, name, word.size) == 0;
}

// Whether no client sends a request with this first word, but a web page.
static bool is_foreign(struct bytes word) {
    return is_word(word, "POST") || is_word(word, "HOST:");
}

static void set_next(struct client *client, enum next next, const char *text) {
    client->next = next;
    client->text = text;
    if (next == END) client->is_over = true;
}

// What is to become of a request that has words.
static void enter(struct client *client, const struct request *request) {
    struct bytes word = request->first;
    if (is_foreign(word)) {
        say("a client was cut off: a request began with %.*s", (int)word.size, (const char *)word.at);
        set_next(client, END, "");
    } else if (request->words == 1 && is_word(word, "QUIT")) {
        set_next(client, END, GOODBYE);
    } else if (client->in_multi || is_word(word, "MULTI")) {
        client->in_multi = !is_word(word, "EXEC") && !is_word(word, "DISCARD");
        set_next(client, SAY, NO_TRANSACTIONS);
    } else {
        set_next(client, ASK, NULL);
    }
}

// Makes a request that was looked at the next one: keeps it if it is for the program, and drops it otherwise.
static void take_up(struct client *client, const struct request *request) {
    client->need = 1;
    if (request->words > 0) enter(client, request);
    if (client->next == ASK && !request->is_line) {
        client->next_size = request->size;
        return;
    }
    struct bytes line = {buffer_bytes(&client->come).at, request->size};
    bool is_kept = client->next != ASK || append_as_array(&client->line, line, request->words);
    buffer_drop(&client->come, request->size);
    if (!is_kept) client_close(client);
}

// Looks for a whole request, and at what is to become of it. Returns whether there was one.
static bool finds_next(struct client *client) {
    if (client->is_over || buffer_size(&client->come) < client->need) return false;
    struct request request = request_at(buffer_bytes(&client->come));
    if (request.found == PARTIAL) client->need = request.size;
    else if (request.found == FAULT) set_next(client, END, request.fault);
    else take_up(client, &request);
    return request.found != PARTIAL;
}

// Waits for its turn, if the program may have the next request. Of a client that sends no more, and may be gone, it has one at a time.
static void get_in_line(struct client *client) {
    size_t size = client->next_size ? client->next_size : buffer_size(&client->line);
    bool fits = client->asked < MAX_ASKED && client->asked_bytes + size <= MAX_ASKED_BYTES && !client->has_ended;
    if ((fits || client->asked == 0) && !client->is_in_line) program_line_up(client->program, client);
}

static void speak(struct client *client) {
    enum next kind = client->next;
    client->next = NOTHING;
    client_say(client, client->text);
    if (kind == END && !client->is_gone) client_end(client);
}

// Goes on by one request. Returns whether another one may be looked at.
static bool goes_on(struct client *client) {
    if (client->next == NOTHING && !finds_next(client)) return false;
    if (client->next == NOTHING) return true; // a request of no words
    if (client->next == ASK) {
        get_in_line(client);
        return false;
    }
    if (client->asked > 0) return false; // its answer comes behind theirs
    speak(client);
    return true;
}

void client_pump(struct client *client) {
    if (client->is_called || client->is_gone) return;
    if (goes_on(client) && !client->is_gone) { // others have their turn first
        client->is_called = true;
        loop_call_again(client->program->loop, &client->watched);
    }
    client_watch(client);
}

size_t client_take(struct client *client, struct buffer *batch) {
    client->is_in_line = false;
    if (client->next != ASK) return 0;
    bool is_line = client->next_size == 0;
    struct bytes request = buffer_bytes(is_line ? &client->line : &client->come);
    if (!is_line) request.size = client->next_size;
    if (!buffer_append(batch, request)) fail_for_memory();
    buffer_drop(is_line ? &client->line : &client->come, request.size);
    client->next = NOTHING;
    client->next_size = 0;
    client->asked++;
    client->asked_bytes += request.size;
    return request.size;
}
