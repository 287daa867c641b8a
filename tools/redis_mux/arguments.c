// What the command line says.
#include "arguments.h"

#include <stdarg.h>
#include <stdbool.h>
#include <stdio.h>
#include <stdlib.h>
#include <string.h>

static const char USAGE[] = "usage: redis-mux [--unix PATH] PORT PROGRAM [ARGUMENT..]\n";
static const char HELP[] =
    "\n"
    "Many clients for one store: passes their requests in turn to one program, and each reply back to the client that asked.\n"
    "\n"
    "Listens on 127.0.0.1 only, and on the socket PATH, which only its owner can use; PORT 0 is no port, but PATH alone. The program answers RESP2 on\n"
    "its standard streams, in order, as 'luddimpa serve' does. It gets requests whole and within its limits alone, so no client ends it: a client that sends\n"
    "something else is answered with an error and cut off, one that does not read its replies is cut off, and the others notice nothing. What waits of all\n"
    "clients is passed on together, so that a program which syncs before it answers syncs once for all of it. At most 64 requests and 256 KB of a client are\n"
    "with the program at once, clients in turn; what a client asked that is gone is dropped.\n"
    "\n"
    "QUIT is answered here. MULTI is refused, and with it all that follows up to EXEC or DISCARD: none of it runs. A request that begins with POST or Host:\n"
    "comes of a web page; it and what follows are not answered, and the connection is closed. SIGTERM and SIGINT, to this process or to the program as\n"
    "well, close the program's input; what was not passed on is dropped, and the program is waited for, so that it answers what it has got, and\n"
    "clients have 5 seconds to read that. A line on standard error says where it listens. Its exit status is the program's, 1 if nothing could be started,\n"
    "2 for faulty arguments. In C, for Linux, built by its first run. Nothing is proved of it: tests/serve/run tries it.\n"
    "\n"
    "positional arguments:\n"
    "  PORT         1 to 65535, or 0 with --unix\n"
    "  PROGRAM\n"
    "  ARGUMENT\n"
    "\n"
    "options:\n"
    "  -h, --help   show this help message and exit\n"
    "  --unix PATH  listen on this socket too\n";

enum { MOST_PORT = 65535 };

__attribute__((format(printf, 1, 2)))
static _Noreturn void refuse(const char *format, ...) {
    va_list values;
    va_start(values, format);
    fprintf(stderr, "%sredis-mux: error: ", USAGE);
    vfprintf(stderr, format, values);
    fputc('\n', stderr);
    va_end(values);
    exit(2);
}

static _Noreturn void refuse_unknown(char **words, size_t count) {
    fprintf(stderr, "%sredis-mux: error: unrecognized arguments:", USAGE);
    for (size_t at = 0; at < count; at++) fprintf(stderr, " %s", words[at]);
    fputc('\n', stderr);
    exit(2);
}

// The number of a port, which may be one that there is not.
static int port_of(const char *word) {
    char *end;
    long port = strtol(word, &end, 10);
    if (end == word || *end) refuse("argument PORT: invalid int value: '%s'", word);
    return port >= 0 && port <= MOST_PORT ? (int)port : -1;
}

// Whether a word is an option, and neither a number nor a place.
static bool is_option(const char *word) {
    return word[0] == '-' && word[1] && strspn(word + 1, "0123456789") != strlen(word + 1);
}

// The path of '--unix PATH' or '--unix=PATH', whose words are ahead and are taken, or NULL if they are of another option.
static const char *path_of(char ***words) {
    static const char option[] = "--unix";
    const char *word = **words, *next = (*words)[1];
    if (strncmp(word, option, strlen(option)) != 0) return NULL;
    word += strlen(option);
    if (*word && *word != '=') return NULL;
    if (!*word && (!next || is_option(next))) refuse("argument --unix: expected one argument");
    *words += *word ? 1 : 2;
    return *word ? word + 1 : next;
}

static _Noreturn void help(void) {
    printf("%s%s", USAGE, HELP);
    exit(0);
}

struct arguments arguments_of(char **words) {
    struct arguments told = {0};
    char **unknown = words; // those that are unknown are moved to the front
    size_t unknown_count = 0;
    const char *port = NULL, *path;
    words++;
    while (*words && !told.program) {
        if (!is_option(*words)) {
            if (port) told.program = words;
            else port = *words++;
        } else if (strcmp(*words, "-h") == 0 || strcmp(*words, "--help") == 0) help();
        else if ((path = path_of(&words))) told.path = *path ? path : NULL;
        else unknown[unknown_count++] = *words++;
    }
    if (port) told.port = port_of(port);
    if (!told.program) refuse("the following arguments are required: %sPROGRAM, ARGUMENT", port ? "" : "PORT, ");
    if (unknown_count) refuse_unknown(unknown, unknown_count);
    if (told.port < (told.path ? 0 : 1)) refuse("PORT is 1 to 65535, or 0 with --unix");
    return told;
}
