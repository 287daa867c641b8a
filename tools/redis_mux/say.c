// Lines on standard error.
#include "say.h"

#include <stdarg.h>
#include <stdio.h>
#include <stdlib.h>

// A longer line is written in parts.
static char line[BUFSIZ];

static void say_all(const char *format, va_list values) {
    setvbuf(stderr, line, _IOFBF, sizeof line);
    fputs("redis-mux: ", stderr);
    vfprintf(stderr, format, values);
    fputc('\n', stderr);
    fflush(stderr);
}

void say(const char *format, ...) {
    va_list values;
    va_start(values, format);
    say_all(format, values);
    va_end(values);
}

void fail(const char *format, ...) {
    va_list values;
    va_start(values, format);
    say_all(format, values);
    va_end(values);
    exit(1);
}

void fail_for_memory(void) {
    fail("out of memory");
}
