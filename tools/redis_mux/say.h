// Lines on standard error. Each begins with the name of the tool and is written by one call, so that it stays whole beside the program's own lines.
#ifndef SAY_H
#define SAY_H

// Says a line, which is given as to printf, without its line end.
void say(const char *format, ...) __attribute__((format(printf, 1, 2)));

// The same, and ends the process with status 1.
_Noreturn void fail(const char *format, ...) __attribute__((format(printf, 1, 2)));

// Ends the process because the memory that it needs to go on is not there.
_Noreturn void fail_for_memory(void);

#endif
