// The start of the program.
#ifndef SPAWN_H
#define SPAWN_H

#include <sys/types.h>

// A process: its number, and this side's ends of the pipes that are its standard input and output.
struct spawned {
    pid_t process;
    int input, output;
};

// Starts the program that the words name, in a session of its own, without SIGTERM and SIGINT, and with no descriptor but the standard ones. Ends this
// process, with a line that says why, if it can't be started.
struct spawned spawn(char **words);

#endif
