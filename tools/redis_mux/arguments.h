// What the command line says.
#ifndef ARGUMENTS_H
#define ARGUMENTS_H

// A port, or 0 for none; a path, or NULL for none, but one of both; and the words of the program, with a NULL behind them.
struct arguments {
    int port;
    const char *path;
    char **program;
};

// Reads the words of the command line, with its NULL. Ends the process for '--help', with status 0, and, with status 2, if they are faulty.
struct arguments arguments_of(char **words);

#endif
