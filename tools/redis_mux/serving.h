// The turns of the loop from the program's start to its end.
#ifndef SERVING_H
#define SERVING_H

#include "program.h"

// Passes on what waits, once a look at all connections brings no other client that does, until the program ends; then clients have some seconds to
// read their last replies. Returns the status to end with: the program's, or 1 if a signal ended it.
int serve(struct program *program);

#endif
