/* Paths, name by name. */
#ifndef PATHS_H
#define PATHS_H

#include "play.h"

/* Takes the next name of a path, or returns false if there is none left. */
bool next_name(struct bytes *path, struct bytes *name);

/* How many dots a name is: 1 or 2, and 0 if it is a name like others. */
int dots(struct bytes name);

#endif
