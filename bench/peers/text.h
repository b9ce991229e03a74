/* Requests out of the lines of standard input, and replies gathered for standard output. */
#ifndef TEXT_H
#define TEXT_H

#include "play.h"

/* The next request, or false at the end. Its paths and data stay until the next one is taken. */
bool next_request(struct request *request);

/* These add to the reply; a coded text is percent-coded. */
void put_text(const char *text);
void put_number(uint64_t number);
void put_coded(struct bytes text);

/* Writes the replies that are gathered; this is done before more is read. */
void write_replies(void);

#endif
