/* The coordinator's process: how it is started, and how it ends. There is one at a time. */
#ifndef PROCESS_H
#define PROCESS_H
#include <stdbool.h>
#include <stddef.h>

/* Gives the socket of its lines, -1 if it can't be started: a write to one that has ended can be
 * kept from ending the program (SIGPIPE). */
int process_start(char *const words[]);
/* Sees that it has ended, if it was started, and gives what it printed of errors. It is killed if
 * it hasn't ended in so many seconds. */
void process_end(double patience, char *said, size_t room);
/* In a child that was forked off: lets go of it, so that the parent's end is its end. */
void process_forget(void);
#endif
