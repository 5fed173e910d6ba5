/* How long an answer of a database is waited for. */
#ifndef ANSWER_H
#define ANSWER_H

/* Seconds for each call of XA, and for a connection that is made. */
enum { LONGEST_ANSWER = 60, LONGEST_GREETING = 10 };

/* Waits until a socket has something to read, for so many seconds at most. Then it is shut: whoever
 * reads from it finds the connection lost. */
void wait_for_answer(int socket, double seconds);
#endif
