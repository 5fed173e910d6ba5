/* Lines of moves to the coordinator, and its replies (docs/MOVES.md). */
#ifndef COORDINATOR_H
#define COORDINATOR_H
#include <pthread.h>
#include <stdatomic.h>
#include <stdbool.h>
#include <stddef.h>

#include "settings.h"
#include "xid.h"

enum {
    MOVE = 4096, /* bytes of the longest, a page, with its end */
    REPLY = 8192, /* of the longest, which names each resource manager */
    NUMBERS = 2 /* of a thread at the coordinator */
};

/* A move of a thread by one of its numbers, and what it is replied: nothing, if the coordinator is
 * gone. A thread changes its number once its transaction is committed, and tells that later: so it
 * needn't wait for the name of its next transaction, which has begun by the other number. */
struct move {
    struct move *next;
    unsigned number;
    XID xid; /* that has begun in the session: its transaction, or the next one, or all zeroes */
    pthread_cond_t *woken; /* by which its thread is woken, while it is asleep */
    bool is_alone; /* no other may stand on its line */
    bool decides; /* it is replied once the log is written */
    bool is_asked; /* its reply is yet to be looked at */
    bool ends_line, is_here;
    char text[MOVE], reply[REPLY];
};

extern struct coordinator {
    pthread_mutex_t lock; /* of all that threads share */
    pthread_cond_t changed; /* a session is up, or over; threads have come or gone; a branch is owed */
    atomic_uint session; /* how often it was started */
    atomic_bool is_gone;
    atomic_bool is_up; /* threads may begin transactions in the session */
} coordinator;

/* Waits, under the lock, until something has changed. False once it is past that moment. */
bool is_changed_by(double moment);

/* ** of the calling thread */

/* LATER: it goes with whatever is sent next, at the latest when its reply is waited for or the keeper
 * moves. DECIDING: it is replied once the log is written. */
enum haste { SOON, LATER, DECIDING };
/* Makes the next move, unless its session is over, and doesn't wait for the reply. */
void move(enum haste haste, const char *format, ...) LIKE_PRINTF(2, 3);
/* The reply to the last move; "" if the coordinator is gone, or said that it can't be. */
const char *replied(void);
bool is_session_over(void);
/* The coordinator is out of step, or gone: the thread's session is over. Gives "". */
const char *lose_session(const char *why);

/* ** its start and its end, by the keeper */

/* Starts the program, which greets by the reply that comes next (`restarted ..`). False if it can't
 * be started. */
bool coordinator_start(char *const words[]);
/* Sees that the process has ended, if there is one, and gives the first line of its errors. */
void coordinator_end(char *said, size_t room);

/* ** what stands in a reply: replies.c */

/* The number that comes next in a reply, behind a space: -1 if there is none of at most so much. */
long next_number(const char **at, long most);
/* Whether a reply begins with the word; the resource managers that it names behind that: how
 * many. */
bool is_reply(const char *reply, const char *word);
int named_in(const char *reply, int rms[MOST_RMS]);
#endif
