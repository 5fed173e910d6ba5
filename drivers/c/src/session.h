/* The sessions of the process with the coordinator, one after the other, which the keeper begins
 * and ends: a thread that lives as long as a thread of the program has the resource managers open.
 * It recovers these, too. */
#ifndef SESSION_H
#define SESSION_H
#include "thread.h"

/* ** what threads of the program ask: session.c */

/* The calling thread comes, or goes: the first starts the keeper, and the last ends it. False if it
 * can't. */
bool session_join(void);
void session_leave(void);
/* Waits for the session that is up, in which the thread moves from then on. False if there is none
 * in time. */
bool is_session_met(void);
/* Waits for the next session to say it of one that was AWAITED. */
enum fate awaited_fate(void);
/* A branch is left to a recovery: the keeper looks at once. */
void note_owed(void);

/* ** what the keeper's parts share, under the lock */

extern struct all {
    pthread_t keeper;
    bool is_ending; /* the last thread has closed */
    atomic_bool is_owed; /* it is to look at once */
    atomic_bool has_failed; /* there will be no session any more, until the last thread has closed */
    int open; /* so many threads have joined: if there are any, the keeper runs */
    struct thread *threads; /* by their numbers, also those that nobody has now; 0 is the keeper's */
    char fault[512]; /* why there is no session, or never will be */
} all;

/* Why there is no session yet, or why there will be none any more. False. */
bool note_fault(bool is_final, const char *format, ...) LIKE_PRINTF(2, 3);

/* The keeper's thread: keeper.c. */
void *keep(void *unused);

/* ** place.c */

/* What may become of a log on a file system of this kind, by its number (statfs); NULL if it is
 * none of those that are no place for one. */
const char *danger_of(unsigned kind);
/* Warns of such a place of the log. */
void warn_of_place(void);

/* ** recovery.c */

/* Ends what is in doubt at a resource manager, as the coordinator says. False if some of it can't
 * be ended now. */
bool is_recovered(int rm);
/* Whether a log may be made: not if a resource manager lists a branch of its name, or can't be
 * asked. */
bool may_be_made(void);
#endif
