/* What both switches do alike: the connections that threads hold, and what C193 says of a call
 * before it is made. */
#ifndef HELD_H
#define HELD_H
#include <stdbool.h>
#include <xa.h>

#define API __attribute__((visibility("default")))
enum { HANDLE = 1 }; /* of the one call that may be under way */

/* A connection of a thread to a resource manager, and its branch. Each switch has more behind
 * it. */
struct held {
    struct held *next, *next_of_all;
    int rmid;
    bool is_dynamic;
    enum state { NONE, ACTIVE, IDLE, PREPARED } state;
    XID xid;
};

/* That of the calling thread, NULL if it has none. */
struct held *held_of(int rmid);
void hold(struct held *);
void let_go(struct held *);
/* Looks at each of the process. */
void look_at_all(void (*look)(const struct held *, void *), void *with);
/* Between these a connection is made, and nobody ends those that he doesn't know. */
void begin_making(void);
void end_making(void);
/* Between these none is made. */
void begin_ending(void);
void end_ending(void);

bool is_own(const struct held *, const XID *);
/* Its branch is over, or the server's alone: gives the code. */
int over(struct held *, int code);

/* XA_OK if C193 lets the call be made, or else what it returns. */
int may_open(long flags);
int may_close(const struct held *, long flags);
int may_start(const struct held *, long flags);
int may_end(const struct held *, const XID *, long flags);
int may_prepare(const struct held *, const XID *, long flags);
int may_commit(const struct held *, const XID *, long flags);
int may_roll_back(const struct held *, const XID *, long flags);
int may_recover(const struct held *, const XID *, long count, long flags);

/* Registers the branch that begins, if the thread has a transaction. */
bool is_registered(int rmid, XID *);
#endif
