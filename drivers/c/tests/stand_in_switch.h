/* Resource managers in memory, for the tests: they keep a journal of calls, obey the branch state
 * table (C193, chapter 6), and answer and lose what a test wants. */
#ifndef STAND_IN_SWITCH_H
#define STAND_IN_SWITCH_H
#include <stdbool.h>
#include <xa.h>

/* Its branches begin with the transaction; with the first work; and it takes TMASYNC. */
extern const struct xa_switch_t stand_in, stand_in_dynamic, stand_in_async;
extern int stand_in_identity(int rmid, const char *kept, char identity[256]);

/* Work on the thread's branch at a resource manager. False if there is none. */
bool stand_in_add(int rmid, long amount);
/* What is committed there; how many branches are prepared; how many calls came out of turn, at all
 * of them. */
long stand_in_sum(int rmid);
int stand_in_prepared(int rmid);
int stand_in_strange(void);

/* The next call of this name there is answered by the code; before that it is made, or isn't. */
void stand_in_answers(int rmid, const char *call, int code, bool is_made);
/* How long each call of this name takes there. */
void stand_in_takes(int rmid, const char *call, int milliseconds);
/* Lists a branch as prepared that nobody has begun; all are again as they were begun. */
void stand_in_lists(int rmid, const char *xid);
/* Which database it is; "" for none. */
void stand_in_is(int rmid, const char *identity);
/* The calls of the thread that asked first, since it was asked last, as "xa_start 0, xa_end 0
 * RB". */
const char *stand_in_journal(void);
#endif
