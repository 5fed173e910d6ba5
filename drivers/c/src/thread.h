/* The calling thread: its moves, its lines to the resource managers, and its transaction. */
#ifndef THREAD_H
#define THREAD_H
#include <tx.h>

#include "coordinator.h"
#include "xid.h"

/* The line to a resource manager, and the branch of the transaction there. */
struct line {
    bool is_open, is_local; /* it registered outside of a transaction */
    bool is_active;
    int handle, code;
    int refused; /* by xa_end: what it returned, if it was to be rolled back then */
    XID xid;
};

/* What becomes of a transaction whose outcome the coordinator never tells. */
enum fate { UNKNOWN, AWAITED, COMMITTED, ROLLED_BACK };

struct thread {
    unsigned session; /* in which it moves */
    bool is_taken; /* somebody has it */
    struct move moves[NUMBERS], *move; /* by its numbers at the coordinator; by which it moves now */
    bool is_in_transaction;
    int branches; /* so many the coordinator was told of */
    _Atomic enum fate fate;
    TXINFO info;
    double deadline;
    struct line line[MOST_RMS];
};

/* NULL if it hasn't called tx_open. */
extern _Thread_local struct thread *me;

/* ** calls: calls.c */

enum verb { PREPARE, COMMIT_AT_ONCE, COMMIT, ROLLBACK, UNDO, FORGET, START, NO_VERB };
enum { LOST = 2000 }; /* in place of a code: nobody knows whether the call was made */

/* The call that a reply tells to make. */
enum verb verb_of(const char *reply);
const struct xa_switch_t *xa_of(int rm);
bool is_dynamic(int rm);
/* Opens a resource manager, unless it is open. False if it can't be, or is another database than
 * the log's. */
bool is_rm_open(int rm);
/* The call of a verb begins at the resource manager, after xa_end if that wasn't made; `made`
 * waits for its code, or LOST. */
void begin_call(int rm, enum verb);
int made(int rm, enum verb);
/* The connection is lost, or can't be used any more: it is closed, unless the resource manager is
 * embedded. */
void lose_line(int rm);
void lose_lines(void);
void close_lines(void);

/* ** transactions: transaction.c */

/* Opens what isn't open. False if one can't be. */
bool are_lines_open(void);
/* The next one begins, in the session that is up. TX_OK, TX_OUTSIDE or TX_ERROR. */
int begin_next(void);
/* What tx_commit returns. */
int commit_transaction(void);
/* What tx_rollback returns, with this in place of TX_OK. */
int roll_back_transaction(int result);
/* Keeps the name of the next transaction, which the reply to the last move has. */
void settle(void);
/* Moves by its other number from now on, if it has one. */
void change_number(void);
#endif
