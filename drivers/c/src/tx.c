/* TX (C504): what a program calls to begin and end transactions. */
#include <limits.h>
#include <math.h>
#include <pthread.h>

#include "clock.h"
#include "process.h"
#include "session.h"

static bool was_forked;
static pthread_key_t at_end;
static pthread_once_t once = PTHREAD_ONCE_INIT;

/* ** the calling thread */

/* A call of TX. A thread that is cancelled is so after it: it may hold a lock, or read what others
 * wait for. */
#define CALL(name, work) \
    API int name(void) \
    { \
        int before; \
        pthread_setcancelstate(PTHREAD_CANCEL_DISABLE, &before); \
        int result = work(); \
        pthread_setcancelstate(before, &before); \
        return result; \
    }

/* TX_OK if the thread has called tx_open, and is within a transaction, or isn't, as it is to be. */
static int see_place(bool is_within)
{
    if (me != NULL && me->is_in_transaction == is_within)
        return TX_OK;
    explain("the thread has %s", me == NULL ? "not called tx_open" : is_within ? "no transaction" : "a transaction");
    return TX_PROTOCOL_ERROR;
}

/* TX_OK if the thread has called tx_open, and there is such a value, which it sets. */
static int see_value(long value, long most)
{
    if (me == NULL)
        return see_place(false);
    if (value >= 0 && value <= most)
        return TX_OK;
    explain("there is no such value");
    return TX_EINVAL;
}

static void leave_all(void *thread)
{
    me = thread;
    if (me->is_in_transaction)
        roll_back_transaction(TX_OK);
    me->is_in_transaction = false;
    settle();
    change_number();
    settle();
    close_lines();
    session_leave();
}

/* In a child: the connections and the coordinator are the parent's, and nothing here may touch
 * them. */
static void forked(void)
{
    was_forked = true;
    me = NULL;
    pthread_setspecific(at_end, NULL);
    process_forget();
}

static void prepare_process(void)
{
    pthread_key_create(&at_end, leave_all);
    pthread_atfork(NULL, NULL, forked);
}

/* ** tx_open, tx_close */

static int open_thread(void)
{
    if (me != NULL)
        return TX_OK;
    pthread_once(&once, prepare_process);
    if (was_forked)
        explain("the process was forked after tx_open was called in it");
    if (was_forked || !read_settings())
        return TX_FAIL;
    if (!session_join())
        return TX_ERROR;
    if (is_session_met() && are_lines_open() && pthread_setspecific(at_end, me) == 0)
        return TX_OK;
    int result = all.has_failed ? TX_FAIL : TX_ERROR;
    leave_all(me);
    return result;
}

static int close_thread(void)
{
    if (me == NULL)
        return TX_OK;
    if (see_place(false) != TX_OK)
        return TX_PROTOCOL_ERROR;
    pthread_setspecific(at_end, NULL);
    leave_all(me);
    return TX_OK;
}

CALL(tx_open, open_thread)
CALL(tx_close, close_thread)

/* ** tx_begin */

static int begin(void)
{
    int result = begin_next();

    if (result != TX_OK)
        return result == TX_ERROR && all.has_failed ? TX_FAIL : result;
    me->is_in_transaction = true;
    me->deadline = me->info.transaction_timeout > 0 ? now() + (double)me->info.transaction_timeout : INFINITY;
    return TX_OK;
}

static int begin_transaction(void)
{
    if (see_place(false) != TX_OK)
        return TX_PROTOCOL_ERROR;
    for (int rm = 0; rm < settings.rms; rm++)
        if (me->line[rm].is_local) {
            explain("%s has work outside of a transaction", settings.rm[rm].name);
            return TX_OUTSIDE;
        }
    return begin();
}

CALL(tx_begin, begin_transaction)

/* ** its end */

/* What an end returns, which begins the next transaction if they are chained. */
static int ended(int result)
{
    me->is_in_transaction = false;
    if (me->info.transaction_control != TX_CHAINED || result == TX_FAIL)
        return result;
    return begin() == TX_OK ? result : result + TX_NO_BEGIN;
}

static int commit(void)
{
    if (see_place(true) != TX_OK)
        return TX_PROTOCOL_ERROR;
    if (now() < me->deadline)
        return ended(commit_transaction());
    explain("the transaction has outlasted its %ld seconds", me->info.transaction_timeout);
    return ended(roll_back_transaction(TX_ROLLBACK));
}

static int roll_back(void)
{
    return see_place(true) != TX_OK ? TX_PROTOCOL_ERROR : ended(roll_back_transaction(TX_OK));
}

CALL(tx_commit, commit)
CALL(tx_rollback, roll_back)

/* ** what is told of it, and asked for the next */

API int tx_info(TXINFO *info)
{
    if (me == NULL)
        return see_place(false);
    if (info == NULL)
        return me->is_in_transaction;
    *info = me->info;
    if (me->is_in_transaction) {
        info->xid = me->move->xid;
        info->transaction_state = now() >= me->deadline ? TX_TIMEOUT_ROLLBACK_ONLY : is_session_over() ? TX_ROLLBACK_ONLY : TX_ACTIVE;
    }
    return me->is_in_transaction;
}

/* A decision that is logged is told by the thread's own connections: so it can't return before they
 * have answered. */
API int tx_set_commit_return(COMMIT_RETURN when_return)
{
    int result = see_value(when_return, TX_COMMIT_DECISION_LOGGED);

    if (result != TX_OK || when_return == TX_COMMIT_COMPLETED)
        return result;
    explain("tx_commit returns once the resource managers have answered");
    return TX_NOT_SUPPORTED;
}

API int tx_set_transaction_control(TRANSACTION_CONTROL control)
{
    int result = see_value(control, TX_CHAINED);

    if (result == TX_OK)
        me->info.transaction_control = control;
    return result;
}

API int tx_set_transaction_timeout(TRANSACTION_TIMEOUT timeout)
{
    int result = see_value(timeout, LONG_MAX);

    if (result == TX_OK)
        me->info.transaction_timeout = timeout;
    return result;
}
