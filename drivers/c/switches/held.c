/* What both switches do alike: the connections that threads hold, and what C193 says of a call
 * before it is made. */
#include "held.h"

#include <pthread.h>
#include <stddef.h>

#include "xid_text.h"

static _Thread_local struct held *of_thread;
static struct held *all;
static pthread_mutex_t lock = PTHREAD_MUTEX_INITIALIZER;
static pthread_rwlock_t made_or_ended = PTHREAD_RWLOCK_INITIALIZER;

/* A program without a transaction manager that has these may load the switch, too. */
#pragma weak ax_reg
#pragma weak ax_unreg

/* ** connections */

struct held *held_of(int rmid)
{
    struct held *it = of_thread;

    while (it != NULL && it->rmid != rmid)
        it = it->next;
    return it;
}

void hold(struct held *it)
{
    it->next = of_thread;
    of_thread = it;
    pthread_mutex_lock(&lock);
    it->next_of_all = all;
    all = it;
    pthread_mutex_unlock(&lock);
}

void let_go(struct held *it)
{
    struct held **link = &of_thread;

    while (*link != it)
        link = &(*link)->next;
    *link = it->next;
    pthread_mutex_lock(&lock);
    for (link = &all; *link != it;)
        link = &(*link)->next_of_all;
    *link = it->next_of_all;
    pthread_mutex_unlock(&lock);
}

void begin_making(void)
{
    pthread_rwlock_rdlock(&made_or_ended);
}

void end_making(void)
{
    pthread_rwlock_unlock(&made_or_ended);
}

void begin_ending(void)
{
    pthread_rwlock_wrlock(&made_or_ended);
}

void end_ending(void)
{
    pthread_rwlock_unlock(&made_or_ended);
}

void look_at_all(void (*look)(const struct held *, void *), void *with)
{
    pthread_mutex_lock(&lock);
    for (const struct held *it = all; it != NULL; it = it->next_of_all)
        look(it, with);
    pthread_mutex_unlock(&lock);
}

/* ** what C193 lets be called */

bool is_own(const struct held *it, const XID *xid)
{
    return it->state != NONE && is_same(&it->xid, xid);
}

int over(struct held *it, int code)
{
    it->state = NONE;
    return code;
}

int may_open(long flags)
{
    return flags & TMASYNC ? XAER_ASYNC : flags != TMNOFLAGS ? XAER_INVAL : XA_OK;
}

int may_close(const struct held *it, long flags)
{
    if (flags != TMNOFLAGS)
        return may_open(flags);
    return it != NULL && it->state == ACTIVE ? XAER_PROTO : XA_OK;
}

int may_start(const struct held *it, long flags)
{
    if (it == NULL || it->state != NONE || it->is_dynamic)
        return XAER_PROTO;
    return flags & ~TMASYNC ? XAER_INVAL : XA_OK;
}

int may_end(const struct held *it, const XID *xid, long flags)
{
    if (it == NULL || !is_own(it, xid))
        return it == NULL ? XAER_PROTO : XAER_NOTA;
    if (flags != TMSUCCESS && flags != TMFAIL)
        return flags & TMASYNC ? XAER_ASYNC : XAER_INVAL;
    return it->state == ACTIVE ? XA_OK : XAER_PROTO;
}

int may_prepare(const struct held *it, const XID *xid, long flags)
{
    if (it == NULL || !is_own(it, xid))
        return it == NULL ? XAER_PROTO : XAER_NOTA;
    if (flags & ~TMASYNC)
        return XAER_INVAL;
    return it->state == IDLE ? XA_OK : XAER_PROTO;
}

int may_commit(const struct held *it, const XID *xid, long flags)
{
    if (it == NULL)
        return XAER_PROTO;
    if (flags & ~(TMASYNC | TMONEPHASE))
        return XAER_INVAL;
    bool is_prepared = !is_own(it, xid) || it->state == PREPARED;
    return flags & TMONEPHASE ? (it->state == IDLE && !is_prepared ? XA_OK : XAER_PROTO) : is_prepared ? XA_OK : XAER_PROTO;
}

int may_roll_back(const struct held *it, const XID *xid, long flags)
{
    if (it == NULL)
        return XAER_PROTO;
    if (flags & ~TMASYNC)
        return XAER_INVAL;
    return is_own(it, xid) && it->state == ACTIVE ? XAER_PROTO : XA_OK;
}

int may_recover(const struct held *it, const XID *xids, long count, long flags)
{
    if (it == NULL)
        return XAER_PROTO;
    return count < 0 || (xids == NULL && count > 0) || flags & ~(TMSTARTRSCAN | TMENDRSCAN) ? XAER_INVAL : XA_OK;
}

bool is_registered(int rmid, XID *xid)
{
    if (ax_reg == NULL || ax_reg(rmid, xid, TMNOFLAGS) != TM_OK)
        return false;
    if (xid->formatID != -1)
        return true;
    ax_unreg(rmid, TMNOFLAGS);
    return false;
}
