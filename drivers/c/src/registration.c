/* What a resource manager calls to register a branch dynamically (C193, chapter 4). */
#include "session.h"

API int ax_reg(int rmid, XID *xid, long flags)
{
    int before;

    if (xid == NULL || flags != TMNOFLAGS || rmid < 0 || rmid >= settings.rms)
        return TMER_INVAL;
    if (me == NULL || !is_dynamic(rmid) || me->line[rmid].is_local || me->line[rmid].is_active)
        return TMER_PROTO;
    if (!me->is_in_transaction) {
        me->line[rmid].is_local = true;
        *xid = (XID){.formatID = -1};
        return TM_OK;
    }
    if (is_session_over())
        return TMER_TMERR;
    me->line[rmid].xid = *xid = branch_of(&me->move->xid, me->move->number, rmid);
    me->line[rmid].is_active = true;
    me->branches++;
    /* A thread that is cancelled is so behind it: it may write what others wait for. */
    pthread_setcancelstate(PTHREAD_CANCEL_DISABLE, &before);
    move(SOON, "join %u %d", me->move->number, rmid);
    pthread_setcancelstate(before, &before);
    return TM_OK;
}

API int ax_unreg(int rmid, long flags)
{
    if (flags != TMNOFLAGS || rmid < 0 || rmid >= settings.rms)
        return TMER_INVAL;
    if (me == NULL || me->is_in_transaction || !me->line[rmid].is_local)
        return TMER_PROTO;
    me->line[rmid].is_local = false;
    return TM_OK;
}
