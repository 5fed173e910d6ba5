/* PostgreSQL as a resource manager (C193), over libpq. Any transaction manager may use the
 * switches; nothing here knows of one. */
#include "postgresql.h"

#include <libpq-events.h>
#include <stdio.h>
#include <stdlib.h>
#include <string.h>
#include <unistd.h>

#include "answer.h"
#include "xid_text.h"

enum { TRIES = 1000, STATEMENT = 65536 };

static struct connection *connection_of(int rmid)
{
    return (struct connection *)held_of(rmid);
}

static bool is_true(PGresult *result, ExecStatusType status)
{
    bool is_so = PQresultStatus(result) == status;

    PQclear(result);
    return is_so;
}

/* ** xa_open, xa_close */

/* Looks at each result of the connection, also at those of the program's own statements. A branch
 * that has changed a row needn't be asked whether it has written. */
static int look_at_result(PGEventId event, void *info, void *connection)
{
    struct connection *c = connection;

    if (event != PGEVT_RESULTCREATE)
        return 1;
    PGresult *result = ((PGEventResultCreate *)info)->result;
    const char *tag = PQcmdStatus(result);
    bool is_change = strncmp(tag, "INSERT ", 7) == 0 || strncmp(tag, "UPDATE ", 7) == 0 || strncmp(tag, "DELETE ", 7) == 0;
    c->has_written = c->has_written || (is_change && atol(PQcmdTuples(result)) > 0);
    return 1;
}

/* Work outside of a branch would be committed by itself: so one that begins later finds the
 * connection read-only. */
static bool is_connected(struct connection *c, const char *info)
{
    char seconds[12];

    /* What stands in front of the settings is what holds if they don't say otherwise. */
    snprintf(seconds, sizeof seconds, "%d", LONGEST_GREETING);
    c->link = PQconnectdbParams((const char *[]){"connect_timeout", "dbname", NULL}, (const char *[]){seconds, info, NULL}, 1);
    if (PQstatus(c->link) == CONNECTION_OK && PQregisterEventProc(c->link, look_at_result, "gf_postgresql", c) == 1
        && (!c->held.is_dynamic || is_true(asked(c, "SET default_transaction_read_only = on"), PGRES_COMMAND_OK)))
        return true;
    fprintf(stderr, "gf_postgresql: %s", PQerrorMessage(c->link));
    PQfinish(c->link);
    return false;
}

static int open_connection(const char *info, int rmid, long flags, bool is_dynamic)
{
    int refused = may_open(flags);

    if (refused != XA_OK || connection_of(rmid) != NULL)
        return refused;
    struct connection *c = calloc(1, sizeof *c);
    if (c == NULL)
        return XAER_RMERR;
    c->held.rmid = rmid;
    c->held.is_dynamic = is_dynamic;
    begin_making();
    bool is_up = is_connected(c, info);
    if (is_up)
        hold(&c->held);
    end_making();
    if (!is_up)
        free(c);
    return is_up ? XA_OK : XAER_RMERR;
}

static int pg_open(char *info, int rmid, long flags)
{
    return open_connection(info, rmid, flags, false);
}

static int pg_open_dynamic(char *info, int rmid, long flags)
{
    return open_connection(info, rmid, flags, true);
}

static int pg_close(char *info, int rmid, long flags)
{
    struct connection *c = connection_of(rmid);
    bool is_lost = c != NULL && PQstatus(c->link) != CONNECTION_OK;

    (void)info;
    int refused = may_close(is_lost ? NULL : held_of(rmid), flags);
    if (refused != XA_OK || c == NULL)
        return refused;
    let_go(&c->held);
    PQclear(c->listed);
    PQfinish(c->link);
    free(c);
    return XA_OK;
}

/* ** calls on branches */

static int begin(struct connection *c, const XID *xid, long flags)
{
    if (!has_text(xid))
        return XAER_INVAL;
    if (PQtransactionStatus(c->link) == PQTRANS_INTRANS || PQtransactionStatus(c->link) == PQTRANS_INERROR)
        return XAER_OUTSIDE;
    c->held.xid = *xid;
    c->has_written = false;
    return call(c, STARTS, c->held.is_dynamic ? "BEGIN READ WRITE" : "BEGIN", NULL, flags);
}

static int pg_start(XID *xid, int rmid, long flags)
{
    struct connection *c = connection_of(rmid);
    int refused = may_start(held_of(rmid), flags);

    return refused != XA_OK ? refused : begin(c, xid, flags);
}

/* The server knows no end of the work. What the program left of results is read, so that the
 * connection is free. */
static int pg_end(XID *xid, int rmid, long flags)
{
    struct connection *c = connection_of(rmid);
    int refused = may_end(held_of(rmid), xid, flags);

    if (refused != XA_OK)
        return refused;
    c->held.state = IDLE;
    if (PQtransactionStatus(c->link) == PQTRANS_ACTIVE && !is_answered(c))
        return over(&c->held, XAER_RMFAIL);
    switch (PQtransactionStatus(c->link)) {
    case PQTRANS_INTRANS:
        return flags == TMFAIL ? XA_RBROLLBACK : XA_OK;
    case PQTRANS_INERROR:
        return XA_RBROLLBACK;
    case PQTRANS_IDLE:
        return over(&c->held, XAER_RMERR); /* the program has ended the transaction itself */
    default:
        return over(&c->held, XAER_RMFAIL);
    }
}

static int pg_prepare(XID *xid, int rmid, long flags)
{
    struct connection *c = connection_of(rmid);
    int refused = may_prepare(held_of(rmid), xid, flags);

    if (refused != XA_OK)
        return refused;
    if (c->has_written)
        return call(c, PREPARES, "PREPARE TRANSACTION", &c->held.xid, flags);
    return call(c, LOOKS, "SELECT pg_current_xact_id_if_assigned()", NULL, flags);
}

static int pg_commit(XID *xid, int rmid, long flags)
{
    struct connection *c = connection_of(rmid);
    int refused = may_commit(held_of(rmid), xid, flags);

    if (refused != XA_OK)
        return refused;
    return flags & TMONEPHASE ? call(c, COMMITS, "COMMIT", NULL, flags) : call(c, COMMITS_PREPARED, "COMMIT PREPARED", xid, flags);
}

static int pg_rollback(XID *xid, int rmid, long flags)
{
    struct connection *c = connection_of(rmid);
    int refused = may_roll_back(held_of(rmid), xid, flags);

    if (refused != XA_OK)
        return refused;
    if (is_own(&c->held, xid) && c->held.state == IDLE)
        return call(c, ROLLS_BACK, "ROLLBACK", NULL, flags);
    return call(c, ROLLS_BACK_PREPARED, "ROLLBACK PREPARED", xid, flags);
}

/* It ends no branch by itself, so there is nothing to forget. */
static int pg_forget(XID *xid, int rmid, long flags)
{
    (void)xid;
    (void)rmid;
    return flags & TMASYNC ? XAER_ASYNC : XAER_NOTA;
}

static int pg_complete(int *handle, int *retval, int rmid, long flags)
{
    struct connection *c = connection_of(rmid);

    if (c == NULL)
        return XAER_PROTO;
    if (*handle != HANDLE || c->step == NOTHING || flags & ~TMNOWAIT)
        return XAER_INVAL;
    if (flags & TMNOWAIT && PQconsumeInput(c->link) == 1 && PQisBusy(c->link))
        return XA_RETRY;
    *retval = finish(c);
    c->step = NOTHING;
    return XA_OK;
}

/* ** xa_recover */

/* A statement that grows. */
struct statement {
    char text[STATEMENT];
    size_t length;
};

static void add_own(const struct held *own, void *with)
{
    struct statement *it = with;

    if (it->length + 32 < sizeof it->text)
        it->length += (size_t)snprintf(it->text + it->length, 32, ", %d", PQbackendPID(((const struct connection *)own)->link));
}

/* Whether the server lists no more of them. */
static bool are_ended(struct connection *c, const char *statement)
{
    bool is_done = false, is_right = true;

    for (int tries = 0; tries < TRIES && is_right && !is_done; tries++) {
        PGresult *result = asked(c, statement);
        is_right = PQresultStatus(result) == PGRES_TUPLES_OK;
        is_done = is_right && PQntuples(result) == 0;
        PQclear(result);
        if (is_right && !is_done)
            usleep(20000);
    }
    return is_done;
}

/* Ends the connections of this application_name that aren't of this process, and waits until they
 * are gone: what they had under way could happen after the list is read. */
static bool are_strays_ended(struct connection *c)
{
    struct statement it = {.text = "SELECT pg_terminate_backend(pid) FROM pg_stat_activity WHERE usename = current_user"
                                   " AND datname = current_database()"
                                   " AND application_name = nullif(current_setting('application_name'), '') AND pid NOT IN (0"};

    it.length = strlen(it.text);
    begin_ending();
    look_at_all(add_own, &it);
    snprintf(it.text + it.length, sizeof it.text - it.length, ")");
    bool is_done = are_ended(c, it.text);
    end_ending();
    return is_done;
}

static bool is_list_read(struct connection *c)
{
    PQclear(c->listed);
    c->row = 0;
    c->listed =
        are_strays_ended(c) ? asked(c, "SELECT gid FROM pg_prepared_xacts WHERE database = current_database() ORDER BY gid") : NULL;
    if (PQresultStatus(c->listed) == PGRES_TUPLES_OK)
        return true;
    PQclear(c->listed);
    c->listed = NULL;
    return false;
}

static int pg_recover(XID *xids, long count, int rmid, long flags)
{
    struct connection *c = connection_of(rmid);
    int refused = may_recover(held_of(rmid), xids, count, flags), listed = 0;

    if (refused != XA_OK)
        return refused;
    if (flags & TMSTARTRSCAN && !is_list_read(c))
        return XAER_RMFAIL;
    if (c->listed == NULL)
        return XAER_INVAL;
    for (; listed < count && c->row < PQntuples(c->listed); c->row++)
        listed += xid_from(PQgetvalue(c->listed, c->row, 0), &xids[listed]); /* else it is a name that somebody else gave */
    if (flags & TMENDRSCAN) {
        PQclear(c->listed);
        c->listed = NULL;
    }
    return listed;
}

/* ** what it gives besides */

API PGconn *gf_pg_connection(int rmid)
{
    struct connection *c = connection_of(rmid);
    XID xid;

    if (c == NULL || !c->held.is_dynamic || c->held.state != NONE)
        return c == NULL ? NULL : c->link;
    return is_registered(rmid, &xid) && begin(c, &xid, TMNOFLAGS) == XA_OK ? c->link : NULL;
}

/* As the drivers in Python and Java call it. */
API int gf_pg_switch_identity(int rmid, const char *kept, char identity[256])
{
    static const char asks[] = "SELECT 'the database ' || oid || ' of the system ' || system_identifier || ' of PostgreSQL'"
                                " FROM pg_control_system(), pg_database WHERE datname = current_database()";
    struct connection *c = connection_of(rmid);
    PGresult *result = c == NULL ? NULL : asked(c, asks);
    bool is_told = PQresultStatus(result) == PGRES_TUPLES_OK && PQntuples(result) == 1;

    (void)kept;
    snprintf(identity, 256, "%s", is_told ? PQgetvalue(result, 0, 0) : "");
    PQclear(result);
    return is_told ? 0 : c != NULL && PQstatus(c->link) == CONNECTION_OK ? 1 : -1;
}

API int gf_pg_dynamic_switch_identity(int rmid, const char *kept, char identity[256])
{
    return gf_pg_switch_identity(rmid, kept, identity);
}

#define SWITCH(name_, flags_, open_) \
    { \
        .name = name_, .flags = flags_, .version = 0, .xa_open_entry = open_, .xa_close_entry = pg_close, .xa_start_entry = pg_start, \
        .xa_end_entry = pg_end, .xa_rollback_entry = pg_rollback, .xa_prepare_entry = pg_prepare, .xa_commit_entry = pg_commit, \
        .xa_recover_entry = pg_recover, .xa_forget_entry = pg_forget, .xa_complete_entry = pg_complete \
    }

API const struct xa_switch_t gf_pg_switch = SWITCH("PostgreSQL", TMNOMIGRATE | TMUSEASYNC, pg_open);
API const struct xa_switch_t gf_pg_dynamic_switch = SWITCH("PostgreSQL dynamic", TMREGISTER | TMNOMIGRATE | TMUSEASYNC, pg_open_dynamic);
