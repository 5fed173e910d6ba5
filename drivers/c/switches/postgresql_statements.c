/* The statements that XA's calls are at PostgreSQL (docs/SERVE.md, "Two databases"). A branch is
 * the transaction of a connection until it is prepared, and from then on the server's, by the text
 * of its identifier. */
#include <stdio.h>
#include <string.h>

#include "answer.h"
#include "postgresql.h"
#include "xid_text.h"

enum { GID = 200 };

bool has_text(const XID *xid)
{
    char text[XID_TEXT];

    return xid->gtrid_length + xid->bqual_length <= XIDDATASIZE && strlen(text_of(xid, text)) < GID;
}

static PGresult *next_result(struct connection *c)
{
    bool is_there = true;

    while (is_there && PQisBusy(c->link)) {
        wait_for_answer(PQsocket(c->link), LONGEST_ANSWER);
        is_there = PQconsumeInput(c->link) == 1;
    }
    return PQgetResult(c->link);
}

PGresult *asked(struct connection *c, const char *statement)
{
    PGresult *last = NULL, *result;

    if (PQsendQuery(c->link, statement) != 1)
        return NULL;
    while ((result = next_result(c)) != NULL) {
        PQclear(last);
        last = result;
    }
    return last;
}

bool is_answered(struct connection *c)
{
    PGresult *result;

    c->tag[0] = c->sqlstate[0] = '\0';
    while ((result = next_result(c)) != NULL) {
        ExecStatusType status = PQresultStatus(result);
        bool is_copy = status == PGRES_COPY_IN || status == PGRES_COPY_OUT || status == PGRES_COPY_BOTH;
        const char *sqlstate = PQresultErrorField(result, PG_DIAG_SQLSTATE);
        if (status == PGRES_COMMAND_OK || status == PGRES_TUPLES_OK)
            snprintf(c->tag, sizeof c->tag, "%s", PQcmdStatus(result));
        else
            snprintf(c->sqlstate, sizeof c->sqlstate, "%s", sqlstate == NULL ? "XX000" : sqlstate);
        c->is_null = status == PGRES_TUPLES_OK && PQntuples(result) == 1 && PQgetisnull(result, 0, 0);
        PQclear(result);
        if (is_copy)
            return false;
    }
    return PQstatus(c->link) == CONNECTION_OK;
}

/* Why a branch was rolled back. */
static int vote_of(const struct connection *c)
{
    static const struct {
        const char *sqlstate;
        int code;
    } votes[] = {{"40P01", XA_RBDEADLOCK}, {"40001", XA_RBTRANSIENT}, {"55P03", XA_RBTIMEOUT}, {"57014", XA_RBTIMEOUT}};

    if (c->sqlstate[0] == '\0')
        return XA_RBROLLBACK;
    for (size_t i = 0; i < sizeof votes / sizeof votes[0]; i++)
        if (strcmp(c->sqlstate, votes[i].sqlstate) == 0)
            return votes[i].code;
    return strncmp(c->sqlstate, "23", 2) == 0 ? XA_RBINTEGRITY : XA_RBOTHER;
}

static bool is_sent(struct connection *c, enum step step, const char *verb, const XID *xid)
{
    char statement[GID + 32], text[XID_TEXT];

    snprintf(statement, sizeof statement, xid == NULL ? "%s" : "%s '%s'", verb, xid == NULL ? "" : text_of(xid, text));
    c->step = step;
    return PQsendQuery(c->link, statement) == 1;
}

/* What has no number has written nothing, and is over with its vote; else it is prepared. */
static bool goes_on(struct connection *c)
{
    bool is_right = c->sqlstate[0] == '\0';

    c->vote = is_right ? XA_RDONLY : vote_of(c);
    if (!is_right)
        return is_sent(c, ROLLS_BACK, "ROLLBACK", NULL);
    return c->is_null ? is_sent(c, COMMITS, "COMMIT", NULL) : is_sent(c, PREPARES, "PREPARE TRANSACTION", &c->held.xid);
}

/* Of a branch that is the server's. */
static int finish_prepared(struct connection *c)
{
    bool is_right = c->sqlstate[0] == '\0', is_nothing = strcmp(c->sqlstate, "42704") == 0;
    bool is_set_up_wrongly = strcmp(c->sqlstate, "0A000") == 0 || strcmp(c->sqlstate, "42501") == 0;

    if (!is_right && !is_nothing) /* another connection has it just now; or it is another database's or user's */
        return c->step == COMMITS_PREPARED && !is_set_up_wrongly ? XA_RETRY : XAER_RMFAIL;
    if (is_own(&c->held, c->about))
        c->held.state = NONE;
    return is_right ? XA_OK : XAER_NOTA;
}

/* The code of what was answered. A failed transaction is prepared and committed without an error,
 * and only the tag says that it was rolled back. */
static int code_of(struct connection *c)
{
    bool is_right = c->sqlstate[0] == '\0';

    switch (c->step) {
    case STARTS:
        c->held.state = is_right ? ACTIVE : NONE;
        return is_right ? XA_OK : XAER_RMERR;
    case PREPARES:
        if (strcmp(c->tag, "PREPARE TRANSACTION") != 0)
            return over(&c->held, vote_of(c));
        c->held.state = PREPARED;
        return XA_OK;
    case COMMITS:
        return over(&c->held, strcmp(c->tag, "COMMIT") == 0 ? c->vote : vote_of(c));
    case ROLLS_BACK:
        return over(&c->held, c->vote);
    default:
        return finish_prepared(c);
    }
}

int finish(struct connection *c)
{
    bool is_here = is_answered(c);

    while (is_here && c->step == LOOKS)
        is_here = goes_on(c) && is_answered(c);
    return is_here ? code_of(c) : over(&c->held, XAER_RMFAIL);
}

int call(struct connection *c, enum step step, const char *verb, const XID *xid, long flags)
{
    c->about = xid;
    c->vote = XA_OK;
    if (!is_sent(c, step, verb, xid))
        return over(&c->held, XAER_RMFAIL); /* lost, or without memory: nothing was done, and no code says only that */
    return flags & TMASYNC ? HANDLE : finish(c);
}
