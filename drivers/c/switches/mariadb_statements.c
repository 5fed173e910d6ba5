/* The statements that XA's calls are at MariaDB (docs/SERVE.md, "Two databases"). */
#include <stdio.h>
#include <stdlib.h>
#include <string.h>

#include "answer.h"
#include "mariadb.h"
#include "xid_text.h"

enum { STATEMENT = 640 };
/* Errors of the server, and of a connection that is lost. */
enum {
    NO_SUCH_BRANCH = 1397,
    WRONG_STATE = 1399,
    IS_OUTSIDE = 1400,
    WAS_ROLLED_BACK = 1402,
    IS_IN_USE = 1440,
    IN_TIMEOUT = 1613,
    IN_DEADLOCK = 1614
};
enum { OF_CLIENT = 2000, PAST_CLIENT = 3000, IN_SHUTDOWN = 1053, WAS_INTERRUPTED = 1317, WAS_KILLED = 1927 };

static bool is_lost(const struct connection *c)
{
    return (c->error >= OF_CLIENT && c->error < PAST_CLIENT) || c->error == IN_SHUTDOWN || c->error == WAS_INTERRUPTED
        || c->error == WAS_KILLED;
}

/* The identifier as statements have it: X'0a',X'01',7 */
static char *in_sql(const XID *xid, char text[XID_TEXT])
{
    char *at = write_hex(text + sprintf(text, "X'"), xid->data, xid->gtrid_length);

    at = write_hex(at + sprintf(at, "',X'"), xid->data + xid->gtrid_length, xid->bqual_length);
    sprintf(at, "',%ld", xid->formatID);
    return text;
}

/* Sends a statement, and reads nothing. */
static bool is_query_sent(MYSQL *link, const char *statement)
{
    return mysql_send_query(link, statement, strlen(statement)) == 0;
}

/* `XA <verb> <xid><tail>`. What has to come ahead of it is sent at once, too: the server reads on
 * once it is done with that, and both answers are read later. */
static bool is_sent(struct connection *c, enum step step, const char *verb, const XID *xid, const char *tail)
{
    char ahead[STATEMENT] = "", statement[STATEMENT], text[XID_TEXT];

    in_sql(xid, text);
    if (step == STARTS && c->held.is_dynamic)
        snprintf(ahead, sizeof ahead, "SET TRANSACTION READ WRITE");
    else if (is_own(&c->held, xid) && c->held.state == IDLE)
        snprintf(ahead, sizeof ahead, "XA END %s", text);
    snprintf(statement, sizeof statement, "XA %s %s%s", verb, text, tail);
    c->step = step;
    c->about = xid;
    c->is_behind = ahead[0] != '\0';
    return (!c->is_behind || is_query_sent(c->link, ahead)) && is_query_sent(c->link, statement);
}

/* An answer that came with the one before it is in no socket any more, so libmariadb is asked
 * first. */
static bool is_read(MYSQL *link)
{
    my_bool is_wrong;
    int wait = mysql_read_query_result_start(&is_wrong, link);

    while (wait != 0) {
        wait_for_answer(mysql_get_socket(link), LONGEST_ANSWER);
        wait = mysql_read_query_result_cont(&is_wrong, link, wait);
    }
    return !is_wrong;
}

/* Whether the statement of a call went well. Else the error is that of what came ahead of it, if
 * that has failed already. */
static bool is_answered(struct connection *c)
{
    c->error = c->is_behind && !is_read(c->link) ? mysql_errno(c->link) : 0;
    bool is_right = is_read(c->link);
    if (!is_right && c->error == 0)
        c->error = mysql_errno(c->link);
    return is_right;
}

bool is_done(MYSQL *link, const char *statement)
{
    return is_query_sent(link, statement) && is_read(link);
}

static bool is_run(struct connection *c, const char *verb, const XID *xid)
{
    char statement[STATEMENT], text[XID_TEXT];

    snprintf(statement, sizeof statement, "XA %s %s", verb, in_sql(xid, text));
    return is_done(c->link, statement);
}

/* The branch couldn't be ended as it was asked: it is rolled back, and the code says why. */
static int roll_back(struct connection *c, int code)
{
    is_run(c, "END", &c->held.xid); /* unless that was done */
    if (is_run(c, "ROLLBACK", &c->held.xid))
        return over(&c->held, code);
    unsigned error = mysql_errno(c->link);
    bool is_over = error == NO_SUCH_BRANCH || error == WAS_ROLLED_BACK || error == IN_TIMEOUT || error == IN_DEADLOCK;
    return over(&c->held, is_over ? code : XAER_RMFAIL);
}

static int vote_of(const struct connection *c)
{
    switch (c->error) {
    case IN_TIMEOUT:
        return XA_RBTIMEOUT;
    case IN_DEADLOCK:
    case WRONG_STATE: /* it says so, too, of one that was in a deadlock */
        return XA_RBDEADLOCK;
    case WAS_ROLLED_BACK:
        return XA_RBROLLBACK;
    default:
        return XA_RBOTHER;
    }
}

/* ** lists */

bool is_listed_next(MYSQL_RES *rows, XID *xid)
{
    MYSQL_ROW row = mysql_fetch_row(rows);

    if (row == NULL)
        return false;
    unsigned long length = row[3] == NULL ? 0 : mysql_fetch_lengths(rows)[3];
    long gtrid = atol(row[1]), bqual = atol(row[2]);
    *xid = (XID){.formatID = -1}; /* unless it is one */
    if (gtrid < 1 || gtrid > MAXGTRIDSIZE || bqual < 0 || bqual > MAXBQUALSIZE || (unsigned long)(gtrid + bqual) > length)
        return true;
    xid->formatID = atol(row[0]);
    xid->gtrid_length = gtrid;
    xid->bqual_length = bqual;
    memcpy(xid->data, row[3], (size_t)(gtrid + bqual));
    return true;
}

MYSQL_RES *list_of(struct connection *c)
{
    return is_done(c->link, "XA RECOVER") ? mysql_store_result(c->link) : NULL;
}

/* Whether the server lists a branch. It says that there is none, too, while another connection that
 * prepared it is still there. */
static bool is_listed(struct connection *c, const XID *xid)
{
    MYSQL_RES *rows = list_of(c);
    bool is_there = rows == NULL; /* for all that is known */
    XID it;

    while (rows != NULL && is_listed_next(rows, &it))
        is_there = is_there || is_same(&it, xid);
    mysql_free_result(rows);
    return is_there;
}

char *value_of(MYSQL *link, const char *statement)
{
    MYSQL_RES *rows = is_done(link, statement) ? mysql_store_result(link) : NULL;
    MYSQL_ROW row = rows == NULL ? NULL : mysql_fetch_row(rows);
    char *value = row == NULL || row[0] == NULL ? NULL : strdup(row[0]);

    mysql_free_result(rows);
    return value;
}

/* ** the code of what was answered */

static int finish_start(struct connection *c, bool is_right)
{
    c->held.state = is_right ? ACTIVE : NONE;
    return is_right ? XA_OK : c->error == IS_IN_USE ? XAER_DUPID : c->error == IS_OUTSIDE ? XAER_OUTSIDE : XAER_RMERR;
}

/* Of a branch that is the server's. */
static int finish_prepared(struct connection *c, bool is_right)
{
    if (!is_right && (c->error != NO_SUCH_BRANCH || is_listed(c, c->about)))
        return c->step == COMMITS_PREPARED ? XA_RETRY : XAER_RMFAIL;
    if (is_own(&c->held, c->about))
        c->held.state = NONE;
    return is_right ? XA_OK : XAER_NOTA;
}

int finish(struct connection *c)
{
    bool is_right = is_answered(c);

    if (!is_right && is_lost(c))
        return over(&c->held, XAER_RMFAIL);
    switch (c->step) {
    case STARTS:
        return finish_start(c, is_right);
    case PREPARES:
        if (!is_right)
            return roll_back(c, vote_of(c));
        c->held.state = PREPARED;
        return XA_OK;
    case COMMITS:
        return is_right ? over(&c->held, XA_OK) : roll_back(c, vote_of(c));
    case ROLLS_BACK:
        return is_right ? over(&c->held, XA_OK) : roll_back(c, XA_OK);
    default:
        return finish_prepared(c, is_right);
    }
}

int call(struct connection *c, enum step step, const char *verb, const XID *xid, const char *tail, long flags)
{
    if (!is_sent(c, step, verb, xid, tail))
        return over(&c->held, XAER_RMFAIL);
    return flags & TMASYNC ? HANDLE : finish(c);
}
