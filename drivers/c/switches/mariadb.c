/* MariaDB as a resource manager (C193), over libmariadb and the server's statements XA. Any
 * transaction manager may use the switches; nothing here knows of one. */
#include "mariadb.h"

#include <stdio.h>
#include <stdlib.h>
#include <string.h>
#include <unistd.h>

#include "answer.h"
#include "xid_text.h"

enum { LOCKS = 128, TRIES = 1000, NO_SUCH_TABLE = 1146 };

static struct connection *connection_of(int rmid)
{
    return (struct connection *)held_of(rmid);
}

/* ** xa_open, xa_close */

/* Takes one of the label's named locks, by which a later process knows the connection. */
static bool is_lock_taken(struct connection *c)
{
    char statement[128];

    for (unsigned long i = 0; i < LOCKS; i++) {
        unsigned long slot = (mysql_thread_id(c->link) + i) % LOCKS;
        snprintf(statement, sizeof statement, "SELECT GET_LOCK('%s.%lu', 0)", c->label, slot);
        char *value = value_of(c->link, statement);
        bool is_taken = value != NULL && strcmp(value, "1") == 0;
        free(value);
        if (is_taken)
            return true;
    }
    return false;
}

static const char *or_null(const char *text)
{
    return text[0] == '\0' ? NULL : text;
}

/* A lock that another branch has isn't waited for any longer: no database sees a deadlock that goes
 * over two. */
static bool is_timeout_set(struct connection *c, const char *seconds)
{
    char statement[64];

    snprintf(statement, sizeof statement, "SET SESSION innodb_lock_wait_timeout = %s", seconds);
    return seconds[0] == '\0' || is_done(c->link, statement);
}

/* Work outside of a branch would be committed by itself: so one that begins later finds the
 * connection read-only. */
static bool is_connected(struct connection *c, const struct words *words)
{
    unsigned seconds = LONGEST_GREETING;

    c->link = mysql_init(NULL);
    if (c->link == NULL)
        return false;
    mysql_options(c->link, MYSQL_OPT_CONNECT_TIMEOUT, &seconds);
    if (mysql_options(c->link, MYSQL_OPT_NONBLOCK, NULL) == 0
        && mysql_real_connect(c->link, or_null(words->host), words->user, words->password, or_null(words->db), (unsigned)atoi(words->port),
               or_null(words->socket), 0)
            != NULL
        && (c->label[0] == '\0' || is_lock_taken(c)) && is_timeout_set(c, words->lock_timeout)
        && (!c->held.is_dynamic || is_done(c->link, "SET SESSION TRANSACTION READ ONLY")))
        return true;
    fprintf(stderr, "gf_mariadb: %s\n", mysql_error(c->link));
    mysql_close(c->link);
    return false;
}

static int open_connection(const char *info, int rmid, long flags, bool is_dynamic)
{
    struct words words;
    int refused = may_open(flags);

    if (refused == XA_OK && !are_words_read(info, &words))
        refused = XAER_INVAL;
    if (refused != XA_OK || connection_of(rmid) != NULL)
        return refused;
    struct connection *c = calloc(1, sizeof *c);
    if (c == NULL)
        return XAER_RMERR;
    c->held.rmid = rmid;
    c->held.is_dynamic = is_dynamic;
    memcpy(c->label, words.label, sizeof c->label);
    begin_making();
    bool is_up = is_connected(c, &words);
    if (is_up)
        hold(&c->held);
    end_making();
    if (!is_up)
        free(c);
    return is_up ? XA_OK : XAER_RMERR;
}

static int mariadb_open(char *info, int rmid, long flags)
{
    return open_connection(info, rmid, flags, false);
}

static int mariadb_open_dynamic(char *info, int rmid, long flags)
{
    return open_connection(info, rmid, flags, true);
}

static int mariadb_close(char *info, int rmid, long flags)
{
    struct connection *c = connection_of(rmid);
    int refused = may_close(held_of(rmid), flags);

    (void)info;
    if (refused != XA_OK || c == NULL)
        return refused;
    let_go(&c->held);
    mysql_free_result(c->listed);
    mysql_close(c->link);
    free(c);
    return XA_OK;
}

/* ** calls on branches */

static int begin(struct connection *c, const XID *xid, long flags)
{
    c->held.xid = *xid;
    return call(c, STARTS, "START", &c->held.xid, "", flags);
}

static int mariadb_start(XID *xid, int rmid, long flags)
{
    int refused = may_start(held_of(rmid), flags);

    return refused != XA_OK ? refused : begin(connection_of(rmid), xid, flags);
}

/* It is sent with the next statement. */
static int mariadb_end(XID *xid, int rmid, long flags)
{
    int refused = may_end(held_of(rmid), xid, flags);

    if (refused != XA_OK)
        return refused;
    held_of(rmid)->state = IDLE;
    return flags == TMFAIL ? XA_RBROLLBACK : XA_OK;
}

static int mariadb_prepare(XID *xid, int rmid, long flags)
{
    int refused = may_prepare(held_of(rmid), xid, flags);

    return refused != XA_OK ? refused : call(connection_of(rmid), PREPARES, "PREPARE", xid, "", flags);
}

static int mariadb_commit(XID *xid, int rmid, long flags)
{
    int refused = may_commit(held_of(rmid), xid, flags);

    if (refused != XA_OK)
        return refused;
    if (flags & TMONEPHASE)
        return call(connection_of(rmid), COMMITS, "COMMIT", xid, " ONE PHASE", flags);
    return call(connection_of(rmid), COMMITS_PREPARED, "COMMIT", xid, "", flags);
}

static int mariadb_rollback(XID *xid, int rmid, long flags)
{
    struct connection *c = connection_of(rmid);
    int refused = may_roll_back(held_of(rmid), xid, flags);

    if (refused != XA_OK)
        return refused;
    bool is_idle = is_own(&c->held, xid) && c->held.state == IDLE;
    return call(c, is_idle ? ROLLS_BACK : ROLLS_BACK_PREPARED, "ROLLBACK", xid, "", flags);
}

/* It ends no branch by itself, so there is nothing to forget. */
static int mariadb_forget(XID *xid, int rmid, long flags)
{
    (void)xid;
    (void)rmid;
    return flags & TMASYNC ? XAER_ASYNC : XAER_NOTA;
}

static int mariadb_complete(int *handle, int *retval, int rmid, long flags)
{
    struct connection *c = connection_of(rmid);

    if (c == NULL)
        return XAER_PROTO;
    if (*handle != HANDLE || c->step == NOTHING || flags != TMNOFLAGS)
        return XAER_INVAL;
    *retval = finish(c);
    c->step = NOTHING;
    return XA_OK;
}

/* ** xa_recover */

/* Whether a connection of this number is of this process. */
struct sought {
    unsigned long number;
    bool is_found;
};

static void compare(const struct held *own, void *with)
{
    struct sought *it = with;

    it->is_found = it->is_found || mysql_thread_id(((const struct connection *)own)->link) == it->number;
}

/* The connections of this label that aren't of this process: how many; -1 if that can't be
 * asked. */
static int strays_of(struct connection *c, unsigned long found[LOCKS])
{
    char statement[LOCKS * 96] = "SELECT ";
    size_t length = strlen(statement);
    int count = 0;

    for (int slot = 0; slot < LOCKS; slot++)
        length +=
            (size_t)snprintf(statement + length, sizeof statement - length, "%sIS_USED_LOCK('%s.%d')", slot ? "," : "", c->label, slot);
    MYSQL_RES *rows = is_done(c->link, statement) ? mysql_store_result(c->link) : NULL;
    MYSQL_ROW row = rows == NULL ? NULL : mysql_fetch_row(rows);
    for (int slot = 0; row != NULL && slot < LOCKS; slot++) {
        struct sought it = {.number = row[slot] == NULL ? 0 : strtoul(row[slot], NULL, 10)};
        look_at_all(compare, &it);
        if (row[slot] != NULL && !it.is_found)
            found[count++] = it.number;
    }
    bool is_right = row != NULL;
    mysql_free_result(rows);
    return is_right ? count : -1;
}

/* Ends them, and waits until they are gone: what they had under way could happen after the list is
 * read. */
static bool are_strays_ended(struct connection *c)
{
    unsigned long found[LOCKS];
    char statement[64];
    int count = 0;

    if (c->label[0] == '\0')
        return true;
    begin_ending();
    for (int tries = 0; tries < TRIES && (count = strays_of(c, found)) > 0; tries++) {
        for (int i = 0; i < count; i++) {
            snprintf(statement, sizeof statement, "KILL CONNECTION %lu", found[i]);
            is_done(c->link, statement); /* it may have gone meanwhile */
        }
        usleep(20000);
    }
    end_ending();
    return count == 0;
}

/* It lists the branches of all databases of the server. */
static int mariadb_recover(XID *xids, long count, int rmid, long flags)
{
    struct connection *c = connection_of(rmid);
    int refused = may_recover(held_of(rmid), xids, count, flags), listed = 0;

    if (refused != XA_OK)
        return refused;
    if (flags & TMSTARTRSCAN) {
        mysql_free_result(c->listed);
        c->listed = are_strays_ended(c) ? list_of(c) : NULL;
    }
    if (c->listed == NULL)
        return flags & TMSTARTRSCAN ? XAER_RMFAIL : XAER_INVAL;
    while (listed < count && is_listed_next(c->listed, &xids[listed]))
        listed++;
    if (flags & TMENDRSCAN) {
        mysql_free_result(c->listed);
        c->listed = NULL;
    }
    return listed;
}

/* ** what it gives besides */

API MYSQL *gf_mariadb_connection(int rmid)
{
    struct connection *c = connection_of(rmid);
    XID xid;

    if (c == NULL || !c->held.is_dynamic || c->held.state != NONE)
        return c == NULL ? NULL : c->link;
    return is_registered(rmid, &xid) && begin(c, &xid, TMNOFLAGS) == XA_OK ? c->link : NULL;
}

/* What is in the view that is made in the database at its first use, to be freed; NULL if it can't
 * be made: there is no database, or no privilege. Of several that make it at once one does. */
static char *own_identity(struct connection *c)
{
    static const char asked[] = "SELECT id FROM garterfossil_identity";
    char statement[160];
    char *value = value_of(c->link, asked);

    if (value != NULL || mysql_errno(c->link) != NO_SUCH_TABLE)
        return value;
    char *drawn = value_of(c->link, "SELECT LOWER(UUID())");
    bool is_drawn = drawn != NULL && is_uuid(drawn); /* nothing else of the server gets into a statement */
    snprintf(statement, sizeof statement, "CREATE SQL SECURITY INVOKER VIEW IF NOT EXISTS garterfossil_identity AS SELECT '%.36s' AS id",
        is_drawn ? drawn : "");
    bool is_made = is_drawn && is_done(c->link, "SET SESSION TRANSACTION READ WRITE") && is_done(c->link, statement);
    free(drawn);
    if (c->held.is_dynamic)
        is_done(c->link, "SET SESSION TRANSACTION READ ONLY");
    return is_made ? value_of(c->link, asked) : NULL;
}

/* As the drivers in Python and Java call it. What the server calls itself changes with its machine,
 * so it is only taken if the database can't have a name of its own. */
API int gf_mariadb_switch_identity(int rmid, const char *kept, char identity[256])
{
    static const char asked[] = "SELECT VARIABLE_VALUE FROM information_schema.GLOBAL_VARIABLES WHERE VARIABLE_NAME = 'SERVER_UID'";
    struct connection *c = connection_of(rmid);
    bool is_by_server = kept != NULL && strncmp(kept, "the server ", 11) == 0;

    if (c == NULL)
        return -1;
    char *own = is_by_server ? NULL : own_identity(c), *server = own != NULL ? NULL : value_of(c->link, asked);
    const char *name = own != NULL ? own : server;
    snprintf(identity, 256, "the %s %s of MariaDB", own != NULL ? "database" : "server", name == NULL ? "" : name);
    bool is_told = name != NULL;
    free(own);
    free(server);
    return is_told ? 0 : mysql_ping(c->link) == 0 ? 1 : -1;
}

API int gf_mariadb_dynamic_switch_identity(int rmid, const char *kept, char identity[256])
{
    return gf_mariadb_switch_identity(rmid, kept, identity);
}

#define SWITCH(name_, flags_, open_) \
    { \
        .name = name_, .flags = flags_, .version = 0, .xa_open_entry = open_, .xa_close_entry = mariadb_close, \
        .xa_start_entry = mariadb_start, .xa_end_entry = mariadb_end, .xa_rollback_entry = mariadb_rollback, \
        .xa_prepare_entry = mariadb_prepare, .xa_commit_entry = mariadb_commit, .xa_recover_entry = mariadb_recover, \
        .xa_forget_entry = mariadb_forget, .xa_complete_entry = mariadb_complete \
    }

API const struct xa_switch_t gf_mariadb_switch = SWITCH("MariaDB", TMNOMIGRATE | TMUSEASYNC, mariadb_open);
API const struct xa_switch_t gf_mariadb_dynamic_switch =
    SWITCH("MariaDB dynamic", TMREGISTER | TMNOMIGRATE | TMUSEASYNC, mariadb_open_dynamic);
