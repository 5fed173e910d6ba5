/* A connection to MariaDB, and the statements that XA's calls are there. */
#ifndef MARIADB_H
#define MARIADB_H
#include "../include/gf_mariadb.h"
#include "held.h"

struct connection {
    struct held held;
    MYSQL *link;
    char label[65];
    enum step { NOTHING, STARTS, PREPARES, COMMITS, ROLLS_BACK, COMMITS_PREPARED, ROLLS_BACK_PREPARED } step;
    const XID *about;
    bool is_behind; /* another statement was sent ahead of it, as XA END, and is answered first */
    unsigned error; /* that it was answered by, 0 if none */
    MYSQL_RES *listed; /* what a scan goes on with */
};

/* A call by one statement, `XA <verb> <xid><tail>`: its code, or with TMASYNC a handle. */
int call(struct connection *, enum step, const char *verb, const XID *, const char *tail, long flags);
/* The code of the call whose statement was sent. */
int finish(struct connection *);
/* The branches of the server, all of them; NULL if it can't say. */
MYSQL_RES *list_of(struct connection *);
/* The next identifier of a list. False at its end. */
bool is_listed_next(MYSQL_RES *, XID *);
/* Whether the server has done a statement. */
bool is_done(MYSQL *, const char *statement);
/* The first value of the first row, to be freed; NULL if there is none. */
char *value_of(MYSQL *, const char *statement);

/* What xa_open takes. */
struct words {
    char host[65], port[8], socket[108], user[65], password[65], db[65], label[65], lock_timeout[8];
};
bool are_words_read(const char *info, struct words *);
#endif
