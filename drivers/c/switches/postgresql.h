/* A connection to PostgreSQL, and the statements that XA's calls are there. */
#ifndef POSTGRESQL_H
#define POSTGRESQL_H
#include "../include/gf_postgresql.h"
#include "held.h"

struct connection {
    struct held held;
    PGconn *link;
    /* What was sent, and what came of it: the tag of a statement that went well, and the SQLSTATE
     * of one that didn't. */
    enum step { NOTHING, STARTS, LOOKS, PREPARES, COMMITS, ROLLS_BACK, COMMITS_PREPARED, ROLLS_BACK_PREPARED } step;
    const XID *about;
    int vote;
    bool has_written; /* a statement of the branch has said so */
    char tag[24], sqlstate[6];
    bool is_null;
    /* The page of a scan that comes next. */
    PGresult *listed;
    int row;
};

/* Whether PostgreSQL has room for its text. */
bool has_text(const XID *);
/* What came of a statement of one result, which needs no COPY; NULL if it couldn't be sent. */
PGresult *asked(struct connection *, const char *statement);
/* Reads what came of a statement. False if the connection is lost, or in the midst of a COPY. */
bool is_answered(struct connection *);
/* A call by one statement: its code, or with TMASYNC a handle. */
int call(struct connection *, enum step, const char *verb, const XID *, long flags);
/* The code of the call whose statement was sent. */
int finish(struct connection *);
#endif
