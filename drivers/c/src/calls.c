/* The calls that a thread makes at the resource managers. */
#include "../beside/databases.h"
#include "thread.h"

typedef int entry(XID *, int rm, long flags);

/* A bit for each code of XA, and one for those that say that the branch is rolled back. */
#define BIT(code) (1U << ((code)-XAER_OUTSIDE))
#define ROLLBACKS (1U << 31)
#define HEURISTICS (BIT(XA_HEURMIX) | BIT(XA_HEURRB) | BIT(XA_HEURCOM) | BIT(XA_HEURHAZ))

/* By the numbers of the verbs: what answers each, by docs/MOVES.md. */
static const struct {
    const char *word;
    size_t entry; /* of the switch */
    long flags;
    unsigned answers;
} verbs[] = {
    {"prepare", offsetof(struct xa_switch_t, xa_prepare_entry), TMNOFLAGS, BIT(XA_OK) | ROLLBACKS | BIT(XA_RDONLY)},
    {"commit-at-once", offsetof(struct xa_switch_t, xa_commit_entry), TMONEPHASE, BIT(XA_OK) | ROLLBACKS | BIT(XAER_RMERR)},
    {"commit", offsetof(struct xa_switch_t, xa_commit_entry), TMNOFLAGS,
        BIT(XA_OK) | ROLLBACKS | HEURISTICS | BIT(XA_RETRY) | BIT(XAER_RMERR) | BIT(XAER_NOTA)},
    {"rollback", offsetof(struct xa_switch_t, xa_rollback_entry), TMNOFLAGS, BIT(XA_OK) | ROLLBACKS | HEURISTICS | BIT(XAER_NOTA)},
    {"undo", offsetof(struct xa_switch_t, xa_rollback_entry), TMNOFLAGS, BIT(XA_OK) | ROLLBACKS | BIT(XA_HEURRB) | BIT(XAER_NOTA)},
    {"forget", offsetof(struct xa_switch_t, xa_forget_entry), TMNOFLAGS, BIT(XA_OK) | BIT(XAER_NOTA) | BIT(XAER_RMERR)},
    {"", offsetof(struct xa_switch_t, xa_start_entry), TMNOFLAGS, BIT(XA_OK) | BIT(XAER_OUTSIDE)}, /* nobody tells to make that */
};

enum verb verb_of(const char *reply)
{
    int verb = 0;

    while (verb < START && !is_reply(reply, verbs[verb].word))
        verb++;
    return verb < START ? (enum verb)verb : NO_VERB;
}

const struct xa_switch_t *xa_of(int rm)
{
    return settings.rm[rm].xa;
}

bool is_dynamic(int rm)
{
    return (xa_of(rm)->flags & TMREGISTER) != 0;
}

/* ** lines */

static void close_line(int rm)
{
    struct rm *it = &settings.rm[rm];

    if (me->line[rm].is_open)
        it->xa->xa_close_entry(it->close, rm, TMNOFLAGS);
    me->line[rm].is_open = false;
}

bool is_rm_open(int rm)
{
    struct rm *it = &settings.rm[rm];

    if (me->line[rm].is_open)
        return true;
    int code = it->xa->xa_open_entry(it->open, rm, TMNOFLAGS);
    me->line[rm].is_open = code == XA_OK;
    if (code != XA_OK)
        explain("xa_open of %s returned %d", it->name, code);
    else if (!is_its_database(rm))
        close_line(rm);
    return me->line[rm].is_open;
}

void close_lines(void)
{
    for (int rm = 0; rm < settings.rms; rm++)
        close_line(rm);
}

void lose_line(int rm)
{
    struct line *line = &me->line[rm];

    if (line->is_active) { /* an embedded resource manager would keep it */
        xa_of(rm)->xa_end_entry(&line->xid, rm, TMFAIL);
        xa_of(rm)->xa_rollback_entry(&line->xid, rm, TMNOFLAGS);
    }
    line->is_active = false;
    if (!settings.rm[rm].is_embedded)
        close_line(rm);
}

void lose_lines(void)
{
    for (int rm = 0; rm < settings.rms; rm++)
        lose_line(rm);
}

/* ** calls that may be under way at several of them */

static bool is_rollback(int code)
{
    return code >= XA_RBBASE && code <= XA_RBEND;
}

static bool is_answer(int code, enum verb verb)
{
    bool has_bit = code >= XAER_OUTSIDE && code <= XA_NOMIGRATE;

    return (verbs[verb].answers & (is_rollback(code) ? ROLLBACKS : has_bit ? BIT(code) : 0)) != 0;
}

static void begin(int rm, enum verb verb)
{
    struct line *line = &me->line[rm];
    entry *call = *(entry *const *)((const char *)xa_of(rm) + verbs[verb].entry);
    bool is_async = (xa_of(rm)->flags & TMUSEASYNC) != 0;

    line->code = is_async ? call(&line->xid, rm, verbs[verb].flags | TMASYNC) : XAER_ASYNC;
    line->handle = is_async && line->code > 0 ? line->code : 0;
    if (line->code == XAER_ASYNC)
        line->code = call(&line->xid, rm, verbs[verb].flags);
}

void begin_call(int rm, enum verb verb)
{
    struct line *line = &me->line[rm];
    int ended = line->is_active ? xa_of(rm)->xa_end_entry(&line->xid, rm, TMSUCCESS) : XA_OK;

    line->refused = is_rollback(ended) ? ended : XA_OK;
    line->code = LOST;
    if (ended != line->refused)
        return;
    line->is_active = false;
    begin(rm, line->refused != XA_OK ? UNDO : verb);
}

int made(int rm, enum verb verb)
{
    struct line *line = &me->line[rm];

    if (line->handle > 0 && xa_of(rm)->xa_complete_entry(&line->handle, &line->code, rm, TMNOFLAGS) != XA_OK)
        line->code = XAER_RMFAIL;
    line->handle = 0;
    int code = is_answer(line->code, line->refused != XA_OK ? UNDO : verb) ? line->code : LOST;
    line->is_active = line->is_active || (verb == START && code == XA_OK);
    if (code == LOST || code == XA_RETRY)
        lose_line(rm); /* some databases let nobody end it as long as this connection is there */
    return code != LOST && line->refused != XA_OK ? line->refused : code;
}
