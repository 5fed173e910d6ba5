/* How answers of resource managers are told to the coordinator and to the program (docs/MOVES.md). */
#include <stdio.h>
#include <string.h>

#include "story.h"

static const char dynamic_rms[] = "rm a - stand_in_dynamic x\nrm b - stand_in_dynamic x\n";

/* A call of `a` that is answered so, whether it was made; what the program gets, and what the
 * coordinator is told of both; and whether both committed. */
struct row {
    const char *call;
    int code;
    bool is_made;
    int result;
    const char *told;
    bool is_committed;
};

static void see_row(const struct row *it, int (*end)(void))
{
    char what[80], told[80];
    long before = stand_in_sum(1);

    snprintf(what, sizeof what, "%s %d%s: %s", it->call, it->code, it->is_made ? ", made" : "", it->told);
    snprintf(told, sizeof told, "%s\n", it->told);
    BEGIN(5);
    stand_in_answers(0, it->call, it->code, it->is_made);
    see_number(__FILE__, __LINE__, what, end(), it->result);
    IS(is_settled(), true);
    see_number(__FILE__, __LINE__, what, stand_in_sum(1) - before, it->is_committed ? 5 : 0);
    IS(tx_begin(), TX_OK); /* what was told before is with the coordinator by then */
    IS(tx_rollback(), TX_OK);
    see_number(__FILE__, __LINE__, what, count_told(told) > 0, true);
    IS(tx_close(), TX_OK);
    remove(path_of("log.moves"));
    IS(tx_open(), TX_OK);
}

static void see_rows(const struct row *rows, size_t count, int (*end)(void))
{
    IS(tx_open(), TX_OK);
    for (size_t i = 0; i < count; i++)
        see_row(&rows[i], end);
}
#define ROWS(rows, end) see_rows(rows, sizeof rows / sizeof rows[0], end)

static void of_end(void)
{
    static const struct row rows[] = {{"xa_end", XA_RBROLLBACK, true, TX_ROLLBACK, "prepare: tell 1 100 0", false},
        {"xa_end", XA_RBTRANSIENT, true, TX_ROLLBACK, "prepare: tell 1 107 0", false},
        {"xa_end", XAER_NOTA, false, TX_ROLLBACK, "prepare: tell 1 lost 0", false},
        {"xa_end", XAER_RMFAIL, false, TX_ROLLBACK, "prepare: tell 1 lost 0", false},
        {"xa_end", XAER_RMERR, false, TX_ROLLBACK, "prepare: tell 1 lost 0", false}};

    ROWS(rows, tx_commit);
}

static void of_prepare(void)
{
    static const struct row rows[] = {{"xa_prepare", XA_RBROLLBACK, false, TX_ROLLBACK, "prepare: tell 1 100 0", false},
        {"xa_prepare", XA_RBTRANSIENT, false, TX_ROLLBACK, "prepare: tell 1 107 0", false},
        {"xa_prepare", XAER_NOTA, false, TX_ROLLBACK, "prepare: tell 1 lost 0", false},
        {"xa_prepare", XAER_RMERR, false, TX_ROLLBACK, "prepare: tell 1 lost 0", false},
        {"xa_prepare", XAER_RMFAIL, false, TX_ROLLBACK, "prepare: tell 1 lost 0", false},
        {"xa_prepare", XAER_RMFAIL, true, TX_ROLLBACK, "prepare: tell 1 lost 0", false}};

    ROWS(rows, tx_commit);
}

static void of_commit(void)
{
    static const struct row rows[] = {{"xa_commit", XA_OK, true, TX_OK, "commit: tell 1 0 0", true},
        {"xa_commit", XA_RETRY, false, TX_OK, "commit: tell 1 4 0", true},
        {"xa_commit", XA_HEURMIX, true, TX_MIXED, "commit: tell 1 5 0", true},
        {"xa_commit", XA_HEURRB, true, TX_MIXED, "commit: tell 1 6 0", true},
        {"xa_commit", XA_HEURCOM, true, TX_OK, "commit: tell 1 7 0", true},
        {"xa_commit", XA_HEURHAZ, true, TX_HAZARD, "commit: tell 1 8 0", true},
        {"xa_commit", XAER_NOTA, true, TX_HAZARD, "commit: tell 1 -4 0", true},
        {"xa_commit", XA_RBROLLBACK, false, TX_MIXED, "commit: tell 1 100 0", true},
        {"xa_commit", XAER_RMERR, false, TX_MIXED, "commit: tell 1 -3 0", true},
        {"xa_commit", XAER_RMFAIL, false, TX_OK, "commit: tell 1 lost 0", true},
        {"xa_commit", XAER_RMFAIL, true, TX_OK, "commit: tell 1 lost 0", true},
        {"xa_commit", XAER_PROTO, false, TX_OK, "commit: tell 1 lost 0", true}};

    ROWS(rows, tx_commit);
}

/* Of `b` that votes no, so that `a` is rolled back once it is prepared. */
static int commit_against_b(void)
{
    stand_in_answers(1, "xa_prepare", XA_RBDEADLOCK, false);
    return tx_commit();
}

static void of_rollback_once_prepared(void)
{
    static const struct row rows[] = {{"xa_rollback", XA_OK, true, TX_ROLLBACK, "rollback: tell 1 0", false},
        {"xa_rollback", XA_RBROLLBACK, true, TX_ROLLBACK, "rollback: tell 1 100", false},
        {"xa_rollback", XA_HEURMIX, true, TX_MIXED, "rollback: tell 1 5", false},
        {"xa_rollback", XA_HEURRB, true, TX_ROLLBACK, "rollback: tell 1 6", false},
        {"xa_rollback", XA_HEURCOM, true, TX_MIXED, "rollback: tell 1 7", false},
        {"xa_rollback", XA_HEURHAZ, true, TX_HAZARD, "rollback: tell 1 8", false},
        {"xa_rollback", XAER_NOTA, true, TX_HAZARD, "rollback: tell 1 -4", false},
        {"xa_rollback", XAER_RMERR, false, TX_ROLLBACK, "rollback: tell 1 lost", false},
        {"xa_rollback", XAER_RMFAIL, false, TX_ROLLBACK, "rollback: tell 1 lost", false},
        {"xa_rollback", XAER_RMFAIL, true, TX_ROLLBACK, "rollback: tell 1 lost", false}};

    ROWS(rows, commit_against_b);
}

static void of_rollback(void)
{
    static const struct row rows[] = {{"xa_rollback", XA_OK, true, TX_OK, "undo: tell 1 0 0", false},
        {"xa_rollback", XA_RBTIMEOUT, true, TX_OK, "undo: tell 1 106 0", false},
        {"xa_rollback", XA_HEURRB, true, TX_OK, "undo: tell 1 6 0", false},
        {"xa_rollback", XAER_NOTA, true, TX_OK, "undo: tell 1 -4 0", false},
        {"xa_rollback", XAER_RMFAIL, false, TX_OK, "undo: tell 1 lost 0", false},
        {"xa_end", XA_RBTIMEOUT, true, TX_OK, "undo: tell 1 106 0", false},
        {"xa_end", XAER_RMFAIL, false, TX_OK, "undo: tell 1 lost 0", false}};

    ROWS(rows, tx_rollback);
}

/* A branch alone is committed in one phase. */
static void of_one_phase(void)
{
    static const struct {
        int code;
        bool is_made;
        int result;
    } rows[] = {{XA_OK, true, TX_OK}, {XA_RBROLLBACK, false, TX_ROLLBACK}, {XA_RBTRANSIENT, false, TX_ROLLBACK},
        {XAER_RMERR, false, TX_ROLLBACK}, {XA_HEURMIX, true, TX_HAZARD}, {XA_HEURRB, false, TX_HAZARD}, {XA_HEURCOM, true, TX_HAZARD},
        {XA_HEURHAZ, true, TX_HAZARD}, {XAER_NOTA, true, TX_HAZARD}, {XAER_RMFAIL, true, TX_HAZARD}, {XAER_RMFAIL, false, TX_HAZARD},
        {XAER_PROTO, false, TX_HAZARD}};

    set_up(dynamic_rms, NULL);
    IS(tx_open(), TX_OK);
    for (size_t i = 0; i < sizeof rows / sizeof rows[0]; i++) {
        long before = stand_in_sum(0);
        IS(tx_begin(), TX_OK);
        IS(stand_in_add(0, 1), true);
        stand_in_answers(0, "xa_commit", rows[i].code, rows[i].is_made);
        IS(tx_commit(), rows[i].result);
        IS(stand_in_sum(0) - before, rows[i].is_made);
    }
    IS(tx_begin(), TX_OK);
    IS(stand_in_add(0, 1), true);
    stand_in_answers(0, "xa_end", XA_RBDEADLOCK, true);
    IS(tx_commit(), TX_ROLLBACK);
    IS(tx_begin(), TX_OK);
}

static void of_start(void)
{
    IS(tx_open(), TX_OK);
    stand_in_answers(1, "xa_start", XAER_OUTSIDE, false);
    IS(tx_begin(), TX_OUTSIDE);
    stand_in_answers(1, "xa_start", XAER_DUPID, false);
    IS(tx_begin(), TX_ERROR);
    stand_in_answers(0, "xa_start", XAER_RMFAIL, false);
    IS(tx_begin(), TX_ERROR);
    BEGIN(5);
    IS(tx_commit(), TX_OK);
    IS(stand_in_sum(1), 5);
}

static void of_open(void)
{
    stand_in_answers(1, "xa_open", XA_OK, true); /* the keeper's */
    stand_in_answers(1, "xa_open", XAER_RMERR, false);
    IS(tx_open(), TX_ERROR);
    IS(tx_open(), TX_OK);
    BEGIN(5);
    IS(tx_commit(), TX_OK);
}

/* The end that a resource manager chose is forgotten there, too. */
static void of_forget(void)
{
    IS(tx_open(), TX_OK);
    BEGIN(5);
    stand_in_answers(0, "xa_commit", XA_HEURRB, true);
    stand_in_journal();
    IS(tx_commit(), TX_MIXED);
    SAYS(stand_in_journal(), "xa_end 0, xa_prepare 0, xa_end 1, xa_prepare 1, xa_commit 0, xa_commit 1, xa_forget 0");
    IS(tx_close(), TX_OK);
    IS(count_told("forget: tell 1 0\n"), 1);
}

/* The keeper commits it later, and no connection is in its way. */
static void of_a_commit_for_later(void)
{
    IS(tx_open(), TX_OK);
    BEGIN(5);
    stand_in_answers(0, "xa_commit", XA_RETRY, false);
    stand_in_journal();
    IS(tx_commit(), TX_OK);
    SAYS(stand_in_journal(), "xa_end 0, xa_prepare 0, xa_end 1, xa_prepare 1, xa_commit 0, xa_commit 1, xa_close 0");
    BEGIN(5);
    IS(tx_commit(), TX_OK);
    IS(is_settled(), true);
    IS(stand_in_sum(0), -10);
}

/* It can't have listed more than there is room for. */
static void of_recover(void)
{
    static const int codes[] = {33, 1000000, XAER_RMFAIL, XAER_RMERR};

    IS(tx_open(), TX_OK);
    for (size_t i = 0; i < sizeof codes / sizeof codes[0]; i++) {
        BEGIN(5);
        stand_in_answers(1, "xa_commit", XAER_RMFAIL, false);
        stand_in_answers(1, "xa_recover", codes[i], false);
        IS(tx_commit(), TX_OK);
        IS(is_settled(), true);
    }
    IS(stand_in_sum(1), 5 * 4);
}

const struct story of_answers[] = {{"answers to xa_end", of_end}, {"answers to xa_prepare", of_prepare},
    {"answers to xa_commit", of_commit}, {"answers to xa_commit: later", of_a_commit_for_later},
    {"answers to xa_rollback once prepared", of_rollback_once_prepared}, {"answers to xa_rollback", of_rollback},
    {"answers to xa_commit in one phase", of_one_phase}, {"answers to xa_start", of_start}, {"answers to xa_open", of_open},
    {"answers to xa_forget", of_forget}, {"answers to xa_recover", of_recover}, {NULL, NULL}};
