/* TX's states and calls, row by row (C504, chapter 7), and which calls of XA each makes. */
#include <string.h>

#include "story.h"

static const char dynamic_rms[] = "rm a - stand_in_dynamic x\nrm b - stand_in_dynamic x\n";
static const char async_rms[] = "rm a - stand_in_async x\nrm b - stand_in x\n";

/* S0 without tx_open; S1 and S2 outside of a transaction, unchained and chained; S3 and S4 in
 * one. */
static int state_now(void)
{
    TXINFO info;
    int is_in = tx_info(&info);

    return is_in < 0 ? 0 : 1 + 2 * is_in + (info.transaction_control == TX_CHAINED);
}

static void go_to(int state)
{
    if (state_now() >= 3) {
        IS(tx_set_transaction_control(TX_UNCHAINED), TX_OK);
        IS(tx_rollback(), TX_OK);
    }
    IS(tx_close(), TX_OK);
    if (state > 0)
        IS(tx_open(), TX_OK);
    if (state == 2 || state == 4)
        IS(tx_set_transaction_control(TX_CHAINED), TX_OK);
    if (state >= 3)
        IS(tx_begin(), TX_OK);
    IS(state_now(), state);
}

static int info_of_nobody(void)
{
    int found = tx_info(NULL);
    return found > 0 ? 0 : found;
}

static int chain(void)
{
    return tx_set_transaction_control(TX_CHAINED);
}

static int unchain(void)
{
    return tx_set_transaction_control(TX_UNCHAINED);
}

static int complete(void)
{
    return tx_set_commit_return(TX_COMMIT_COMPLETED);
}

static int hurry(void)
{
    return tx_set_transaction_timeout(60);
}

/* The state that follows each of S0 to S4; `-` where the call is out of place. */
static void state_table(void)
{
    static const struct {
        const char *name, *next;
        int (*call)(void);
    } rows[] = {{"tx_begin", "-34--", tx_begin}, {"tx_close", "000--", tx_close}, {"tx_commit", "---14", tx_commit},
        {"tx_info", "-1234", info_of_nobody}, {"tx_open", "11234", tx_open}, {"tx_rollback", "---14", tx_rollback},
        {"tx_set_commit_return", "-1234", complete}, {"tx_set_transaction_control, chained", "-2244", chain},
        {"tx_set_transaction_control, unchained", "-1133", unchain}, {"tx_set_transaction_timeout", "-1234", hurry}};

    for (size_t row = 0; row < sizeof rows / sizeof rows[0]; row++)
        for (int state = 0; state < 5; state++) {
            bool is_out = rows[row].next[state] == '-';
            go_to(state);
            see_number(__FILE__, __LINE__, rows[row].name, rows[row].call(), is_out ? TX_PROTOCOL_ERROR : TX_OK);
            see_number(__FILE__, __LINE__, rows[row].name, state_now(), is_out ? state : rows[row].next[state] - '0');
        }
}

/* The second set of results: the end is done, and the next of the chain couldn't begin. */
static void no_begin(void)
{
    go_to(4);
    stand_in_answers(0, "xa_start", XAER_RMERR, false);
    IS(tx_commit(), TX_NO_BEGIN);
    IS(state_now(), 2);
    go_to(4);
    stand_in_answers(0, "xa_start", XAER_RMERR, false);
    IS(tx_rollback(), TX_NO_BEGIN);
    IS(state_now(), 2);
    go_to(4);
    stand_in_add(0, 1);
    stand_in_add(1, 1);
    stand_in_answers(1, "xa_prepare", XA_RBDEADLOCK, false);
    stand_in_answers(0, "xa_start", XAER_RMERR, false);
    IS(tx_commit(), TX_ROLLBACK_NO_BEGIN);
    IS(state_now(), 2);
    for (int i = 0; i < 2; i++) {
        go_to(4);
        stand_in_add(0, 1);
        stand_in_add(1, 1);
        stand_in_answers(1, "xa_commit", i == 0 ? XA_HEURRB : XA_HEURHAZ, true);
        stand_in_answers(0, "xa_start", XAER_RMERR, false);
        IS(tx_commit(), i == 0 ? TX_MIXED_NO_BEGIN : TX_HAZARD_NO_BEGIN);
        IS(state_now(), 2);
    }
    IS(tx_begin(), TX_OK);
    IS(tx_commit(), TX_OK);
}

static void values(void)
{
    TXINFO info;

    IS(tx_open(), TX_OK);
    IS(tx_info(&info), 0);
    IS(info.xid.formatID, -1);
    IS(tx_set_commit_return(TX_COMMIT_DECISION_LOGGED), TX_NOT_SUPPORTED);
    IS(tx_set_commit_return(7), TX_EINVAL);
    IS(tx_set_transaction_control(7), TX_EINVAL);
    IS(tx_set_transaction_timeout(-1), TX_EINVAL);
    IS(tx_set_transaction_timeout(0x7fffffffffffffff), TX_OK);
    IS(tx_begin(), TX_OK);
    IS(tx_info(&info), 1);
    IS(info.xid.formatID, 7);
    IS(info.xid.gtrid_length, 17); /* the name `c`, and 16 bytes */
    IS(info.xid.bqual_length, 0);
    IS(info.when_return, TX_COMMIT_COMPLETED);
    IS(info.transaction_timeout, 0x7fffffffffffffff);
    IS(info.transaction_state, TX_ACTIVE);
    IS(gf_rmid("b"), 1);
    IS(gf_rmid("c"), -1);
}

static void time_out(void)
{
    TXINFO info;

    IS(tx_open(), TX_OK);
    IS(tx_set_transaction_timeout(1), TX_OK);
    BEGIN(5);
    stand_in_takes(0, "xa_forget", 1100);
    stand_in.xa_forget_entry(NULL, 0, TMNOFLAGS);
    IS(tx_info(&info), 1);
    IS(info.transaction_state, TX_TIMEOUT_ROLLBACK_ONLY);
    IS(tx_commit(), TX_ROLLBACK);
    IS(stand_in_sum(0) + stand_in_sum(1), 0);
}

/* ** which calls of XA are made */

static void calls_of_two(void)
{
    IS(tx_open(), TX_OK);
    SAYS(stand_in_journal(), "xa_open 0, xa_open 1");
    BEGIN(5);
    SAYS(stand_in_journal(), "xa_start 0, xa_start 1");
    IS(tx_commit(), TX_OK);
    SAYS(stand_in_journal(), "xa_end 0, xa_prepare 0, xa_end 1, xa_prepare 1, xa_commit 0, xa_commit 1");
    IS(stand_in_sum(0), -5);
    IS(stand_in_sum(1), 5);
    BEGIN(5);
    stand_in_journal();
    IS(tx_rollback(), TX_OK);
    SAYS(stand_in_journal(), "xa_end 0, xa_rollback 0, xa_end 1, xa_rollback 1");
    IS(stand_in_sum(1), 5);
    IS(tx_close(), TX_OK);
    SAYS(stand_in_journal(), "xa_close 0, xa_close 1");
}

/* One that has only read is over with its vote. */
static void calls_of_a_reader(void)
{
    IS(tx_open(), TX_OK);
    IS(tx_begin(), TX_OK);
    IS(stand_in_add(1, 5), true);
    stand_in_journal();
    IS(tx_commit(), TX_OK);
    SAYS(stand_in_journal(), "xa_end 0, xa_prepare 0, xa_end 1, xa_prepare 1, xa_commit 1");
    IS(tx_begin(), TX_OK);
    stand_in_journal();
    IS(tx_commit(), TX_OK);
    SAYS(stand_in_journal(), "xa_end 0, xa_prepare 0, xa_end 1, xa_prepare 1");
}

static void calls_of_one(void)
{
    set_up(dynamic_rms, NULL);
    IS(tx_open(), TX_OK);
    stand_in_journal();
    IS(tx_begin(), TX_OK);
    SAYS(stand_in_journal(), "");
    IS(stand_in_add(1, 5), true);
    IS(tx_commit(), TX_OK);
    SAYS(stand_in_journal(), "xa_start 1, xa_end 1, xa_commit 1 ONE");
    IS(stand_in_sum(1), 5);
    BEGIN(3);
    stand_in_journal();
    IS(tx_commit(), TX_OK);
    SAYS(stand_in_journal(), "xa_end 0, xa_prepare 0, xa_end 1, xa_prepare 1, xa_commit 0, xa_commit 1");
    IS(tx_begin(), TX_OK);
    IS(tx_commit(), TX_OK);
    SAYS(stand_in_journal(), "");
}

static void calls_of_async(void)
{
    set_up(async_rms, NULL);
    IS(tx_open(), TX_OK);
    BEGIN(5);
    IS(tx_commit(), TX_OK);
    BEGIN(5);
    stand_in_answers(0, "xa_prepare", XA_RBTIMEOUT, false);
    IS(tx_commit(), TX_ROLLBACK);
    IS(stand_in_sum(0), -5);
    IS(stand_in_sum(1), 5);
}

/* ** dynamic registration */

static void registration(void)
{
    XID xid;

    set_up("rm a - stand_in_dynamic x\nrm b - stand_in x\n", NULL);
    IS(ax_reg(0, &xid, TMNOFLAGS), TMER_INVAL); /* there are no settings yet */
    IS(tx_open(), TX_OK);
    IS(ax_reg(2, &xid, TMNOFLAGS), TMER_INVAL);
    IS(ax_reg(0, NULL, TMNOFLAGS), TMER_INVAL);
    IS(ax_reg(0, &xid, TMJOIN), TMER_INVAL);
    IS(ax_reg(1, &xid, TMNOFLAGS), TMER_PROTO);
    IS(ax_unreg(0, TMNOFLAGS), TMER_PROTO);
    IS(ax_reg(0, &xid, TMNOFLAGS), TM_OK);
    IS(xid.formatID, -1);
    IS(ax_reg(0, &xid, TMNOFLAGS), TMER_PROTO);
    IS(tx_begin(), TX_OUTSIDE);
    IS(ax_unreg(0, TMJOIN), TMER_INVAL);
    IS(ax_unreg(0, TMNOFLAGS), TM_OK);
    IS(tx_begin(), TX_OK);
    IS(ax_reg(0, &xid, TMNOFLAGS), TM_OK);
    IS(xid.formatID, 7);
    IS(ax_reg(0, &xid, TMNOFLAGS), TMER_PROTO);
    IS(ax_unreg(0, TMNOFLAGS), TMER_PROTO);
    IS(tx_rollback(), TX_OK);
}

/* That it has committed goes on the line of the next one's join, unless the keeper moves in
 * between. */
static void lines_of_transfers(void)
{
    IS(tx_open(), TX_OK);
    for (int i = 0; i < 20; i++) {
        BEGIN(5);
        IS(tx_commit(), TX_OK);
    }
    IS(count_told("line: tell 1 0 0;join 5 0 1\n") + count_told("line: tell 5 0 0;join 1 0 1\n") > 10, true);
}

const struct story of_states[] = {{"states: each call in each state", state_table}, {"states: the next of a chain doesn't begin", no_begin},
    {"states: values", values}, {"states: a time-out", time_out}, {"states: calls of two", calls_of_two},
    {"states: calls of a reader", calls_of_a_reader}, {"states: calls of one", calls_of_one},
    {"states: calls that are asynchronous", calls_of_async}, {"states: registration", registration},
    {"states: lines of transfers", lines_of_transfers}, {NULL, NULL}};
