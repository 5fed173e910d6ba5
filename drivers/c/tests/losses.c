/* The coordinator ends, or says nothing, or refuses, at each of the moves: both resource
 * managers end each transaction alike, and as the program was told. */
#include <stdio.h>
#include <string.h>
#include <time.h>

#include "story.h"

/* Of a transfer that is committed, and of one that is rolled back. The first of a session begins
 * with `start`. */
static const char *const moments[] = {"start", "join", "prepare: tell", "commit: tell"};
static const char *const moments_of_rollback[] = {"start", "join", "rollback", "undo: tell"};
#define COUNT(moments) (sizeof(moments) / sizeof(moments)[0])

static void see_end(const char *moment, int begun, int ended, long before)
{
    bool is_settled_now = is_settled();
    long sum = stand_in_sum(1) - before;

    see_number(__FILE__, __LINE__, moment, is_settled_now, true);
    see_number(__FILE__, __LINE__, moment, stand_in_sum(0) + stand_in_sum(1), 0);
    if (begun == TX_OK && ended != TX_FAIL)
        see_number(__FILE__, __LINE__, moment, sum, ended == TX_OK ? 5 : 0);
    see_number(__FILE__, __LINE__, moment, ended == TX_OK || ended == TX_ROLLBACK || ended == TX_FAIL, true);
}

/* A transfer in which that happens. */
static void see_moment(const char *how, const char *moment, int (*end)(void), int rolled_back)
{
    char name[64];
    long before = stand_in_sum(1);
    int ended = TX_ROLLBACK;

    snprintf(name, sizeof name, "log.%s", how);
    if (strncmp(moment, "start", 5) == 0)
        kill_coordinator();
    write_file(name, moment);
    int begun = tx_begin();
    if (begun == TX_OK) {
        stand_in_add(0, -5);
        stand_in_add(1, 5);
        ended = end();
        ended = ended == rolled_back ? TX_ROLLBACK : ended;
    }
    see_end(moment, begun, ended, before);
}

static void see_moments(const char *how, size_t first)
{
    for (size_t i = first; i < COUNT(moments); i++) {
        IS(is_begun(), true);
        IS(tx_rollback(), TX_OK);
        see_moment(how, moments[i], tx_commit, TX_ROLLBACK);
        IS(is_begun(), true); /* what is due by then may be met here */
        IS(tx_rollback(), TX_OK);
        see_number(__FILE__, __LINE__, moments[i], is_file("log.die-at") || is_file("log.silent"), false);
    }
    IS(tx_close(), TX_OK);
}

static void it_ends(void)
{
    see_moments("die-at", 0);
}

/* A process that waits for ever, and one that is stopped. */
static void it_is_silent(void)
{
    set_up(NULL, "patience 12\n");
    see_moments("silent", 2);
}

static void it_is_stopped(void)
{
    set_up(NULL, "patience 12\n");
    see_moments("stop", 2);
}

static void its_log_fails(void)
{
    see_moments("stopped", 0);
}

static void it_refuses(void)
{
    see_moments("refuse-at", 0);
}

/* What it decided and didn't tell, the next session tells. */
static void it_ends_once_it_has_decided(void)
{
    long before;

    IS(tx_open(), TX_OK);
    before = stand_in_sum(1);
    BEGIN(5);
    write_file("log.die-at", "decided");
    IS(tx_commit(), TX_OK);
    IS(is_settled(), true);
    IS(stand_in_sum(1) - before, 5);
    IS(stand_in_sum(0) + stand_in_sum(1), 0);
}

/* The next one is lost, too, before it could tell: the one after that knows it of what was decided,
 * and else nobody does. */
static void it_ends_twice(void)
{
    IS(tx_open(), TX_OK);
    BEGIN(5);
    write_file("log.stopped", "fate");
    write_file("log.die-at", "decided");
    IS(tx_commit(), TX_OK);
    BEGIN(5);
    write_file("log.stopped", "fate");
    write_file("log.die-at", "prepare: tell");
    IS(tx_commit(), TX_FAIL);
    IS(is_settled(), true);
    IS(stand_in_sum(1), 5);
}

static void it_ends_in_a_rollback(void)
{
    IS(tx_open(), TX_OK);
    for (size_t i = 0; i < COUNT(moments_of_rollback); i++) {
        see_moment("die-at", moments_of_rollback[i], tx_rollback, TX_OK);
        IS(is_file("log.die-at"), false);
    }
    IS(stand_in_sum(0), 0);
}

static void it_is_killed(void)
{
    IS(tx_open(), TX_OK);
    kill_coordinator();
    BEGIN(5);
    IS(tx_commit(), TX_OK);
    BEGIN(5);
    kill_coordinator();
    IS(tx_commit(), TX_ROLLBACK);
    IS(is_settled(), true);
    BEGIN(5);
    kill_coordinator();
    IS(tx_rollback(), TX_OK);
    IS(stand_in_sum(1), 5);
}

/* ** what it says isn't what was asked */

static void it_is_out_of_step(void)
{
    static const char *const replies[] = {"start\nstarted", "start\nstarted next 12", "start\nerror", "join\n", "join\nbye",
        "join\nprepare 0", "join\nprepare 0 9", "join\nprepare 0 1;", "join\n;prepare 0 1", "prepare: tell\ncommitting 0 1",
        "prepare: tell\nrolled-back", "commit: tell\ncommitted", "commit: tell\nx;y"};

    IS(tx_open(), TX_OK);
    for (size_t i = 0; i < COUNT(replies); i++)
        see_moment("reply-at", replies[i], tx_commit, TX_ROLLBACK);
    IS(tx_close(), TX_OK);
}

/* What isn't its greeting begins no session, and nothing of it is kept. */
static void its_greeting_is_wrong(void)
{
    static const char *const greetings[] = {"restarted 9223372036854775808 0 0", "restarted 18446744073709551617 0 0", "restarted -1 0 0",
        "restarted 0 0 0", "restarted  1 0 0", "restarted 1 0", "restarted 1 0 0 0", "restarted 1 0 0x", "restarted", "bye"};
    char text[64];

    for (size_t i = 0; i < COUNT(greetings); i++) {
        snprintf(text, sizeof text, "\n%s\n", greetings[i]);
        write_file("log.greet-as", text);
        see_number(__FILE__, __LINE__, greetings[i], tx_open(), TX_OK);
        see_number(__FILE__, __LINE__, greetings[i], is_file("log.greet-as"), false);
        IS(tx_close(), TX_OK);
    }
}

/* Of a recovery. */
static void it_is_out_of_step_in_a_recovery(void)
{
    static const char *const replies[] = {"recover 1\nx", "recover 1\nxa_prepare 7:00:00", "recover 1\nxa_commit 7",
        "page 1\nrecovered owed 1", "page 1\nlater", "fate\nwho knows", "page 0\nstopped"};

    IS(tx_open(), TX_OK);
    for (size_t i = 0; i < COUNT(replies); i++) {
        BEGIN(5);
        write_file("log.reply-at", replies[i]);
        write_file("log.die-at", "prepare: tell");
        int ended = tx_commit();
        see_number(__FILE__, __LINE__, replies[i], ended == TX_ROLLBACK || ended == TX_FAIL, true);
        IS(is_settled(), true);
        IS(is_file("log.reply-at"), false);
    }
    IS(stand_in_sum(1), 0);
    IS(tx_close(), TX_OK);
}

static void it_does_not_start(void)
{
    set_up(NULL, "patience 3\nprogram /bin/false\n");
    IS(tx_open(), TX_ERROR); /* it says nothing, as one that was killed: in three seconds it has begun no session */
    IS(strstr(gf_error(), "coordinator") != NULL, true);
}

static void it_is_not_there(void)
{
    set_up(NULL, "program /nowhere/xatm\n");
    IS(tx_open(), TX_FAIL);
    SAYS(gf_error(), "/nowhere/xatm can't be started");
}

/* ** a resource manager that is away */

static void one_is_away(void)
{
    IS(tx_open(), TX_OK);
    BEGIN(5);
    for (int i = 0; i < 3; i++)
        stand_in_answers(1, "xa_commit", XAER_RMFAIL, false);
    IS(tx_commit(), TX_OK); /* it will be */
    IS(stand_in_prepared(1), 1);
    IS(is_settled(), true);
    IS(stand_in_sum(1), 5);
    IS(tx_close(), TX_OK);
    IS(count_told("recover 1") > 2, true);
}

/* It is away as transactions begin: each try says so, until it is back. */
static void one_is_away_for_long(void)
{
    IS(tx_open(), TX_OK);
    stand_in_answers(1, "xa_start", XAER_RMFAIL, false);
    IS(tx_begin(), TX_ERROR);
    for (int i = 0; i < 3; i++) {
        stand_in_answers(1, "xa_open", XAER_RMFAIL, false);
        IS(tx_begin(), TX_ERROR);
        SAYS(gf_error(), "xa_open of b returned -7");
    }
    BEGIN(5);
    IS(tx_commit(), TX_OK);
    IS(stand_in_sum(0), -5);
    IS(stand_in_sum(1), 5);
}

/* What is owed is ended as the last thread closes. */
static void closed_at_once(void)
{
    IS(tx_open(), TX_OK);
    BEGIN(5);
    stand_in_answers(1, "xa_commit", XAER_RMFAIL, false);
    IS(tx_commit(), TX_OK);
    IS(tx_close(), TX_OK);
    IS(stand_in_sum(1), 5);
    IS(stand_in_prepared(1), 0);
}

/* An embedded one stays open: what the program has opened in it isn't lost with the coordinator. */
static void an_embedded_one(void)
{
    set_up("embedded a - stand_in x\nrm b - stand_in x\n", NULL);
    IS(tx_open(), TX_OK);
    BEGIN(5);
    kill_coordinator();
    stand_in_journal();
    IS(tx_commit(), TX_ROLLBACK);
    const char *journal = stand_in_journal();
    IS(strstr(journal, "xa_close 0") == NULL && strstr(journal, "xa_close 1") != NULL, true);
    BEGIN(5);
    IS(tx_commit(), TX_OK);
    IS(tx_close(), TX_OK);
    IS(stand_in_sum(0), -5);
}

const struct story of_losses[] = {{"losses: the coordinator ends", it_ends}, {"losses: it is silent", it_is_silent},
    {"losses: it is stopped", it_is_stopped}, {"losses: its log fails", its_log_fails}, {"losses: it refuses", it_refuses},
    {"losses: it ends once it has decided", it_ends_once_it_has_decided}, {"losses: it ends in a rollback", it_ends_in_a_rollback},
    {"losses: it ends twice", it_ends_twice}, {"losses: it is killed", it_is_killed}, {"losses: it is out of step", it_is_out_of_step},
    {"losses: it is out of step in a recovery", it_is_out_of_step_in_a_recovery}, {"losses: it doesn't start", it_does_not_start},
    {"losses: its greeting is wrong", its_greeting_is_wrong}, {"losses: it isn't there", it_is_not_there},
    {"losses: one is away", one_is_away}, {"losses: one is away for long", one_is_away_for_long},
    {"losses: closed at once", closed_at_once}, {"losses: an embedded one", an_embedded_one}, {NULL, NULL}};
