/* The transaction of the calling thread: the calls are made that the coordinator tells, and it is
 * told how they were answered, until it tells the outcome (docs/MOVES.md). */
#include <limits.h>
#include <stdio.h>
#include <string.h>

#include "session.h"

enum { ANSWERS = 6 * MOST_RMS };

/* ** what the program is told of the outcome */

/* If a resource manager has ended its branch otherwise, that. */
static int result_of_mixed(const char *reply, int result)
{
    const char *at = strstr(reply, " mixed ");
    long rm, code;

    at = at == NULL ? "" : at + 6;
    while ((rm = next_number(&at, settings.rms - 1)) >= 0 && (code = next_number(&at, LONG_MAX)) >= 0) {
        explain("%s ended the branch by itself: %ld", settings.rm[rm].name, code);
        result = code == XA_HEURHAZ && result != TX_MIXED ? TX_HAZARD : TX_MIXED;
    }
    return result;
}

/* Where it is rolled back, the program gets so much. */
static int result_of(const char *reply, int rolled_back)
{
    const char *at = reply + strcspn(reply, " ");
    bool is_committed = is_reply(reply, "committed");
    long code = is_committed ? -1 : next_number(&at, LONG_MAX), rm = next_number(&at, settings.rms - 1);

    if (strstr(reply, " owed ") != NULL)
        note_owed();
    if (code >= 0 && rm >= 0)
        explain("%s voted %ld", settings.rm[rm].name, code);
    if (is_committed || is_reply(reply, "rolled-back"))
        return result_of_mixed(reply, is_committed ? TX_OK : rolled_back);
    explain("the connection was lost as the only resource manager was to commit");
    return TX_HAZARD;
}

/* The session is over: what is prepared is left to the next one, and what is open ends with its
 * connection. */
static void leave_session(void)
{
    lose_session("has ended");
    lose_lines();
}

/* The coordinator has ended before it told it. */
static int result_of_loss(int rolled_back)
{
    bool is_awaited = me->fate == AWAITED;

    leave_session();
    enum fate fate = is_awaited ? awaited_fate() : me->fate;
    return fate == COMMITTED ? TX_OK : fate == ROLLED_BACK ? rolled_back : is_awaited ? TX_FAIL : TX_HAZARD;
}

/* ** the procedure */

/* Makes the calls of a verb at the same time, and writes down how they were answered, as `tell` has
 * it. Whether each was by 0, or by that code. */
static bool are_made(enum verb verb, const int rms[], int count, int or_by, char answers[ANSWERS])
{
    bool are_right = true;

    answers[0] = '\0';
    for (int i = 0; i < count; i++)
        begin_call(rms[i], verb);
    for (int i = 0; i < count; i++) {
        int code = made(rms[i], verb);
        answers += code == LOST ? sprintf(answers, " lost") : sprintf(answers, " %d", code);
        are_right = are_right && (code == XA_OK || code == or_by);
    }
    return are_right;
}

/* What the transaction comes to, if the coordinator ends once these calls are made (docs/MOVES.md,
 * "If the coordinator ends"). */
static enum fate fate_of(enum verb verb, bool are_right, const char *answers)
{
    if (verb == FORGET)
        return me->fate;
    if (verb == COMMIT || (verb == COMMIT_AT_ONCE && are_right))
        return COMMITTED;
    if (verb == COMMIT_AT_ONCE && strcmp(answers, " lost") == 0)
        return UNKNOWN;
    return verb == PREPARE && are_right ? AWAITED : ROLLED_BACK;
}

void change_number(void)
{
    struct move *other = &me->moves[me->move == me->moves];

    me->move = other->number <= MOST_THREADS ? other : me->move;
}

static int conducted(const char *reply, int rolled_back)
{
    char answers[ANSWERS];
    int rms[MOST_RMS];

    for (enum verb verb; (verb = verb_of(reply)) != NO_VERB; reply = replied()) {
        bool are_right = are_made(verb, rms, named_in(reply, rms), verb == PREPARE ? XA_RDONLY : XA_OK, answers);
        bool is_committed = are_right && (verb == COMMIT || verb == COMMIT_AT_ONCE);
        me->fate = fate_of(verb, are_right, answers);
        move(is_committed ? LATER : verb == PREPARE && are_right ? DECIDING : SOON, "tell %u%s", me->move->number, answers);
        if (is_committed) { /* no outcome is another */
            change_number();
            return TX_OK;
        }
    }
    if (!is_reply(reply, "committed") && !is_reply(reply, "rolled-back") && !is_reply(reply, "unknown"))
        reply = lose_session("told no outcome");
    if (reply[0] == '\0')
        return result_of_loss(rolled_back);
    me->fate = UNKNOWN; /* nobody waits for it any more */
    int result = result_of(reply, rolled_back);
    settle();
    return result;
}

/* What is to be done with two branches or more is the reply to their `join`. */
int commit_transaction(void)
{
    me->fate = ROLLED_BACK;
    if (me->branches == 0 || (me->branches == 1 && is_reply(replied(), "joined")))
        move(SOON, "commit %u", me->move->number);
    return conducted(replied(), TX_ROLLBACK);
}

int roll_back_transaction(int result)
{
    me->fate = ROLLED_BACK;
    move(SOON, "rollback %u", me->move->number);
    return conducted(replied(), result);
}

/* ** its begin */

bool are_lines_open(void)
{
    bool are_open = true;

    for (int rm = 0; rm < settings.rms; rm++)
        are_open = is_rm_open(rm) && are_open;
    return are_open;
}

/* It stands last in the reply to an outcome, and to `start`. */
void settle(void)
{
    const char *reply = replied(), *next = strstr(reply, " next ");

    me->move->xid = transaction_of(next == NULL ? "" : next + 6);
    if (me->move->xid.gtrid_length == 0 && reply[0] != '\0')
        lose_session("told no next transaction");
}

/* A transaction has begun at the coordinator, which is tried once more if the session was over. */
static bool is_named(void)
{
    for (int tries = 0; tries < 2; tries++) {
        if (is_session_over()) {
            leave_session();
            if (!is_session_met())
                return false;
        }
        if (!are_lines_open())
            return false;
        settle();
        if (me->move->xid.gtrid_length == 0) {
            move(SOON, "start %u", me->move->number);
            settle();
        }
        if (me->move->xid.gtrid_length > 0)
            return true;
    }
    return false;
}

/* A branch begins at each resource manager that doesn't register one later; the coordinator is told
 * of those that did. TX_OK, TX_OUTSIDE or TX_ERROR. */
static int start_branches(void)
{
    int rms[MOST_RMS] = {0}, count = 0, result = TX_OK;
    char text[ANSWERS], *to = text;

    for (int rm = 0; rm < settings.rms; rm++)
        if (!is_dynamic(rm)) {
            me->line[rm].xid = branch_of(&me->move->xid, me->move->number, rm);
            rms[count++] = rm;
        }
    are_made(START, rms, count, XA_OK, text);
    me->branches = 0;
    for (int i = 0; i < count; i++) {
        const struct line *line = &me->line[rms[i]];
        if (line->is_active) {
            to += sprintf(to, " %d", rms[i]);
            me->branches++;
        } else {
            explain("xa_start of %s returned %d", settings.rm[rms[i]].name, line->code);
            result = line->code == XAER_OUTSIDE ? TX_OUTSIDE : TX_ERROR;
        }
    }
    if (me->branches > 0)
        move(SOON, "join %u%s", me->move->number, text);
    return result;
}

int begin_next(void)
{
    if (!is_named())
        return TX_ERROR;
    int result = start_branches();
    return result == TX_OK ? TX_OK : roll_back_transaction(result);
}
