/* Resource managers in memory, for the tests. */
#include "stand_in_switch.h"

#include <pthread.h>
#include <stdio.h>
#include <stdlib.h>
#include <string.h>
#include <time.h>

#include "../switches/xid_text.h"

enum { RMS = 4, BRANCHES = 4096, ANSWERS = 16, JOURNAL = 8192 };

struct branch {
    XID xid;
    int rm;
    enum { FREE, ACTIVE, IDLE, PREPARED } state;
    pthread_t thread;
    long amount;
};

static struct answer {
    int rm, code;
    const char *call;
    bool is_made, is_due;
} answers[ANSWERS];
static struct branch branches[BRANCHES];
static struct {
    long sum;
    const char *slow;
    int milliseconds, listed;
    char identity[64];
} rms[RMS];
static int strange;
static char journal[JOURNAL], given[JOURNAL];
static pthread_t first;
static bool has_first;
static pthread_mutex_t lock = PTHREAD_MUTEX_INITIALIZER;
static _Thread_local int async_codes[RMS];
static _Thread_local bool is_opened[RMS];

/* ** what a test says and asks */

void stand_in_answers(int rmid, const char *call, int code, bool is_made)
{
    int i = 0;

    pthread_mutex_lock(&lock);
    while (i < ANSWERS - 1 && answers[i].is_due)
        i++;
    answers[i] = (struct answer){.rm = rmid, .code = code, .call = call, .is_made = is_made, .is_due = true};
    pthread_mutex_unlock(&lock);
}

void stand_in_takes(int rmid, const char *call, int milliseconds)
{
    pthread_mutex_lock(&lock);
    rms[rmid].slow = call;
    rms[rmid].milliseconds = milliseconds;
    pthread_mutex_unlock(&lock);
}

void stand_in_is(int rmid, const char *identity)
{
    snprintf(rms[rmid].identity, sizeof rms[rmid].identity, "%s", identity);
}

static struct branch *free_branch(void)
{
    for (int i = 0; i < BRANCHES; i++)
        if (branches[i].state == FREE)
            return &branches[i];
    abort();
}

void stand_in_lists(int rmid, const char *text)
{
    pthread_mutex_lock(&lock);
    struct branch *it = free_branch();
    it->rm = rmid;
    it->state = PREPARED;
    if (!xid_from(text, &it->xid))
        abort();
    pthread_mutex_unlock(&lock);
}

long stand_in_sum(int rmid)
{
    pthread_mutex_lock(&lock);
    long sum = rms[rmid].sum;
    pthread_mutex_unlock(&lock);
    return sum;
}

int stand_in_prepared(int rmid)
{
    int count = 0;

    pthread_mutex_lock(&lock);
    for (int i = 0; i < BRANCHES; i++)
        count += branches[i].state == PREPARED && branches[i].rm == rmid;
    pthread_mutex_unlock(&lock);
    return count;
}

int stand_in_strange(void)
{
    return strange;
}

const char *stand_in_journal(void)
{
    pthread_mutex_lock(&lock);
    first = pthread_self();
    has_first = true;
    memcpy(given, journal, sizeof given);
    journal[0] = '\0';
    pthread_mutex_unlock(&lock);
    return given;
}

/* ** calls */

static const char *flags_in_words(long flags)
{
    return flags & TMONEPHASE ? " ONE" : flags & TMFAIL ? " FAIL" : "";
}

/* Writes the call down, and takes its time. */
static void note(const char *call, int rm, long flags)
{
    size_t length;

    pthread_mutex_lock(&lock);
    length = strlen(journal);
    if (has_first && pthread_equal(first, pthread_self()))
        snprintf(journal + length, sizeof journal - length, "%s%s %d%s", length == 0 ? "" : ", ", call, rm, flags_in_words(flags));
    int milliseconds = rms[rm].slow != NULL && strcmp(rms[rm].slow, call) == 0 ? rms[rm].milliseconds : 0;
    pthread_mutex_unlock(&lock);
    if (milliseconds > 0)
        nanosleep(&(struct timespec){.tv_sec = milliseconds / 1000, .tv_nsec = milliseconds % 1000 * 1000000L}, NULL);
}

static struct branch *branch_of(const XID *xid, int rm)
{
    for (int i = 0; i < BRANCHES; i++)
        if (branches[i].state != FREE && branches[i].rm == rm && is_same(&branches[i].xid, xid))
            return &branches[i];
    return NULL;
}

static struct branch *of_thread(int rm)
{
    for (int i = 0; i < BRANCHES; i++)
        if ((branches[i].state == ACTIVE || branches[i].state == IDLE) && branches[i].rm == rm
            && pthread_equal(branches[i].thread, pthread_self()))
            return &branches[i];
    return NULL;
}

static int out_of_turn(const char *call)
{
    printf("out of turn: %s\n", call);
    strange++;
    return XAER_PROTO;
}

/* What C193's table has; the lock is held. */
static int code_of(const char *call, XID *xid, int rm, long flags)
{
    struct branch *it = branch_of(xid, rm);

    if (strcmp(call, "xa_start") == 0) {
        if (it != NULL || of_thread(rm) != NULL)
            return out_of_turn(call);
        it = free_branch();
        *it = (struct branch){.xid = *xid, .rm = rm, .state = ACTIVE, .thread = pthread_self()};
        return XA_OK;
    }
    if (it == NULL)
        return XAER_NOTA;
    if (strcmp(call, "xa_end") == 0) {
        if (it->state != ACTIVE)
            return out_of_turn(call);
        it->state = IDLE;
        return flags & TMFAIL ? XA_RBROLLBACK : XA_OK;
    }
    if (strcmp(call, "xa_rollback") == 0 && it->state != ACTIVE) {
        it->state = FREE;
        return XA_OK;
    }
    if (strcmp(call, "xa_commit") == 0 && it->state == (flags & TMONEPHASE ? IDLE : PREPARED)) {
        rms[rm].sum += it->amount;
        it->state = FREE;
        return XA_OK;
    }
    if (strcmp(call, "xa_prepare") == 0 && it->state == IDLE) {
        it->state = it->amount == 0 ? FREE : PREPARED;
        return it->amount == 0 ? XA_RDONLY : XA_OK;
    }
    return out_of_turn(call);
}

/* The connection is lost: what isn't prepared is gone. */
static void lose_work(int rm)
{
    struct branch *it;

    while ((it = of_thread(rm)) != NULL)
        it->state = FREE;
}

/* (No branch is joined, suspended or migrated: none of that can be asked of a switch that has
 * TMNOMIGRATE.) */
static int answer(const char *call, XID *xid, int rm, long flags)
{
    int code;

    note(call, rm, flags);
    if ((flags & ~(TMSUCCESS | TMFAIL | TMONEPHASE)) != 0 || !is_opened[rm])
        return out_of_turn(call);
    pthread_mutex_lock(&lock);
    struct answer *other = NULL;
    for (int i = ANSWERS - 1; i >= 0; i--)
        if (answers[i].is_due && answers[i].rm == rm && strcmp(answers[i].call, call) == 0)
            other = &answers[i];
    code = other == NULL || other->is_made ? code_of(call, xid, rm, flags) : XAER_RMERR;
    if (other != NULL) {
        struct branch *it = branch_of(xid, rm);
        other->is_due = false;
        code = other->code;
        if (code == XAER_RMFAIL)
            lose_work(rm);
        /* C193: XAER_RMERR to xa_commit says that the work was rolled back, as XA_RB* do of any
         * call but xa_end. */
        bool is_end = strcmp(call, "xa_end") == 0;
        if (it != NULL && !is_end && ((code >= XA_RBBASE && code <= XA_RBEND) || (code == XAER_RMERR && strcmp(call, "xa_commit") == 0)))
            it->state = FREE;
    }
    pthread_mutex_unlock(&lock);
    return code;
}

static int open_it(char *info, int rm, long flags)
{
    int code = XA_OK;

    (void)info;
    note("xa_open", rm, flags);
    pthread_mutex_lock(&lock);
    if (is_opened[rm])
        out_of_turn("xa_open");
    for (int i = 0; i < ANSWERS; i++)
        if (answers[i].is_due && answers[i].rm == rm && strcmp(answers[i].call, "xa_open") == 0) {
            answers[i].is_due = false;
            code = answers[i].code;
            break;
        }
    is_opened[rm] = code == XA_OK;
    pthread_mutex_unlock(&lock);
    return code;
}

static int close_it(char *info, int rm, long flags)
{
    (void)info;
    note("xa_close", rm, flags);
    pthread_mutex_lock(&lock);
    if (!is_opened[rm])
        out_of_turn("xa_close");
    is_opened[rm] = false;
    lose_work(rm);
    pthread_mutex_unlock(&lock);
    return XA_OK;
}

#define CALL(name) \
    static int name##_it(XID *xid, int rm, long flags) \
    { \
        int code; \
        if (!(flags & TMASYNC)) \
            return answer("xa_" #name, xid, rm, flags); \
        code = answer("xa_" #name, xid, rm, flags & ~TMASYNC); \
        async_codes[rm] = code; \
        return rm + 1; \
    }
CALL(start)
CALL(end)
CALL(prepare)
CALL(commit)
CALL(rollback)

static int recover_it(XID *xids, long count, int rm, long flags)
{
    int listed = 0, place = 0;

    note("xa_recover", rm, flags);
    pthread_mutex_lock(&lock);
    for (int i = 0; i < ANSWERS; i++)
        if (answers[i].is_due && answers[i].rm == rm && strcmp(answers[i].call, "xa_recover") == 0) {
            answers[i].is_due = false;
            listed = answers[i].code;
        }
    if (listed != 0) {
        pthread_mutex_unlock(&lock);
        return listed;
    }
    if (flags & TMSTARTRSCAN)
        rms[rm].listed = 0;
    for (int i = 0; i < BRANCHES && listed < count; i++)
        if (branches[i].state == PREPARED && branches[i].rm == rm && place++ >= rms[rm].listed)
            xids[listed++] = branches[i].xid;
    rms[rm].listed += listed;
    pthread_mutex_unlock(&lock);
    return listed;
}

static int forget_it(XID *xid, int rm, long flags)
{
    (void)xid;
    note("xa_forget", rm, flags);
    return XA_OK;
}

static int complete_it(int *handle, int *code, int rm, long flags)
{
    (void)flags;
    if (*handle != rm + 1)
        return out_of_turn("xa_complete");
    *code = async_codes[rm];
    return XA_OK;
}

#define SWITCH(flags_) \
    { \
        .name = "stand-in", .flags = flags_, .xa_open_entry = open_it, .xa_close_entry = close_it, .xa_start_entry = start_it, \
        .xa_end_entry = end_it, .xa_rollback_entry = rollback_it, .xa_prepare_entry = prepare_it, .xa_commit_entry = commit_it, \
        .xa_recover_entry = recover_it, .xa_forget_entry = forget_it, .xa_complete_entry = complete_it \
    }
#define SEEN __attribute__((visibility("default")))

SEEN const struct xa_switch_t stand_in = SWITCH(TMNOFLAGS), stand_in_dynamic = SWITCH(TMREGISTER), stand_in_async = SWITCH(TMUSEASYNC);

SEEN int stand_in_identity(int rmid, const char *kept, char identity[256])
{
    (void)kept;
    snprintf(identity, 256, "%s", rms[rmid].identity);
    return rms[rmid].identity[0] == '\0';
}

bool stand_in_add(int rmid, long amount)
{
    XID xid;

    pthread_mutex_lock(&lock);
    struct branch *it = of_thread(rmid);
    pthread_mutex_unlock(&lock);
    if (it == NULL && ax_reg(rmid, &xid, TMNOFLAGS) == TM_OK) {
        if (xid.formatID == -1) {
            ax_unreg(rmid, TMNOFLAGS);
            return false;
        }
        start_it(&xid, rmid, TMNOFLAGS);
    }
    pthread_mutex_lock(&lock);
    it = of_thread(rmid);
    if (it != NULL)
        it->amount += amount;
    pthread_mutex_unlock(&lock);
    return it != NULL;
}
