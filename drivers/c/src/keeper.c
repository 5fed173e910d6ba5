/* The keeper: a thread that begins and ends the sessions, and has the resource managers
 * recovered. It is the coordinator's thread 0. */
#include <limits.h>
#include <stdio.h>
#include <string.h>
#include <sys/stat.h>

#include "../beside/databases.h"
#include "clock.h"
#include "garterfossil.h"
#include "session.h"

enum { SAID = 512 };

/* ** the coordinator's start */

/* By its command line (docs/MOVES.md). */
static bool is_process_started(void)
{
    char at_least[24], threads[12], rms[12];
    const char *words[16 + 2 * MOST_RMS] = {
        settings.program, "serve", "--moves", "--at-least", at_least, "--log", settings.log, "--name", settings.name};
    int count = settings.name[0] == '\0' ? 7 : 9;

    snprintf(at_least, sizeof at_least, "%ld", last_incarnation());
    snprintf(threads, sizeof threads, "%d", (settings.threads < MOST_THREADS / NUMBERS ? settings.threads * NUMBERS : MOST_THREADS) + 1);
    snprintf(rms, sizeof rms, "%d", settings.rms);
    for (int rm = 0; rm < settings.rms; rm++) {
        words[count++] = "--rm";
        words[count++] = settings.rm[rm].name;
    }
    words[count++] = threads;
    words[count++] = rms;
    words[count] = NULL;
    return coordinator_start((char *const *)words);
}

/* `restarted <incarnation> <decisions> <heuristics>`: the incarnation, none if it isn't so. */
static long incarnation_in(const char *greeting)
{
    const char *at = greeting + strcspn(greeting, " ");
    long incarnation = next_number(&at, LONG_MAX), decisions = next_number(&at, LONG_MAX), heuristics = next_number(&at, LONG_MAX);

    return is_reply(greeting, "restarted") && decisions >= 0 && heuristics >= 0 && *at == '\0' ? incarnation : 0;
}

/* False if it doesn't start; for ever, if what it said says so (docs/SERVE.md). One that was killed
 * says nothing, and while another process has the log, it may be free in a moment: then it is
 * started again. */
static bool is_coordinator_started(void)
{
    char said[SAID];

    if (!is_process_started())
        return note_fault(true, "%s can't be started", settings.program);
    long incarnation = incarnation_in(replied());
    if (incarnation > 0) {
        meet_incarnation(incarnation);
        return true;
    }
    coordinator_end(said, sizeof said);
    if (said[0] != '\0')
        note_fault(strncmp(said, "xatm: ", 6) != 0 || strncmp(said, "xatm: log: ", 11) == 0,
            "%s doesn't start, or isn't of this version: %s", settings.program, said);
    return false;
}

/* Whether the log isn't lost, as far as that can be known before the coordinator starts: a new one
 * is only made if it is the first, and nothing of its name is listed. */
static bool may_begin(void)
{
    struct stat it;

    if (shut_because()[0] != '\0')
        return note_fault(true, "%s. Look at it, and then remove the line \"shut\" from %s-databases", shut_because(), settings.log);
    return (stat(settings.log, &it) == 0 && it.st_size > 0) || last_incarnation() > 0 || may_be_made();
}

/* ** sessions */

/* What became of the transactions whose decision was under way as the last session ended. */
static void tell_fates(void)
{
    for (int i = 1; i <= settings.threads; i++) {
        struct thread *it = &all.threads[i];
        enum fate awaited = AWAITED;
        char gtrid[2 * OWN + 1];
        if (it->fate != AWAITED)
            continue;
        write_hex(gtrid, it->move->xid.data + strlen(settings.name), OWN);
        move(SOON, "fate %s", gtrid);
        const char *reply = replied();
        enum fate fate = is_reply(reply, "committed") ? COMMITTED : is_reply(reply, "rolled-back") ? ROLLED_BACK : UNKNOWN;
        pthread_mutex_lock(&coordinator.lock);
        if (reply[0] != '\0')
            atomic_compare_exchange_strong(&it->fate, &awaited, fate);
        pthread_cond_broadcast(&coordinator.changed);
        pthread_mutex_unlock(&coordinator.lock);
    }
}

/* What is due by now, at first all: the coordinator names it. That it is asked lets rows leave its
 * log, too. */
static void recover_due(void)
{
    int rms[MOST_RMS], count;

    all.is_owed = false;
    move(SOON, "due");
    count = named_in(replied(), rms);
    for (int i = 0; i < count; i++)
        if (!is_recovered(rms[i]))
            lose_line(rms[i]);
}

static void begin_session(void)
{
    lose_lines();
    if (!may_begin() || !is_coordinator_started())
        return;
    if (!save_databases())
        note_fault(true, "%s", gf_error());
    tell_fates();
    recover_due();
    pthread_mutex_lock(&coordinator.lock);
    coordinator.is_up = !coordinator.is_gone && !all.has_failed;
    pthread_cond_broadcast(&coordinator.changed);
    pthread_mutex_unlock(&coordinator.lock);
}

static void end_session(void)
{
    char said[SAID];

    move(SOON, "quit");
    replied();
    coordinator_end(said, sizeof said);
    if (said[0] != '\0')
        fprintf(stderr, "garterfossil: %s\n", said);
}

/* Looks after the session that is up, or begins the next. */
void *keep(void *unused)
{
    (void)unused;
    me = &all.threads[0];
    me->move = me->moves;
    me->move->is_alone = true;
    pthread_mutex_lock(&coordinator.lock);
    while (!all.is_ending) {
        pthread_mutex_unlock(&coordinator.lock);
        if (coordinator.is_up) {
            recover_due();
        } else {
            end_session();
            if (!all.has_failed)
                begin_session();
        }
        pthread_mutex_lock(&coordinator.lock);
        if (!all.is_ending && !all.is_owed)
            is_changed_by(now() + (coordinator.is_up || all.has_failed ? 1 : 0.1));
    }
    pthread_mutex_unlock(&coordinator.lock);
    if (coordinator.is_up)
        recover_due();
    end_session();
    close_lines();
    return NULL;
}
