/* What the threads of the program ask of the session. */
#include "session.h"

#include <signal.h>
#include <stdarg.h>
#include <stdio.h>
#include <stdlib.h>

#include "../beside/databases.h"
#include "clock.h"
#include "garterfossil.h"

struct all all;

bool note_fault(bool is_final, const char *format, ...)
{
    va_list words;

    pthread_mutex_lock(&coordinator.lock);
    va_start(words, format);
    vsnprintf(all.fault, sizeof all.fault, format, words);
    va_end(words);
    all.has_failed = is_final;
    pthread_cond_broadcast(&coordinator.changed);
    pthread_mutex_unlock(&coordinator.lock);
    if (is_final)
        fprintf(stderr, "garterfossil: %s\n", all.fault);
    return false;
}

/* ** threads come and go */

static bool is_keeper_started(void)
{
    sigset_t every, before;

    if (!read_databases())
        return false;
    if (all.threads == NULL && (all.threads = calloc((size_t)settings.threads + 1, sizeof *all.threads)) == NULL)
        return explain("no memory");
    warn_of_place();
    all.has_failed = false;
    snprintf(all.fault, sizeof all.fault, "the coordinator doesn't start in time");
    /* Signals are the program's affair. */
    sigfillset(&every);
    pthread_sigmask(SIG_BLOCK, &every, &before);
    bool is_started = pthread_create(&all.keeper, NULL, keep, NULL) == 0;
    pthread_sigmask(SIG_SETMASK, &before, NULL);
    return is_started || explain("no thread for the keeper");
}

/* A thread of a number that is free. NULL if there is none, or no keeper. */
static struct thread *taken(void)
{
    int number = 1;

    while (all.is_ending)
        pthread_cond_wait(&coordinator.changed, &coordinator.lock);
    if (all.open == 0 && !is_keeper_started())
        return NULL;
    while (number <= settings.threads && all.threads[number].is_taken)
        number++;
    if (number > settings.threads) {
        explain("all %d threads of the settings are in use", settings.threads);
        return NULL;
    }
    struct thread *it = &all.threads[number];
    it->is_taken = true;
    it->move = it->moves;
    for (int i = 0; i < NUMBERS; i++)
        it->moves[i].number = (unsigned)(number + i * settings.threads);
    it->info = (TXINFO){.xid = {.formatID = -1}};
    all.open++;
    return it;
}

bool session_join(void)
{
    pthread_mutex_lock(&coordinator.lock);
    me = taken();
    pthread_mutex_unlock(&coordinator.lock);
    return me != NULL;
}

void session_leave(void)
{
    pthread_mutex_lock(&coordinator.lock);
    me->is_taken = false;
    me = NULL;
    if (--all.open == 0) {
        all.is_ending = true;
        pthread_cond_broadcast(&coordinator.changed);
        pthread_mutex_unlock(&coordinator.lock);
        pthread_join(all.keeper, NULL);
        pthread_mutex_lock(&coordinator.lock);
        all.is_ending = false;
        pthread_cond_broadcast(&coordinator.changed);
    }
    pthread_mutex_unlock(&coordinator.lock);
}

/* ** whether it is up */

bool is_session_met(void)
{
    double until = now() + settings.patience;

    pthread_mutex_lock(&coordinator.lock);
    while (!coordinator.is_up && !all.has_failed && is_changed_by(until))
        ;
    bool is_up = coordinator.is_up;
    if (is_up && me->session != coordinator.session) {
        me->session = coordinator.session;
        for (int i = 0; i < NUMBERS; i++)
            me->moves[i].reply[0] = '\0';
    }
    if (!is_up)
        explain("%s", all.fault);
    pthread_mutex_unlock(&coordinator.lock);
    return is_up;
}

void note_owed(void)
{
    pthread_mutex_lock(&coordinator.lock);
    all.is_owed = true;
    pthread_cond_broadcast(&coordinator.changed);
    pthread_mutex_unlock(&coordinator.lock);
}

enum fate awaited_fate(void)
{
    static const char *const words[] = {"ended everywhere alike, it isn't known how", "", "committed", "rolled back"};
    double until = now() + settings.patience;

    pthread_mutex_lock(&coordinator.lock);
    while (me->fate == AWAITED && !all.has_failed && is_changed_by(until))
        ;
    if (me->fate == AWAITED)
        me->fate = UNKNOWN;
    pthread_mutex_unlock(&coordinator.lock);
    explain("the coordinator ended as it was to decide: the transaction is %s", words[me->fate]);
    fprintf(stderr, "garterfossil: %s\n", gf_error());
    return me->fate;
}
