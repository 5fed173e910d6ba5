/* Forks, signals and threads. */
#include <errno.h>
#include <pthread.h>
#include <signal.h>
#include <stdatomic.h>
#include <stdio.h>
#include <stdlib.h>
#include <sys/time.h>
#include <sys/wait.h>
#include <time.h>
#include <unistd.h>

#include "story.h"

/* One that was begun over a coordinator that is gone is rolled back. */
static void transfer(void)
{
    int ended = TX_ROLLBACK;

    for (int tries = 0; ended == TX_ROLLBACK && tries < 4; tries++) {
        BEGIN(5);
        ended = tx_commit();
    }
    IS(ended, TX_OK);
}

/* ** forks */

static void a_child(void)
{
    int status = 1;

    IS(tx_open(), TX_OK);
    IS(tx_begin(), TX_OK);
    pid_t pid = fork();
    if (pid == 0)
        exit(tx_begin() == TX_PROTOCOL_ERROR && tx_open() == TX_FAIL && tx_close() == TX_OK ? 0 : 1);
    waitpid(pid, &status, 0);
    IS(status, 0);
    IS(stand_in_add(0, -5), true);
    IS(stand_in_add(1, 5), true);
    IS(tx_commit(), TX_OK);
    IS(stand_in_sum(1), 5);
}

/* A child that lives on doesn't keep the coordinator. */
static void a_child_that_stays(void)
{
    IS(tx_open(), TX_OK);
    pid_t pid = fork();
    if (pid == 0) {
        pause();
        _exit(0);
    }
    IS(tx_close(), TX_OK);
    IS(tx_open(), TX_OK);
    transfer();
    kill(pid, SIGKILL);
    waitpid(pid, NULL, 0);
}

/* ** signals */

static void reap(int signal)
{
    int before = errno;

    (void)signal;
    while (waitpid(-1, NULL, WNOHANG) > 0)
        ;
    errno = before;
}

static void children_that_are_reaped(void)
{
    struct sigaction it = {.sa_handler = reap};

    sigaction(SIGCHLD, &it, NULL);
    IS(tx_open(), TX_OK);
    for (int i = 0; i < 3; i++) {
        transfer();
        kill_coordinator();
    }
    transfer();
    IS(tx_close(), TX_OK);
    IS(stand_in_sum(1), 20);
}

static void children_that_are_ignored(void)
{
    signal(SIGCHLD, SIG_IGN);
    IS(tx_open(), TX_OK);
    for (int i = 0; i < 3; i++) {
        transfer();
        kill_coordinator();
    }
    transfer();
    IS(tx_close(), TX_OK);
    IS(stand_in_sum(1), 20);
}

static void broken_pipes(void)
{
    signal(SIGPIPE, SIG_DFL);
    IS(tx_open(), TX_OK);
    BEGIN(5);
    kill_coordinator();
    IS(tx_rollback(), TX_OK);
    transfer();
}

static void tick(int signal)
{
    (void)signal;
}

/* Calls of the system are interrupted all the time. */
static void interruptions(void)
{
    struct sigaction it = {.sa_handler = tick};
    struct itimerval often = {.it_interval = {.tv_usec = 300}, .it_value = {.tv_usec = 300}}, never = {.it_value = {0}};

    sigaction(SIGALRM, &it, NULL);
    setitimer(ITIMER_REAL, &often, NULL);
    IS(tx_open(), TX_OK);
    for (int i = 0; i < 20; i++) {
        if (i % 5 == 4)
            kill_coordinator();
        transfer();
    }
    IS(tx_close(), TX_OK);
    setitimer(ITIMER_REAL, &never, NULL);
    IS(stand_in_sum(1), 100);
}

/* One that is silent is given up, although signals come all the time. */
static void interruptions_of_a_silence(void)
{
    struct sigaction it = {.sa_handler = tick};
    struct itimerval often = {.it_interval = {.tv_usec = 3000}, .it_value = {.tv_usec = 3000}}, never = {.it_value = {0}};

    set_up(NULL, "patience 12\n");
    IS(is_begun(), true);
    IS(stand_in_add(0, -5), true);
    IS(stand_in_add(1, 5), true);
    write_file("log.silent", "prepare: tell");
    sigaction(SIGALRM, &it, NULL);
    setitimer(ITIMER_REAL, &often, NULL);
    int ended = tx_commit();
    setitimer(ITIMER_REAL, &never, NULL);
    IS(ended == TX_ROLLBACK || ended == TX_FAIL, true);
    IS(is_settled(), true);
    IS(stand_in_sum(1), 0);
}

/* ** threads */

static void *leave(void *within)
{
    IS(tx_open(), TX_OK);
    if (within != NULL)
        BEGIN(5);
    return NULL;
}

static void in_thread(void *(*work)(void *), void *with)
{
    pthread_t thread;

    pthread_create(&thread, NULL, work, with);
    pthread_join(thread, NULL);
}

/* Those that end without tx_close are closed, and their transactions rolled back; their numbers are
 * free again. */
static void threads_that_leave(void)
{
    IS(tx_open(), TX_OK);
    for (int i = 0; i < 8; i++)
        in_thread(leave, i % 2 ? &i : NULL);
    transfer();
    IS(is_settled(), true);
    IS(stand_in_sum(1), 5);
}

static void the_last_one_leaves(void)
{
    in_thread(leave, "within");
    in_thread(leave, "within");
    IS(tx_open(), TX_OK);
    transfer();
    IS(stand_in_sum(1), 5);
}

static atomic_bool is_committing;

static void *commit_slowly(void *unused)
{
    (void)unused;
    IS(tx_open(), TX_OK);
    BEGIN(5);
    is_committing = true;
    IS(tx_commit(), TX_OK);
    pthread_testcancel();
    IS(false, true);
    return NULL;
}

/* One that is cancelled in tx_commit ends behind it. */
static void a_thread_that_is_cancelled(void)
{
    pthread_t thread;

    IS(tx_open(), TX_OK);
    stand_in_takes(0, "xa_prepare", 500);
    pthread_create(&thread, NULL, commit_slowly, NULL);
    while (!is_committing)
        nanosleep(&(struct timespec){.tv_nsec = 10000000}, NULL);
    nanosleep(&(struct timespec){.tv_nsec = 50000000}, NULL);
    pthread_cancel(thread);
    pthread_join(thread, NULL);
    IS(stand_in_sum(1), 5);
    transfer();
}

static pthread_barrier_t all_have_tried;

static void *open_and_close(void *result)
{
    *(int *)result = tx_open();
    pthread_barrier_wait(&all_have_tried);
    tx_close();
    return NULL;
}

static void too_many_threads(void)
{
    pthread_t threads[4];
    int results[4], refused = 0;

    IS(tx_open(), TX_OK);
    pthread_barrier_init(&all_have_tried, NULL, 4);
    for (int i = 0; i < 4; i++)
        pthread_create(&threads[i], NULL, open_and_close, &results[i]);
    for (int i = 0; i < 4; i++) {
        pthread_join(threads[i], NULL);
        refused += results[i] == TX_ERROR;
    }
    IS(refused, 1);
    pthread_barrier_init(&all_have_tried, NULL, 1);
    in_thread(open_and_close, &results[0]);
    IS(results[0], TX_OK);
}

static void *work(void *unused)
{
    (void)unused;
    int committed = 0;

    IS(tx_open(), TX_OK);
    while (committed < 50)
        if (tx_begin() == TX_OK) {
            stand_in_add(0, -5);
            stand_in_add(1, 5);
            committed += tx_commit() == TX_OK;
        }
    IS(tx_close(), TX_OK);
    return NULL;
}

/* All at once, while the coordinator is killed. */
static void threads_at_work(void)
{
    pthread_t threads[3];

    IS(tx_open(), TX_OK);
    for (int i = 0; i < 3; i++)
        pthread_create(&threads[i], NULL, work, NULL);
    for (int i = 0; i < 4; i++) {
        nanosleep(&(struct timespec){.tv_nsec = 100000000}, NULL);
        kill_coordinator();
        transfer();
    }
    for (int i = 0; i < 3; i++)
        pthread_join(threads[i], NULL);
    IS(is_settled(), true);
    IS(stand_in_sum(0) + stand_in_sum(1), 0);
    IS(stand_in_sum(1) >= 5 * 150, true);
    IS(tx_close(), TX_OK);
}

const struct story of_processes[] = {{"processes: a child", a_child}, {"processes: a child that stays", a_child_that_stays},
    {"processes: children that are reaped", children_that_are_reaped}, {"processes: children that are ignored", children_that_are_ignored},
    {"processes: broken pipes", broken_pipes}, {"processes: interruptions", interruptions},
    {"processes: interruptions of a silence", interruptions_of_a_silence}, {"processes: threads that leave", threads_that_leave},
    {"processes: the last one leaves", the_last_one_leaves}, {"processes: a thread that is cancelled", a_thread_that_is_cancelled},
    {"processes: too many threads", too_many_threads}, {"processes: threads at work", threads_at_work}, {NULL, NULL}};
