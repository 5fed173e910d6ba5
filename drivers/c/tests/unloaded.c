/* The library is unloaded (dlclose) by a thread that has a transaction: that is rolled back as the
 * thread ends, all the same, and the process may fork. unloaded LIBRARY; the settings are in the
 * environment. */
#include <dlfcn.h>
#include <pthread.h>
#include <stdio.h>
#include <stdlib.h>
#include <sys/wait.h>
#include <tx.h>
#include <unistd.h>

#include "stand_in_switch.h"

static const char *library;

/* (The stand-in's other switch would call these.) */
int ax_reg(int rmid, XID *xid, long flags)
{
    (void)rmid;
    (void)xid;
    (void)flags;
    return TMER_PROTO;
}

int ax_unreg(int rmid, long flags)
{
    (void)rmid;
    (void)flags;
    return TMER_PROTO;
}

static void see(const char *what, long found, long expected)
{
    if (found == expected)
        return;
    printf("%s: %ld, not %ld\n", what, found, expected);
    exit(1);
}

static int called(void *object, const char *name)
{
    int (*call)(void);

    *(void **)&call = dlsym(object, name);
    return call == NULL ? TX_FAIL : call();
}

static void *work(void *unused)
{
    void *object = dlopen(library, RTLD_NOW | RTLD_LOCAL);

    see("dlopen", object == NULL, 0);
    see("tx_open", called(object, "tx_open"), TX_OK);
    see("tx_begin", called(object, "tx_begin"), TX_OK);
    see("work", stand_in_add(0, -5) && stand_in_add(1, 5), 1);
    see("dlclose", dlclose(object), 0);
    return unused;
}

int main(int count, char **words)
{
    pthread_t thread;
    int status = 1;

    if (count != 2)
        return 2;
    library = words[1];
    see("pthread_create", pthread_create(&thread, NULL, work, NULL), 0);
    pthread_join(thread, NULL);
    stand_in_journal();
    see("sum", stand_in_sum(0), 0);
    see("prepared", stand_in_prepared(0) + stand_in_prepared(1), 0);
    see("work once it has ended", stand_in_add(0, 1), 0);
    see("calls out of turn", stand_in_strange(), 0);
    pid_t pid = fork();
    if (pid == 0)
        _exit(0);
    waitpid(pid, &status, 0);
    see("a child", status, 0);
    return 0;
}
