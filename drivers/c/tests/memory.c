/* The request for memory that REFUSE_AT numbers is refused, of those that the library makes: a
 * transaction ends as its program was told, and the next one goes well. memory FOLDER, which has
 * the settings. */
#include <garterfossil.h>
#include <stdatomic.h>
#include <stdbool.h>
#include <stdio.h>
#include <stdlib.h>
#include <string.h>
#include <time.h>
#include <tx.h>

#include "stand_in_switch.h"

static int wrong;

/* ** what the linker puts in place of the C library's (--wrap) */

void *__real_calloc(size_t count, size_t size);
void *__real_realloc(void *it, size_t size);
void *__wrap_calloc(size_t count, size_t size);
void *__wrap_realloc(void *it, size_t size);

static bool is_refused(void)
{
    static atomic_long asked;
    static long at;

    if (at == 0)
        at = atol(getenv("REFUSE_AT"));
    if (++asked != at)
        return false;
    fputs("refused\n", stderr);
    return true;
}

void *__wrap_calloc(size_t count, size_t size)
{
    return is_refused() ? NULL : __real_calloc(count, size);
}

void *__wrap_realloc(void *it, size_t size)
{
    return is_refused() ? NULL : __real_realloc(it, size);
}

/* ** three transfers */

static void see(const char *what, long found, long expected)
{
    if (found != expected) {
        printf("%s: %ld, not %ld (%s)\n", what, found, expected, gf_error());
        wrong++;
    }
}

static bool is_settled(void)
{
    for (int i = 0; i < 1500 && stand_in_prepared(0) + stand_in_prepared(1) > 0; i++)
        nanosleep(&(struct timespec){.tv_nsec = 20000000}, NULL);
    return stand_in_prepared(0) + stand_in_prepared(1) == 0;
}

/* A transfer, or none if it doesn't begin. Whether it was committed. */
static bool is_moved(void)
{
    long before = stand_in_sum(1);

    if (tx_open() != TX_OK || tx_begin() != TX_OK)
        return false;
    bool is_done = stand_in_add(0, -5) && stand_in_add(1, 5);
    int ended = is_done ? tx_commit() : (tx_rollback(), TX_ROLLBACK);
    see("settled", is_settled(), true);
    see("both together", stand_in_sum(0) + stand_in_sum(1), 0);
    if (ended == TX_OK || ended == TX_ROLLBACK)
        see("as it was told", stand_in_sum(1) - before, ended == TX_OK ? 5 : 0);
    else
        see("tx_commit", ended, TX_FAIL);
    return ended == TX_OK;
}

int main(int count, char **words)
{
    char path[256];
    int tries = 0;

    if (count != 2)
        return 2;
    snprintf(path, sizeof path, "%s/settings", words[1]);
    setenv("GARTERFOSSIL_SETTINGS", path, 1);
    for (int moved = 0; moved < 3 && tries < 12; tries++) {
        moved += is_moved();
        see("tx_close", tx_close(), TX_OK);
        if (moved > 0) /* what a session before this one left, so that the next has something to recover */
            stand_in_lists(0, "7:6300000000000000000000000000000001:0000000100000000");
    }
    see("three were moved in so many tries, at least", tries < 12, true);
    see("calls out of turn", stand_in_strange(), 0);
    return wrong > 0;
}
