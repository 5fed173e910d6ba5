/* Money moves between two environments of Berkeley DB, which take part by the switch that Berkeley
 * DB brings itself: no line here or in the library knows how. `store HOME SECONDS` moves it for so
 * long; `store HOME look` prints what both hold together, which is 0, and how many transfers both
 * have, or only one. The settings name HOME/a and HOME/b. */
#include <db.h>
#include <garterfossil.h>
#include <stdbool.h>
#include <stdio.h>
#include <stdlib.h>
#include <string.h>
#include <time.h>
#include <tx.h>
#include <unistd.h>

enum { STORES = 2 };

static DB *stores[STORES];
static char homes[STORES][256];

/* (xa.h can't be included beside db.h, which has an XID of its own.) */
struct first_of_switch {
    char name[32];
    long flags, version;
    int (*xa_open_entry)(char *, int, long);
};
extern const struct first_of_switch db_xa_switch;

static void stop(const char *what, const char *why)
{
    fprintf(stderr, "store: %s: %s\n", what, why);
    exit(1);
}

static void see(const char *what, int error)
{
    if (error != 0)
        stop(what, db_strerror(error));
}

/* After a crash an environment is to be recovered before anything else; what is prepared stays. */
static DB_ENV *environment(const char *home, u_int32_t more)
{
    DB_ENV *env;

    see("db_env_create", db_env_create(&env, 0));
    see("set_thread_count", env->set_thread_count(env, 64));
    see(home, env->open(env, home, DB_CREATE | DB_INIT_LOCK | DB_INIT_LOG | DB_INIT_MPOOL | DB_INIT_TXN | DB_THREAD | more, 0));
    return env;
}

static int put(DB *db, const char *name, long value)
{
    DBT key = {.data = (void *)name, .size = (u_int32_t)strlen(name)}, data = {.data = &value, .size = sizeof value};

    return db->put(db, NULL, &key, &data, 0);
}

static int get(DB *db, const char *name, long *value)
{
    DBT key = {.data = (void *)name, .size = (u_int32_t)strlen(name)};
    DBT data = {.data = value, .ulen = sizeof *value, .flags = DB_DBT_USERMEM};

    *value = 0;
    int error = db->get(db, NULL, &key, &data, 0);
    return error == DB_NOTFOUND ? 0 : error;
}

/* Berkeley DB opens what XA is to see in the environment that was named last: so it is named once
 * more. */
static void open_store(int rm)
{
    if (db_xa_switch.xa_open_entry(homes[rm], rm, 0) != 0)
        stop(homes[rm], "xa_open");
    see("db_create", db_create(&stores[rm], NULL, DB_XA_CREATE));
    see("open", stores[rm]->open(stores[rm], NULL, "store.db", NULL, DB_BTREE, DB_CREATE | DB_AUTO_COMMIT, 0644));
}

static bool is_moved(const char *name, long amount)
{
    for (int rm = 0; rm < STORES; rm++) {
        long value;
        amount = -amount;
        if (get(stores[rm], "balance", &value) != 0 || put(stores[rm], "balance", value + amount) != 0
            || put(stores[rm], name, amount) != 0)
            return false;
    }
    return true;
}

static void move(unsigned *seed, long counts[3])
{
    TXINFO info;
    char name[2 * XIDDATASIZE + 1];

    if (tx_begin() != TX_OK) {
        usleep(20000);
        return;
    }
    tx_info(&info);
    for (long i = 0; i < info.xid.gtrid_length; i++)
        sprintf(name + 2 * i, "%02x", (unsigned char)info.xid.data[i]);
    int ended = is_moved(name, 1 + rand_r(seed) % 9) && rand_r(seed) % 10 > 0 ? tx_commit() : (tx_rollback(), TX_ROLLBACK);
    counts[ended == TX_OK ? 0 : ended == TX_FAIL ? 2 : 1]++;
    /* (TX_FAIL: the next coordinator was killed, too, before it could say what this one had
     * decided.) */
    if (ended != TX_OK && ended != TX_ROLLBACK && ended != TX_FAIL)
        stop("tx_commit", gf_error());
}

static int work(int seconds)
{
    unsigned seed = (unsigned)getpid();
    long counts[3] = {0, 0, 0};

    for (int rm = 0; rm < STORES; rm++) {
        DB_ENV *env = environment(homes[rm], DB_RECOVER);
        env->close(env, 0);
    }
    if (tx_open() != TX_OK)
        stop("tx_open", gf_error());
    for (int rm = 0; rm < STORES; rm++)
        open_store(rm);
    for (time_t end = time(NULL) + seconds; time(NULL) < end;)
        move(&seed, counts);
    for (int rm = 0; rm < STORES; rm++)
        stores[rm]->close(stores[rm], 0);
    tx_close();
    printf("committed %ld, rolled back %ld, unknown %ld\n", counts[0], counts[1], counts[2]);
    return 0;
}

/* How many transfers a store has, and how many of them the other has too. */
static long count_of(DB *db, DB *other, long *in_both)
{
    char name[2 * XIDDATASIZE + 1] = "";
    long count = 0, amount;
    DBC *cursor;
    DBT key = {.data = name, .ulen = sizeof name - 1, .flags = DB_DBT_USERMEM};
    DBT data = {.data = &amount, .ulen = sizeof amount, .flags = DB_DBT_USERMEM};

    see("cursor", db->cursor(db, NULL, &cursor, 0));
    while (cursor->get(cursor, &key, &data, DB_NEXT) == 0) {
        name[key.size] = '\0';
        if (strcmp(name, "balance") == 0)
            continue;
        count++;
        see("get", get(other, name, &amount));
        *in_both += amount != 0;
    }
    cursor->close(cursor);
    return count;
}

static int look(void)
{
    DB_ENV *envs[STORES];
    long sum = 0, value, counts[STORES], in_both = 0, unused = 0;

    for (int rm = 0; rm < STORES; rm++) {
        envs[rm] = environment(homes[rm], 0);
        see("db_create", db_create(&stores[rm], envs[rm], 0));
        see("open", stores[rm]->open(stores[rm], NULL, "store.db", NULL, DB_BTREE, DB_RDONLY, 0));
        see("get", get(stores[rm], "balance", &value));
        sum += value;
    }
    counts[0] = count_of(stores[0], stores[1], &in_both);
    counts[1] = count_of(stores[1], stores[0], &unused);
    printf("%ld together, %ld in both, %ld in one\n", sum, in_both, counts[0] + counts[1] - 2 * in_both);
    for (int rm = 0; rm < STORES; rm++) {
        stores[rm]->close(stores[rm], 0);
        envs[rm]->close(envs[rm], 0);
    }
    return 0;
}

int main(int count, char **words)
{
    if (count != 3)
        return 2;
    for (int rm = 0; rm < STORES; rm++)
        snprintf(homes[rm], sizeof homes[rm], "%s/%c", words[1], 'a' + rm);
    return strcmp(words[2], "look") == 0 ? look() : work(atoi(words[2]));
}
