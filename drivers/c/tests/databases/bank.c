/* Moves money between PostgreSQL and MariaDB on several threads, until it is killed or the seconds
 * are over, and notes each outcome that it was told: bank THREADS SECONDS TOLD */
#include <fcntl.h>
#include <garterfossil.h>
#include <gf_mariadb.h>
#include <gf_postgresql.h>
#include <pthread.h>
#include <stdbool.h>
#include <stdio.h>
#include <stdlib.h>
#include <time.h>
#include <tx.h>
#include <unistd.h>

enum { ACCOUNTS = 128, NAME = 2 * XIDDATASIZE + 1 };

static int told;
static time_t end;
static unsigned long counts[2][200];
static pthread_mutex_t lock = PTHREAD_MUTEX_INITIALIZER;

static bool is_run_by_postgresql(const char *statement)
{
    PGconn *link = gf_pg_connection(0);
    PGresult *result = link == NULL ? NULL : PQexec(link, statement);
    bool is_done = PQresultStatus(result) == PGRES_COMMAND_OK;

    PQclear(result);
    return is_done;
}

static bool is_run(int rm, const char *statement)
{
    if (rm == 0)
        return is_run_by_postgresql(statement);
    MYSQL *link = gf_mariadb_connection(1);
    return link != NULL && mysql_query(link, statement) == 0;
}

static bool is_paid(int rm, int amount, unsigned *seed)
{
    char statement[128];

    snprintf(statement, sizeof statement, "UPDATE account SET balance = balance + %d WHERE id = %d", amount, rand_r(seed) % ACCOUNTS);
    return is_run(rm, statement);
}

static bool is_noted(int rm, const char *table, const char *name, const char *more)
{
    char statement[NAME + 64];

    snprintf(statement, sizeof statement, "INSERT INTO %s VALUES ('%s'%s)", table, name, more);
    return is_run(rm, statement);
}

static bool is_moved_within(int rm, const char *name, int amount, unsigned *seed)
{
    return is_paid(rm, amount, seed) && is_paid(rm, -amount, seed) && is_noted(rm, "alone", name, "");
}

static bool is_moved_between(const char *name, int amount, unsigned *seed)
{
    char text[16];

    snprintf(text, sizeof text, ", %d", amount);
    return is_paid(0, -amount, seed) && is_noted(0, "moved", name, text) && is_paid(1, amount, seed) && is_noted(1, "moved", name, text);
}

/* Mostly between the two; one of ten within one of them. One of ten fails on purpose: at once, or
 * at xa_prepare in PostgreSQL. */
static bool is_moved(const char *name, const char **kind, unsigned *seed)
{
    int amount = 1 + rand_r(seed) % 50, chance = rand_r(seed) % 20;

    *kind = chance == 0 ? "0" : chance == 1 ? "1" : "both";
    if (chance < 2)
        return is_moved_within(chance, name, amount, seed);
    bool is_done = is_moved_between(name, amount, seed);
    return chance == 2 ? false : chance == 3 ? is_done && is_run(0, "INSERT INTO once VALUES (1)") : is_done;
}

/* Only an outcome that is known: then it must be so. */
static void tell(const char *name, const char *kind, bool is_done, int ended)
{
    bool is_committed = is_done && ended == TX_OK, is_rolled_back = ended == (is_done ? TX_ROLLBACK : TX_OK);
    char line[NAME + 64];
    int length = snprintf(line, sizeof line, "%s %s %s\n", name, kind, is_committed ? "committed" : "rolled-back");

    if ((is_committed || is_rolled_back) && write(told, line, (size_t)length) != length)
        abort();
    pthread_mutex_lock(&lock);
    counts[is_done][-ended]++;
    pthread_mutex_unlock(&lock);
}

static void move(unsigned *seed)
{
    TXINFO info;
    char name[NAME] = "";
    const char *kind = "";

    if (tx_begin() != TX_OK) {
        usleep(50000);
        return;
    }
    tx_info(&info);
    for (long i = 0; i < info.xid.gtrid_length; i++)
        sprintf(name + 2 * i, "%02x", (unsigned char)info.xid.data[i]);
    bool is_done = is_moved(name, &kind, seed);
    tell(name, kind, is_done, is_done ? tx_commit() : tx_rollback());
}

static void *work(void *number)
{
    unsigned seed = (unsigned)time(NULL) ^ (unsigned)getpid() << 8 ^ *(unsigned *)number;

    for (int opened = -1; opened != TX_OK && time(NULL) < end;) {
        opened = tx_open();
        if (opened != TX_OK) {
            fprintf(stderr, "tx_open: %d: %s\n", opened, gf_error());
            usleep(100000);
        }
    }
    while (time(NULL) < end)
        move(&seed);
    tx_close();
    mysql_thread_end();
    return NULL;
}

int main(int count, char **words)
{
    pthread_t threads[64];
    unsigned numbers[64];

    if (count != 4 || atoi(words[1]) > 64)
        return 2;
    unsigned n = (unsigned)atoi(words[1]);
    end = time(NULL) + atoi(words[2]);
    told = open(words[3], O_WRONLY | O_APPEND | O_CREAT | O_CLOEXEC, 0644);
    mysql_library_init(0, NULL, NULL);
    for (unsigned i = 0; i < n; i++) {
        numbers[i] = i;
        pthread_create(&threads[i], NULL, work, &numbers[i]);
    }
    for (unsigned i = 0; i < n; i++)
        pthread_join(threads[i], NULL);
    for (int i = 0; i < 400; i++)
        if (counts[i / 200][i % 200] > 0)
            printf("%s %d: %lu; ", i < 200 ? "tx_rollback" : "tx_commit", -(i % 200), counts[i / 200][i % 200]);
    puts("");
    mysql_library_end();
    return 0;
}
