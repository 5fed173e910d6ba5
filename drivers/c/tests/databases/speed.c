/* Transfers a second between PostgreSQL and MariaDB, an UPDATE and an INSERT at each, on accounts
 * that no other thread uses: speed HOW THREADS SECONDS PG_INFO MARIADB_SOCKET. HOW is `tx`; `hand`:
 * each database is told to prepare and to commit, one after the other, without a coordinator; or
 * `sides`: the same, both at the same time. Prints how many, in how many seconds, and what they
 * took of the processors, in seconds: of this process, and of the coordinator. */
#include <garterfossil.h>
#include <gf_mariadb.h>
#include <gf_postgresql.h>
#include <pthread.h>
#include <stdbool.h>
#include <stdio.h>
#include <stdlib.h>
#include <string.h>
#include <sys/resource.h>
#include <time.h>
#include <tx.h>
#include <unistd.h>

enum { ACCOUNTS = 128, MOST = 64, NAME = 2 * XIDDATASIZE + 1 };

static const char *how, *pg_info, *mariadb_socket;
static int threads;
static double seconds;
static pthread_barrier_t barrier;

struct worker {
    pthread_t thread;
    int number;
    long count;
    unsigned seed;
    PGconn *pg;
    MYSQL *my;
};

static void stop(const char *what, const char *why)
{
    fprintf(stderr, "speed: %s: %s\n", what, why);
    exit(1);
}

static double now(void)
{
    struct timespec t;

    clock_gettime(CLOCK_MONOTONIC, &t);
    return (double)t.tv_sec + (double)t.tv_nsec / 1e9;
}

static double taken(int who)
{
    struct rusage u;

    getrusage(who, &u);
    return (double)u.ru_utime.tv_sec + (double)u.ru_utime.tv_usec / 1e6 + (double)u.ru_stime.tv_sec + (double)u.ru_stime.tv_usec / 1e6;
}

/* ** statements */

static void send_both(struct worker *w, const char *pg, const char *my)
{
    if (PQsendQuery(w->pg, pg) != 1)
        stop(pg, PQerrorMessage(w->pg));
    if (mysql_send_query(w->my, my, (unsigned long)strlen(my)) != 0)
        stop(my, mysql_error(w->my));
    for (PGresult *result; (result = PQgetResult(w->pg)) != NULL; PQclear(result))
        if (PQresultStatus(result) != PGRES_COMMAND_OK)
            stop(pg, PQerrorMessage(w->pg));
    if (mysql_read_query_result(w->my) != 0)
        stop(my, mysql_error(w->my));
}

static void pg_do(struct worker *w, const char *statement)
{
    PGresult *result = PQexec(w->pg, statement);

    if (PQresultStatus(result) != PGRES_COMMAND_OK)
        stop(statement, PQerrorMessage(w->pg));
    PQclear(result);
}

static void my_do(struct worker *w, const char *statement)
{
    if (mysql_query(w->my, statement) != 0)
        stop(statement, mysql_error(w->my));
}

static int own_account(struct worker *w)
{
    return rand_r(&w->seed) % (ACCOUNTS / threads) * threads + w->number;
}

static void work(struct worker *w, const char *name)
{
    char text[NAME + 80];
    int amount = 1 + rand_r(&w->seed) % 50;

    snprintf(text, sizeof text, "UPDATE account SET balance = balance - %d WHERE id = %d", amount, own_account(w));
    pg_do(w, text);
    snprintf(text, sizeof text, "INSERT INTO moved VALUES ('%s', %d)", name, amount);
    pg_do(w, text);
    my_do(w, text);
    snprintf(text, sizeof text, "UPDATE account SET balance = balance + %d WHERE id = %d", amount, own_account(w));
    my_do(w, text);
}

/* ** a transfer */

static void by_tx(struct worker *w)
{
    TXINFO info;
    char name[NAME] = "";

    if (tx_begin() != TX_OK)
        stop("tx_begin", gf_error());
    tx_info(&info);
    for (long i = 0; i < info.xid.gtrid_length; i++)
        sprintf(name + 2 * i, "%02x", (unsigned char)info.xid.data[i]);
    w->pg = gf_pg_connection(0);
    w->my = gf_mariadb_connection(1);
    work(w, name);
    if (tx_commit() != TX_OK)
        stop("tx_commit", gf_error());
}

/* The names are other ones than the coordinator's: their incarnation is none of it. */
static void by_hand(struct worker *w, bool is_side_by_side)
{
    char name[40], xid[96], pg[2][128], my[3][256], both[300];

    snprintf(name, sizeof name, "7fffffff%08x%08x%08lx", (unsigned)getpid(), (unsigned)w->number, (unsigned long)w->count);
    snprintf(xid, sizeof xid, "X'%s',X'%08x00000001',7", name, (unsigned)w->number);
    snprintf(pg[0], sizeof pg[0], "PREPARE TRANSACTION '7:%s:%08x00000000'", name, (unsigned)w->number);
    snprintf(pg[1], sizeof pg[1], "COMMIT PREPARED '7:%s:%08x00000000'", name, (unsigned)w->number);
    snprintf(my[0], sizeof my[0], "XA END %s", xid);
    snprintf(my[1], sizeof my[1], "XA PREPARE %s", xid);
    snprintf(my[2], sizeof my[2], "XA COMMIT %s", xid);
    pg_do(w, "BEGIN");
    snprintf(both, sizeof both, "XA START %s", xid);
    my_do(w, both);
    work(w, name);
    if (is_side_by_side) {
        snprintf(both, sizeof both, "BEGIN NOT ATOMIC XA END %s; XA PREPARE %s; END", xid, xid);
        send_both(w, pg[0], both);
        send_both(w, pg[1], my[2]);
        return;
    }
    pg_do(w, pg[0]);
    my_do(w, my[0]);
    my_do(w, my[1]);
    pg_do(w, pg[1]);
    my_do(w, my[2]);
}

/* ** threads */

static void connect_to_both(struct worker *w)
{
    w->pg = PQconnectdb(pg_info);
    w->my = mysql_init(NULL);
    if (PQstatus(w->pg) != CONNECTION_OK)
        stop("PostgreSQL", PQerrorMessage(w->pg));
    if (mysql_real_connect(w->my, NULL, "bank", NULL, "bank", 0, mariadb_socket, 0) == NULL)
        stop("MariaDB", mysql_error(w->my));
}

/* All begin and end together; until the last barrier they stay open, so that what they took can be
 * looked at. */
static void *run(void *worker)
{
    struct worker *w = worker;
    bool is_tx = strcmp(how, "tx") == 0, are_sides = strcmp(how, "sides") == 0;

    if (!is_tx)
        connect_to_both(w);
    else if (tx_open() != TX_OK)
        stop("tx_open", gf_error());
    pthread_barrier_wait(&barrier);
    for (double until = now() + seconds; now() < until; w->count++)
        is_tx ? by_tx(w) : by_hand(w, are_sides);
    pthread_barrier_wait(&barrier);
    if (is_tx) {
        tx_close();
    } else {
        PQfinish(w->pg);
        mysql_close(w->my);
    }
    mysql_thread_end();
    return NULL;
}

int main(int count, char **words)
{
    static struct worker all[MOST];
    long transfers = 0;

    if (count != 6 || atoi(words[2]) < 1 || atoi(words[2]) > MOST)
        return 2;
    how = words[1];
    threads = atoi(words[2]);
    seconds = atof(words[3]);
    pg_info = words[4];
    mariadb_socket = words[5];
    mysql_library_init(0, NULL, NULL);
    pthread_barrier_init(&barrier, NULL, (unsigned)threads + 1);
    for (int i = 0; i < threads; i++) {
        all[i].number = i;
        all[i].seed = (unsigned)(time(NULL) * MOST + i);
        pthread_create(&all[i].thread, NULL, run, &all[i]);
    }
    pthread_barrier_wait(&barrier);
    double begun = now(), own = taken(RUSAGE_SELF);
    pthread_barrier_wait(&barrier);
    double took = now() - begun, own_took = taken(RUSAGE_SELF) - own;
    for (int i = 0; i < threads; i++) {
        pthread_join(all[i].thread, NULL);
        transfers += all[i].count;
    }
    printf("%ld %.3f %.3f %.3f\n", transfers, took, own_took, taken(RUSAGE_CHILDREN)); /* the coordinator's, with its start */
    mysql_library_end();
    return 0;
}
