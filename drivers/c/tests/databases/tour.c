/* Stories over PostgreSQL and MariaDB, and how each ends: tour PG_INFO MARIADB_SOCKET [dynamic].
 * Says which is wrong. */
#include <garterfossil.h>
#include <gf_mariadb.h>
#include <gf_postgresql.h>
#include <pthread.h>
#include <signal.h>
#include <stdbool.h>
#include <stdio.h>
#include <stdlib.h>
#include <string.h>
#include <sys/wait.h>
#include <tx.h>
#include <unistd.h>

static PGconn *pg_aside;
static MYSQL *my_aside;
static bool is_dynamic;
static int wrong, stories;

static void see_at(int line, const char *what, long found, long expected)
{
    if (found != expected) {
        printf("line %d: %s: %ld, not %ld (%s)\n", line, what, found, expected, gf_error());
        wrong++;
    }
}
#define IS(expression, expected) see_at(__LINE__, #expression, (long)(expression), (long)(expected))

static bool pg(const char *statement)
{
    PGconn *link = gf_pg_connection(0);
    PGresult *result = link == NULL ? NULL : PQexec(link, statement);
    bool is_done = PQresultStatus(result) == PGRES_COMMAND_OK || PQresultStatus(result) == PGRES_TUPLES_OK;
    PQclear(result);
    return is_done;
}

static bool my(const char *statement)
{
    MYSQL *link = gf_mariadb_connection(1);
    return link != NULL && mysql_query(link, statement) == 0;
}

static long pg_number(const char *statement)
{
    PGresult *result = PQexec(pg_aside, statement);
    long number = PQresultStatus(result) == PGRES_TUPLES_OK ? atol(PQgetvalue(result, 0, 0)) : -1;
    PQclear(result);
    return number;
}

static long my_number(const char *statement)
{
    MYSQL_RES *rows = mysql_query(my_aside, statement) == 0 ? mysql_store_result(my_aside) : NULL;
    MYSQL_ROW row = rows == NULL ? NULL : mysql_fetch_row(rows);
    long number = row == NULL ? -1 : atol(row[0]);
    mysql_free_result(rows);
    return number;
}

static bool is_in_doubt(void)
{
    MYSQL_RES *rows = mysql_query(my_aside, "XA RECOVER") == 0 ? mysql_store_result(my_aside) : NULL;
    bool is_so = rows == NULL || mysql_num_rows(rows) > 0 || pg_number("SELECT count(*) FROM pg_prepared_xacts") != 0;
    mysql_free_result(rows);
    return is_so;
}

static void settle(void)
{
    for (int i = 0; i < 300 && is_in_doubt(); i++)
        usleep(20000);
}

static bool both(const char *name)
{
    char text[128];
    snprintf(text, sizeof text, "INSERT INTO moved VALUES ('%s', 1)", name);
    return pg(text) && my(text);
}

/* How many of the two hold the transfer of this name, once nothing is in doubt. */
static long holds(const char *name)
{
    char text[128];
    settle();
    snprintf(text, sizeof text, "SELECT count(*) FROM moved WHERE gtrid = '%s'", name);
    IS(is_in_doubt(), false);
    return pg_number(text) + my_number(text);
}

static void story(const char *name)
{
    stories++;
    fprintf(stderr, "-- %s\n", name);
}

static void end_pg(void)
{
    char text[80];
    snprintf(text, sizeof text, "SELECT pg_terminate_backend(%d)::int", PQbackendPID(gf_pg_connection(0)));
    pg_number(text);
    usleep(100000);
}

static void end_my(void)
{
    char text[80];
    snprintf(text, sizeof text, "KILL CONNECTION %lu", mysql_thread_id(gf_mariadb_connection(1)));
    mysql_query(my_aside, text);
    usleep(100000);
}

static void kill_coordinator(void)
{
    char command[80];
    snprintf(command, sizeof command, "kill -9 $(pgrep -P %d xatm)", (int)getpid());
    IS(system(command), 0);
    usleep(50000);
}

static void codes_of_tx(void)
{
    TXINFO info;

    story("TX's own codes");
    IS(tx_info(NULL), TX_PROTOCOL_ERROR);
    IS(tx_begin(), TX_PROTOCOL_ERROR);
    IS(tx_commit(), TX_PROTOCOL_ERROR);
    IS(tx_close(), TX_OK);
    IS(tx_open(), TX_OK);
    IS(tx_open(), TX_OK);
    IS(tx_commit(), TX_PROTOCOL_ERROR);
    IS(tx_rollback(), TX_PROTOCOL_ERROR);
    IS(tx_info(&info), 0);
    IS(info.xid.formatID, -1);
    IS(tx_set_commit_return(TX_COMMIT_COMPLETED), TX_OK);
    IS(tx_set_commit_return(TX_COMMIT_DECISION_LOGGED), TX_NOT_SUPPORTED);
    IS(tx_set_commit_return(7), TX_EINVAL);
    IS(tx_set_transaction_control(7), TX_EINVAL);
    IS(tx_set_transaction_timeout(-1), TX_EINVAL);
    IS(tx_begin(), TX_OK);
    IS(tx_begin(), TX_PROTOCOL_ERROR);
    IS(tx_close(), TX_PROTOCOL_ERROR);
    IS(tx_info(&info), 1);
    IS(info.xid.formatID, 7);
    IS(info.transaction_state, TX_ACTIVE);
    IS(tx_commit(), TX_OK);
    IS(gf_rmid("shop"), 1);
    IS(gf_rmid("nobody"), -1);
}

static void ends(void)
{
    story("both commit");
    IS(tx_begin(), TX_OK);
    IS(both("commit"), true);
    IS(tx_commit(), TX_OK);
    IS(holds("commit"), 2);

    story("both roll back");
    IS(tx_begin(), TX_OK);
    IS(both("rollback"), true);
    IS(tx_rollback(), TX_OK);
    IS(holds("rollback"), 0);

    story("one only reads");
    IS(tx_begin(), TX_OK);
    IS(pg("SELECT 1"), true);
    IS(my("INSERT INTO moved VALUES ('reads', 1)"), true);
    IS(tx_commit(), TX_OK);
    IS(holds("reads"), 1);

    story("one of them alone");
    IS(tx_begin(), TX_OK);
    IS(pg("INSERT INTO moved VALUES ('alone', 1)"), true);
    IS(tx_commit(), TX_OK);
    IS(holds("alone"), 1);
    IS(tx_begin(), TX_OK);
    IS(my("INSERT INTO moved VALUES ('alone my', 1)"), true);
    IS(tx_commit(), TX_OK);
    IS(holds("alone my"), 1);
    IS(tx_begin(), TX_OK);
    IS(my("INSERT INTO moved VALUES ('alone no', 1)"), true);
    IS(tx_rollback(), TX_OK);
    IS(holds("alone no"), 0);
}

/* Whether PostgreSQL is asked, before it prepares, if the branch has written. */
static bool is_asked(const char *statement, const char *name)
{
    char text[8192] = "", of_mariadb[128];
    FILE *trace = tmpfile();

    snprintf(of_mariadb, sizeof of_mariadb, "INSERT INTO moved VALUES ('%s', 1)", name);
    IS(tx_begin(), TX_OK);
    IS(pg(statement), true);
    IS(my(of_mariadb), true);
    PGconn *link = gf_pg_connection(0);
    PQtrace(link, trace);
    IS(tx_commit(), TX_OK);
    PQuntrace(link);
    rewind(trace);
    IS(fread(text, 1, sizeof text - 1, trace) > 0, true);
    fclose(trace);
    return strstr(text, "pg_current_xact_id_if_assigned") != NULL;
}

static void questions(void)
{
    story("one that has changed a row isn't asked whether it has");
    IS(is_asked("INSERT INTO moved VALUES ('asked 1', 1)", "asked 1"), false);
    IS(is_asked("UPDATE account SET balance = balance WHERE id = 1", "asked 2"), false);
    IS(is_asked("UPDATE account SET balance = balance WHERE false", "asked 3"), true);
    IS(is_asked("SELECT 1", "asked 4"), true);
    IS(holds("asked 1"), 2);
}

static void votes(void)
{
    story("a statement fails in PostgreSQL, and the program commits all the same");
    IS(tx_begin(), TX_OK);
    IS(both("failed"), true);
    IS(pg("SELECT 1/0"), false);
    IS(tx_commit(), TX_ROLLBACK);
    IS(holds("failed"), 0);

    story("PostgreSQL votes no at xa_prepare");
    IS(tx_begin(), TX_OK);
    IS(both("deferred"), true);
    IS(pg("INSERT INTO once VALUES (1)"), true);
    IS(tx_commit(), TX_ROLLBACK);
    IS(holds("deferred"), 0);

    story("the same, alone");
    IS(tx_begin(), TX_OK);
    IS(pg("INSERT INTO once VALUES (1)"), true);
    IS(tx_commit(), TX_ROLLBACK);

    story("the program ends PostgreSQL's transaction itself");
    IS(tx_begin(), TX_OK);
    IS(my("INSERT INTO moved VALUES ('ended', 1)"), true);
    IS(pg("SELECT 1"), true);
    IS(pg("ROLLBACK"), true);
    IS(tx_commit(), TX_ROLLBACK);
    IS(holds("ended"), 0);

    story("a deadlock in MariaDB");
    IS(mysql_query(my_aside, "START TRANSACTION") | mysql_query(my_aside, "UPDATE account SET balance = balance WHERE id = 2"), 0);
    IS(tx_begin(), TX_OK);
    IS(both("deadlock"), true);
    IS(my("UPDATE account SET balance = balance WHERE id = 1"), true);
    IS(mysql_send_query(my_aside, "UPDATE account SET balance = balance WHERE id IN (1, 3, 4, 5, 6, 7, 8, 9)", 73), 0);
    usleep(200000);
    bool is_done = my("UPDATE account SET balance = balance WHERE id = 2");
    IS(tx_commit(), is_done ? TX_OK : TX_ROLLBACK);
    mysql_read_query_result(my_aside);
    mysql_query(my_aside, "ROLLBACK");
    IS(holds("deadlock"), is_done ? 2 : 0);
}

static void outside(void)
{
    if (!is_dynamic)
        return;
    story("a connection that was kept is outside of a branch");
    IS(gf_pg_connection(0) == NULL, true);
    IS(tx_begin(), TX_OK);
    IS(both("kept"), true);
    PGconn *kept = gf_pg_connection(0);
    MYSQL *my_kept = gf_mariadb_connection(1);
    IS(tx_commit(), TX_OK);
    IS(tx_begin(), TX_OK);
    PGresult *result = PQexec(kept, "INSERT INTO moved VALUES ('outside', 1)");
    IS(PQresultStatus(result) == PGRES_COMMAND_OK, false);
    PQclear(result);
    IS(mysql_query(my_kept, "INSERT INTO moved VALUES ('outside', 1)") == 0, false);
    IS(tx_commit(), TX_OK);
    IS(holds("outside"), 0);
}

static void chains(void)
{
    TXINFO info, next;

    story("a chain");
    IS(tx_set_transaction_control(TX_CHAINED), TX_OK);
    IS(tx_begin(), TX_OK);
    IS(tx_info(&info), 1);
    IS(both("chain 1"), true);
    IS(tx_commit(), TX_OK);
    IS(tx_info(&next), 1);
    IS(memcmp(info.xid.data, next.xid.data, sizeof info.xid.data) != 0, true);
    IS(both("chain 2"), true);
    IS(tx_rollback(), TX_OK);
    IS(tx_set_transaction_control(TX_UNCHAINED), TX_OK);
    IS(both("chain 3"), true);
    IS(tx_commit(), TX_OK);
    IS(tx_info(NULL), 0);
    IS(holds("chain 1"), 2);
    IS(holds("chain 2"), 0);
    IS(holds("chain 3"), 2);

    story("a time-out");
    IS(tx_set_transaction_timeout(1), TX_OK);
    IS(tx_begin(), TX_OK);
    IS(both("late"), true);
    sleep(1);
    usleep(10000);
    IS(tx_info(&info), 1);
    IS(info.transaction_state, TX_TIMEOUT_ROLLBACK_ONLY);
    IS(tx_commit(), TX_ROLLBACK);
    IS(tx_set_transaction_timeout(0), TX_OK);
    IS(holds("late"), 0);
}

static void losses(void)
{
    for (int which = 0; which < 4; which++) {
        char name[20];
        snprintf(name, sizeof name, "lost %d", which);
        story(name);
        IS(tx_begin(), TX_OK);
        IS(both(name), true);
        which % 2 ? end_my() : end_pg();
        IS(which < 2 ? tx_commit() : tx_rollback(), which < 2 ? TX_ROLLBACK : TX_OK);
        IS(holds(name), 0);
        IS(tx_begin(), TX_OK);
        IS(both(name), true);
        IS(tx_commit(), TX_OK);
        IS(holds(name), 2);
    }
    story("a connection is lost before a transaction begins");
    if (is_dynamic) {
        IS(tx_begin(), TX_OK);
        end_pg();
        IS(tx_rollback(), TX_OK);
    } else {
        end_pg();
    }
    int begun = tx_begin();
    if (begun == TX_ERROR)
        begun = tx_begin();
    IS(begun, TX_OK);
    IS(both("lost before"), true);
    IS(tx_commit(), TX_OK);
    IS(holds("lost before"), 2);

    story("lost as it is to commit alone");
    IS(tx_begin(), TX_OK);
    IS(pg("INSERT INTO moved VALUES ('lost alone', 1)"), true);
    end_pg();
    int ended = tx_commit();
    IS(ended == TX_ROLLBACK || ended == TX_HAZARD, true);
    IS(holds("lost alone"), 0);
}

static void coordinators(void)
{
    TXINFO info;

    for (int which = 0; which < 3; which++) {
        char name[20];
        snprintf(name, sizeof name, "coordinator %d", which);
        story(name);
        IS(tx_begin(), TX_OK);
        IS(both(name), true);
        kill_coordinator();
        if (which == 2) {
            IS(tx_rollback(), TX_OK);
        } else {
            IS(tx_commit(), TX_ROLLBACK);
        }
        IS(holds(name), 0);
        if (which == 1) {
            IS(tx_info(&info), 0);
            kill_coordinator();
        }
        IS(tx_begin(), TX_OK);
        IS(both(name), true);
        IS(tx_commit(), TX_OK);
        IS(holds(name), 2);
    }
}

static void *another(void *unused)
{
    (void)unused;
    IS(tx_open(), TX_OK);
    IS(tx_begin(), TX_OK);
    IS(both("left"), true);
    mysql_thread_end();
    return NULL; /* and so it is rolled back */
}

static void threads_and_forks(void)
{
    pthread_t thread;

    story("a thread ends within a transaction");
    pthread_create(&thread, NULL, another, NULL);
    pthread_join(thread, NULL);
    IS(holds("left"), 0);

    story("a fork");
    pid_t pid = fork();
    if (pid == 0)
        _exit(tx_begin() != TX_OK ? 0 : 1);
    int status = 1;
    waitpid(pid, &status, 0);
    IS(status, 0);
    IS(tx_begin(), TX_OK);
    IS(both("fork"), true);
    IS(tx_commit(), TX_OK);
    IS(holds("fork"), 2);
}

int main(int count, char **words)
{
    if (count < 3)
        return 2;
    is_dynamic = count > 3;
    mysql_library_init(0, NULL, NULL);
    pg_aside = PQconnectdb(words[1]);
    my_aside = mysql_init(NULL);
    mysql_real_connect(my_aside, NULL, "root", NULL, "bank", 0, words[2], 0);
    codes_of_tx();
    ends();
    questions();
    votes();
    outside();
    chains();
    losses();
    coordinators();
    threads_and_forks();
    IS(tx_close(), TX_OK);
    PQfinish(pg_aside);
    mysql_close(my_aside);
    mysql_library_end();
    printf("tour: %d stories, %d wrong\n", stories, wrong);
    return wrong > 0;
}
