/* Moves money from an account in PostgreSQL to one in MariaDB: transfer FROM TO AMOUNT */
#include <garterfossil.h>
#include <gf_mariadb.h>
#include <gf_postgresql.h>
#include <stdio.h>
#include <stdlib.h>
#include <tx.h>

static int is_paid(PGconn *bank, int account, int amount)
{
    char statement[128];

    snprintf(statement, sizeof statement, "UPDATE account SET balance = balance - %d WHERE id = %d", amount, account);
    PGresult *result = PQexec(bank, statement);
    int is_done = PQresultStatus(result) == PGRES_COMMAND_OK && atoi(PQcmdTuples(result)) == 1;
    if (!is_done)
        fprintf(stderr, "bank: %s\n", PQerrorMessage(bank));
    PQclear(result);
    return is_done;
}

static int is_received(MYSQL *shop, int account, int amount)
{
    char statement[128];

    snprintf(statement, sizeof statement, "UPDATE account SET balance = balance + %d WHERE id = %d", amount, account);
    int is_done = mysql_query(shop, statement) == 0 && mysql_affected_rows(shop) == 1;
    if (!is_done)
        fprintf(stderr, "shop: %s\n", mysql_error(shop));
    return is_done;
}

int main(int count, char **words)
{
    if (count != 4)
        return 2;
    int from = atoi(words[1]), to = atoi(words[2]), amount = atoi(words[3]), ended = TX_FAIL;
    if (tx_open() == TX_OK && tx_begin() == TX_OK) {
        PGconn *bank = gf_pg_connection(gf_rmid("bank"));
        MYSQL *shop = gf_mariadb_connection(gf_rmid("shop"));
        if (is_paid(bank, from, amount) && is_received(shop, to, amount))
            ended = tx_commit();
        else
            tx_rollback();
    }
    if (ended != TX_OK)
        fprintf(stderr, "not transferred (%d): %s\n", ended, gf_error());
    tx_close();
    return ended == TX_OK ? 0 : 1;
}
