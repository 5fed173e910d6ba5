// Moves money from an account in PostgreSQL to one in MariaDB: transfer FROM TO AMOUNT
#include <garterfossil.h>
#include <gf_mariadb.h>
#include <gf_postgresql.h>
#include <tx.h>

#include <iostream>
#include <stdexcept>
#include <string>

// The thread's resource managers, open as long as this is.
struct Open {
    Open()
    {
        if (tx_open() != TX_OK)
            throw std::runtime_error(gf_error());
    }
    ~Open()
    {
        tx_close();
    }
};

// A transaction, which is rolled back at its end unless it was committed.
class Transaction
{
    bool is_over = false;

public:
    Transaction()
    {
        if (tx_begin() != TX_OK)
            throw std::runtime_error(gf_error());
    }
    ~Transaction()
    {
        if (!is_over)
            tx_rollback();
    }
    void commit()
    {
        is_over = true;
        if (int ended = tx_commit(); ended != TX_OK)
            throw std::runtime_error("tx_commit " + std::to_string(ended) + ": " + gf_error());
    }
};

static void pay(PGconn *bank, const std::string &account, const std::string &amount)
{
    const char *values[] = {amount.c_str(), account.c_str()};
    PGresult *result = PQexecParams(bank, "UPDATE account SET balance = balance - $1 WHERE id = $2", 2, nullptr, values, nullptr, nullptr, 0);
    bool is_done = PQresultStatus(result) == PGRES_COMMAND_OK && PQcmdTuples(result) == std::string("1");
    PQclear(result);
    if (!is_done)
        throw std::runtime_error(std::string("bank: ") + PQerrorMessage(bank));
}

static void receive(MYSQL *shop, int account, int amount)
{
    std::string statement = "UPDATE account SET balance = balance + " + std::to_string(amount) + " WHERE id = " + std::to_string(account);
    if (mysql_query(shop, statement.c_str()) != 0 || mysql_affected_rows(shop) != 1)
        throw std::runtime_error(std::string("shop: ") + mysql_error(shop));
}

int main(int, char **words)
try {
    Open open;
    Transaction transaction;
    pay(gf_pg_connection(gf_rmid("bank")), words[1], words[3]);
    receive(gf_mariadb_connection(gf_rmid("shop")), std::stoi(words[2]), std::stoi(words[3]));
    transaction.commit();
} catch (const std::exception &error) {
    std::cerr << "not transferred: " << error.what() << "\n";
    return 1;
}
