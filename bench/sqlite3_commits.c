/* How many decisions a second the C library sqlite3 takes in a new file, with the tables and the statements of the decision log: one
   transaction of three rows, which the key of a decision would refuse if it were there. */
#include <sqlite3.h>
#include <stdio.h>
#include <stdlib.h>
#include <time.h>

enum { COMMITS = 20000 };

static sqlite3 *db;

static void must(int result) {
    if (result != SQLITE_OK && result != SQLITE_DONE && result != SQLITE_ROW) {
        fprintf(stderr, "sqlite3: %s\n", sqlite3_errmsg(db));
        exit(1);
    }
}

static void run(const char *sql) { must(sqlite3_exec(db, sql, NULL, NULL, NULL)); }

static sqlite3_stmt *prepared(const char *sql) {
    sqlite3_stmt *statement;
    must(sqlite3_prepare_v2(db, sql, -1, &statement, NULL));
    return statement;
}

static void step(sqlite3_stmt *statement, int count, const sqlite3_int64 *values) {
    for (int at = 0; at < count; at++) must(sqlite3_bind_int64(statement, at + 1, values[at]));
    must(sqlite3_step(statement));
    must(sqlite3_reset(statement));
}

static void measure(const char *path) {
    must(sqlite3_open(path, &db));
    run("PRAGMA page_size = 1024; PRAGMA journal_mode = WAL; PRAGMA synchronous = FULL; PRAGMA foreign_keys = ON;"
        "CREATE TABLE decision (inc INTEGER NOT NULL, seq INTEGER NOT NULL, PRIMARY KEY (inc, seq));"
        "CREATE TABLE participant (inc INTEGER NOT NULL, seq INTEGER NOT NULL, thread INTEGER NOT NULL,"
        " rm INTEGER NOT NULL, PRIMARY KEY (inc, seq, thread, rm),"
        " FOREIGN KEY (inc, seq) REFERENCES decision (inc, seq) ON DELETE CASCADE);");
    sqlite3_stmt *decide = prepared("INSERT INTO decision (inc, seq) VALUES (?1, ?2)");
    sqlite3_stmt *join = prepared("INSERT INTO participant (inc, seq, thread, rm) VALUES (?1, ?2, ?3, ?4)");
    sqlite3_stmt *begin = prepared("BEGIN"), *commit = prepared("COMMIT");
    struct timespec from, to;
    clock_gettime(CLOCK_MONOTONIC, &from);
    for (sqlite3_int64 sequence = 1; sequence <= COMMITS; sequence++) {
        sqlite3_int64 first[] = {1, sequence, 0, 0}, second[] = {1, sequence, 0, 1};
        step(begin, 0, NULL);
        step(decide, 2, first);
        step(join, 4, first);
        step(join, 4, second);
        step(commit, 0, NULL);
    }
    clock_gettime(CLOCK_MONOTONIC, &to);
    double seconds = (to.tv_sec - from.tv_sec) + (to.tv_nsec - from.tv_nsec) / 1e9;
    printf("%.0f\n", COMMITS / seconds);
    sqlite3_finalize(decide);
    sqlite3_finalize(join);
    sqlite3_finalize(begin);
    sqlite3_finalize(commit);
    must(sqlite3_close(db));
}

int main(int count, char **words) {
    if (count != 2) return 2;
    measure(words[1]);
    return 0;
}
