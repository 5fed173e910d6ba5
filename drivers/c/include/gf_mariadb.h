/* MariaDB as a resource manager. */
#ifndef GF_MARIADB_H
#define GF_MARIADB_H
#include <mysql.h>
#include <xa.h>

#ifdef __cplusplus
extern "C" {
#endif

/* Its branches begin as the transaction does; or, of the second, as gf_mariadb_connection is first
 * called in it. xa_open takes words as `host=..`, with one space between two: host, port, socket,
 * user, password, db, lock_timeout (seconds), and label, by which a later process finds the
 * connections of this one. */
extern const struct xa_switch_t gf_mariadb_switch, gf_mariadb_dynamic_switch;

/* The thread's connection, NULL if it has none. It is the resource manager's: the program neither
 * closes it nor ends its transaction. */
extern MYSQL *gf_mariadb_connection(int rmid);

/* What the database calls itself that the thread has opened there: what stands in a view
 * `garterfossil_identity`, which is made at its first use, or else the server's own name. 0, or 1
 * if it has none, -1 if it can't be asked now. The library looks for a function of such a name
 * beside each switch, and gives it what the database was kept as, or NULL. */
extern int gf_mariadb_switch_identity(int rmid, const char *kept, char identity[256]);
extern int gf_mariadb_dynamic_switch_identity(int rmid, const char *kept, char identity[256]);

#ifdef __cplusplus
}
#endif
#endif
