/* PostgreSQL as a resource manager. */
#ifndef GF_POSTGRESQL_H
#define GF_POSTGRESQL_H
#include <libpq-fe.h>
#include <xa.h>

#ifdef __cplusplus
extern "C" {
#endif

/* Its branches begin as the transaction does; or, of the second, as gf_pg_connection is first
 * called in it. xa_open takes a connection string of libpq. */
extern const struct xa_switch_t gf_pg_switch, gf_pg_dynamic_switch;

/* The thread's connection, NULL if it has none. It is the resource manager's: the program neither
 * closes it nor ends its transaction. */
extern PGconn *gf_pg_connection(int rmid);

/* What the database calls itself that the thread has opened there: 0, or 1 if the user may not ask,
 * -1 if it can't be asked now. The library looks for a function of such a name beside each switch,
 * and gives it what the database was kept as, or NULL. */
extern int gf_pg_switch_identity(int rmid, const char *kept, char identity[256]);
extern int gf_pg_dynamic_switch_identity(int rmid, const char *kept, char identity[256]);

#ifdef __cplusplus
}
#endif
#endif
