/* What is kept beside the log: which databases it belongs to, and how far it has come. */
#ifndef DATABASES_H
#define DATABASES_H
#include <stdbool.h>

#include "../src/settings.h"

/* Reads `<log>-databases`, if it is there and this manager's. False if it can't be read. */
bool read_databases(void);
/* Whether the database that the calling thread has opened at a resource manager is the one that the
 * log belongs to. One that wasn't met yet is from then on, and one that tells no identity always
 * is. */
bool is_its_database(int rm);
/* The last incarnation of the log that was met, 0 if there is none. */
long last_incarnation(void);
void meet_incarnation(long);
/* Why no session is to begin over the log until somebody has looked, as another driver has said; ""
 * if one may. */
const char *shut_because(void);
/* Writes what was met. False if it can't be written. */
bool save_databases(void);
#endif
