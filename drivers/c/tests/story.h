/* Stories: each is told in a process of its own, over a coordinator and resource managers that are
 * stand-ins. */
#ifndef STORY_H
#define STORY_H
#include <garterfossil.h>
#include <stdbool.h>
#include <stddef.h>
#include <tx.h>

#include "stand_in_switch.h"

struct story {
    const char *name;
    void (*tell)(void);
};

extern const struct story of_states[], of_answers[], of_losses[], of_logs[], of_processes[], of_parts[];

/* What the process is to be set up with: without it, two resource managers `a` and `b`, whose
 * switch is `stand_in`. */
void set_up(const char *rms, const char *others);
/* A path in the story's folder; that of its log, and a tail. */
const char *path_of(const char *name);
void write_file(const char *name, const char *text);
bool is_file(const char *name);
/* How many moves the coordinator has read that begin so (LOG.moves of the stand-in). */
int count_told(const char *move);
/* Kills the coordinator. */
void kill_coordinator(void);
/* Opens and begins. Where the patience is short, a start may take longer on a busy machine. */
bool is_begun(void);
/* Waits until nothing is prepared: whether that came to be. */
bool is_settled(void);

void see_number(const char *file, int line, const char *what, long found, long expected);
void see_text(const char *file, int line, const char *what, const char *found, const char *expected);
#define IS(expression, expected) see_number(__FILE__, __LINE__, #expression, (long)(expression), (long)(expected))
#define SAYS(expression, expected) see_text(__FILE__, __LINE__, #expression, expression, expected)
/* A transfer: begun, with work at both. */
#define BEGIN(amount) \
    do { \
        IS(tx_begin(), TX_OK); \
        IS(stand_in_add(0, -(amount)), true); \
        IS(stand_in_add(1, amount), true); \
    } while (0)
#endif
