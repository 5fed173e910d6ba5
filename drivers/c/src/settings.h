/* The settings of the process, and why the last call of a thread failed. */
#ifndef SETTINGS_H
#define SETTINGS_H
#include <stdbool.h>
#include <xa.h>

#define API __attribute__((visibility("default")))
#define LIKE_PRINTF(text, first) __attribute__((format(printf, text, first)))

enum {
    MOST_RMS = 64,
    MOST_THREADS = 1023, /* and the keeper's */
    IDENTITY = 256 /* bytes of what a database calls itself, with its end */
};

struct rm {
    char name[65], open[MAXINFOSIZE], close[MAXINFOSIZE];
    bool is_embedded; /* what the program has opened in it lasts as long as it is open */
    const struct xa_switch_t *xa;
    /* What the database calls itself that the thread has opened there, and maybe what it was kept
     * as, or NULL: 0, or 1 if it tells nothing, -1 if it can't be asked. NULL if the switch has no
     * such function. */
    int (*identity)(int rmid, const char *kept, char identity[IDENTITY]);
};

extern struct settings {
    char program[512], log[512], name[17];
    int threads, rms;
    double patience;
    struct rm rm[MOST_RMS];
} settings;

/* Reads them, unless they were. False if they can't be read, with the reason in gf_error. */
bool read_settings(void);
/* Keeps what gf_error gives. False. */
bool explain(const char *format, ...) LIKE_PRINTF(1, 2);
#endif
