/* What a program of TX may ask besides (tx.h). */
#ifndef GARTERFOSSIL_H
#define GARTERFOSSIL_H

#ifdef __cplusplus
extern "C" {
#endif

/* Reads the settings from this file, before the first tx_open of the process. Without it the file
 * is the one that GARTERFOSSIL_SETTINGS names in the environment. 0, or -1 if they can't be read:
 * then gf_error has the reason, and tx_open will return TX_FAIL. */
extern int gf_settings(const char *path);

/* The number of the resource manager of this name, -1 if there is none. They are numbered as the
 * settings list them, from 0. */
extern int gf_rmid(const char *name);

/* Why the last call of the thread that didn't return TX_OK did so. */
extern const char *gf_error(void);

#ifdef __cplusplus
}
#endif
#endif
