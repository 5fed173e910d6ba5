/* Where the log lies, as far as the system tells. */
#include <libgen.h>
#include <linux/magic.h>
#include <stdio.h>
#include <string.h>
#include <sys/vfs.h>

#include "session.h"

static const char shared[] = "is shared: nothing sees there whether a program of another machine has it too";
static const char lost[] = "is lost with the container or the machine: what is prepared then waits for somebody";
static const struct {
    unsigned kind;
    const char *danger;
} dangers[] = {{NFS_SUPER_MAGIC, shared}, {CIFS_SUPER_MAGIC, shared}, {SMB2_SUPER_MAGIC, shared}, {OVERLAYFS_SUPER_MAGIC, lost},
    {TMPFS_MAGIC, lost}, {RAMFS_MAGIC, lost}};

const char *danger_of(unsigned kind)
{
    for (size_t i = 0; i < sizeof dangers / sizeof dangers[0]; i++)
        if (dangers[i].kind == kind)
            return dangers[i].danger;
    return NULL;
}

void warn_of_place(void)
{
    char folder[sizeof settings.log];
    struct statfs it;

    memcpy(folder, settings.log, sizeof folder);
    const char *danger = statfs(dirname(folder), &it) == 0 ? danger_of((unsigned)it.f_type) : NULL;
    if (danger != NULL)
        fprintf(stderr, "garterfossil: the log %s lies where it %s\n", settings.log, danger);
}
