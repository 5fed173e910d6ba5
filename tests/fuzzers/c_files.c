/* What the driver in C reads: its settings (with -DSETTINGS), identifiers as a database lists them
 * (-DBRANCHES), or the file beside the log. Nothing but an answer may come of any bytes; what was
 * read of the second is spelled as it was, and what was read of the third is written, and read as
 * the same. (libFuzzer; tests/fuzz builds and runs it.) */
#include <stdbool.h>
#include <stdint.h>
#include <stdio.h>
#include <stdlib.h>
#include <string.h>
#include <unistd.h>

int LLVMFuzzerTestOneInput(const uint8_t *data, size_t size);

#ifdef BRANCHES
#include "xid_text.h"

int LLVMFuzzerTestOneInput(const uint8_t *data, size_t size)
{
    char text[2 * XID_TEXT] = "", again[XID_TEXT];
    XID xid;

    if (size >= sizeof text)
        return 0;
    memcpy(text, data, size);
    if (xid_from(text, &xid) && strcmp(text_of(&xid, again), text) != 0)
        abort();
    if (is_uuid(text) && strlen(text) != 36)
        abort();
    return 0;
}
#else
/* What is written needn't outlive the machine here. */
#define fsync(file) 0
#ifdef SETTINGS
#include "settings.c"
#else
#include "databases.c"
#endif

static char folder[] = "/tmp/xatm-fuzz-c-XXXXXX", in_folder[600];

static void put(const char *name, const uint8_t *data, size_t size)
{
    static bool is_made;

    if (!is_made && mkdtemp(folder) == NULL)
        abort();
    is_made = true;
    snprintf(in_folder, sizeof in_folder, "%s/%s", folder, name);
    FILE *file = fopen(in_folder, "w");
    if (file == NULL || fwrite(data, 1, size, file) != size || fclose(file) != 0)
        abort();
}

#ifdef SETTINGS
int LLVMFuzzerTestOneInput(const uint8_t *data, size_t size)
{
    put("settings", data, size);
    are_read = false;
    if (gf_settings(in_folder) == 0)
        for (int rm = 0; rm < settings.rms; rm++)
            if (gf_rmid(settings.rm[rm].name) != rm || settings.rm[rm].xa == NULL)
                abort();
    return 0;
}
#else
static bool is_as(const struct kept *before)
{
    bool is_so = before->incarnation == kept.incarnation && strcmp(before->shut, kept.shut) == 0;

    for (int rm = 0; rm < MOST_RMS; rm++)
        is_so = is_so && strcmp(before->databases[rm].identity, kept.databases[rm].identity) == 0
            && (kept.databases[rm].identity[0] == '\0' || strcmp(before->databases[rm].at, kept.databases[rm].at) == 0);
    return is_so;
}

int LLVMFuzzerTestOneInput(const uint8_t *data, size_t size)
{
    static struct kept before;

    put("log-databases", data, size);
    snprintf(settings.log, sizeof settings.log, "%s/log", folder);
    snprintf(settings.name, sizeof settings.name, "shop-1");
    if (!read_databases() || strcmp(kept.manager, settings.name) != 0)
        return 0;
    before = kept;
    is_changed = true;
    if (!save_databases() || !read_databases() || !is_as(&before))
        abort();
    return 0;
}
#endif
#endif
