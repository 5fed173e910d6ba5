/* What is kept beside the log, in `<log>-databases`: which databases it belongs to, and how far it
 * has come. The drivers in Python and Java read and write the same file:
 *
 *     {"version": 1, "manager": "shop-1", "incarnation": 12,
 *      "databases": [{"number": 0, "at": "..", "identity": ".."}]}
 *
 * and, if nobody is to use the log, "shut" with the reason. */
#include "databases.h"

#include <errno.h>
#include <fcntl.h>
#include <libgen.h>
#include <pthread.h>
#include <stdio.h>
#include <stdlib.h>
#include <string.h>
#include <unistd.h>

#include "json.h"

enum { VERSION = 1, LONGEST = 1 << 20, PLACE = 512, WHY = 512 };

struct database {
    char at[PLACE], identity[IDENTITY];
};

static struct kept {
    long version, incarnation;
    char manager[32], shut[WHY];
    struct database databases[MOST_RMS];
} kept;
static bool is_changed;
static pthread_mutex_t lock = PTHREAD_MUTEX_INITIALIZER;

/* ** the file */

static const char *path_of_file(char *to, size_t room, const char *tail)
{
    snprintf(to, room, "%s-databases%s", settings.log, tail);
    return to;
}

struct numbered {
    long number;
    struct database it;
};

static bool read_of_database(const char *name, const char **at, void *to)
{
    struct numbered *found = to;

    if (strcmp(name, "number") == 0)
        return read_number(at, &found->number);
    if (strcmp(name, "at") == 0)
        return read_string(at, found->it.at, sizeof found->it.at);
    if (strcmp(name, "identity") == 0)
        return read_string(at, found->it.identity, sizeof found->it.identity);
    return skip_value(at);
}

static bool are_databases_read(const char **at)
{
    if (!is_next(at, '['))
        return false;
    if (is_next(at, ']'))
        return true;
    do {
        struct numbered found = {.number = -1};
        if (!read_object(at, read_of_database, &found) || found.number < 0 || found.number >= MOST_RMS || found.it.identity[0] == '\0')
            return false;
        kept.databases[found.number] = found.it;
    } while (is_next(at, ','));
    return is_next(at, ']');
}

static bool read_of_file(const char *name, const char **at, void *unused)
{
    (void)unused;
    if (strcmp(name, "version") == 0)
        return read_number(at, &kept.version);
    if (strcmp(name, "incarnation") == 0)
        return read_number(at, &kept.incarnation);
    if (strcmp(name, "manager") == 0)
        return read_string(at, kept.manager, sizeof kept.manager);
    if (strcmp(name, "shut") == 0)
        return read_string(at, kept.shut, sizeof kept.shut);
    return strcmp(name, "databases") == 0 ? are_databases_read(at) : skip_value(at);
}

static bool is_all_read(const char *at)
{
    if (!read_object(&at, read_of_file, NULL) || kept.version != VERSION || kept.incarnation < 0)
        return false;
    at += strspn(at, " \t\r\n");
    return *at == '\0';
}

/* A byte 0 would end it before its end. */
static bool is_text_read(FILE *file, char *text)
{
    size_t length = fread(text, 1, LONGEST - 1, file);

    return length > 0 && length < LONGEST - 1 && strlen(text) == length;
}

bool read_databases(void)
{
    char path[sizeof settings.log + 16];

    memset(&kept, 0, sizeof kept);
    FILE *file = fopen(path_of_file(path, sizeof path, ""), "re");
    if (file == NULL && errno == ENOENT)
        return true;
    char *text = file == NULL ? NULL : calloc(1, LONGEST);
    bool is_right = text != NULL && is_text_read(file, text) && is_all_read(text);
    if (!is_right)
        explain("%s can't be read (%s): it says which databases the log belongs to. If they are surely the same, remove it", path,
            file == NULL       ? strerror(errno)
                : text == NULL ? "no memory"
                               : "it isn't what a driver of this version has written");
    free(text);
    if (file != NULL)
        fclose(file);
    if (is_right && strcmp(kept.manager, settings.name) != 0)
        memset(&kept, 0, sizeof kept); /* that of another manager's log, which was here */
    return is_right;
}

static bool is_synced(const char *path, int flags)
{
    int file = open(path, flags | O_CLOEXEC);
    bool is_right = file >= 0 && fsync(file) == 0;

    if (file >= 0)
        close(file);
    return is_right;
}

/* A line for each thing, so that somebody can remove one. */
static void write_all(FILE *file)
{
    const char *before = "";

    fprintf(file, "{\n \"version\": %d,\n \"manager\": ", VERSION);
    write_string(file, settings.name);
    if (kept.shut[0] != '\0') {
        fputs(",\n \"shut\": ", file);
        write_string(file, kept.shut);
    }
    fprintf(file, ",\n \"incarnation\": %ld,\n \"databases\": [", kept.incarnation);
    for (int rm = 0; rm < MOST_RMS; rm++) {
        if (kept.databases[rm].identity[0] == '\0')
            continue;
        fprintf(file, "%s{\"number\": %d, \"at\": ", before, rm);
        write_string(file, kept.databases[rm].at);
        fputs(", \"identity\": ", file);
        write_string(file, kept.databases[rm].identity);
        fputs("}", file);
        before = ", ";
    }
    fputs("]\n}\n", file);
}

/* In one move, so that a crash leaves the file as it was, or as it is to be. */
static bool is_written(const char *path, const char *new)
{
    char folder[sizeof settings.log + 16];

    FILE *file = fopen(new, "we");
    if (file == NULL)
        return false;
    write_all(file);
    bool is_right = fflush(file) == 0 && ferror(file) == 0 && fsync(fileno(file)) == 0;
    is_right = fclose(file) == 0 && is_right;
    snprintf(folder, sizeof folder, "%s", path);
    return is_right && rename(new, path) == 0 && is_synced(dirname(folder), O_RDONLY | O_DIRECTORY);
}

bool save_databases(void)
{
    char path[sizeof settings.log + 16], new[sizeof settings.log + 16];
    bool is_right = true;

    path_of_file(path, sizeof path, "");
    path_of_file(new, sizeof new, "-new");
    pthread_mutex_lock(&lock);
    if (is_changed) {
        is_right = is_written(path, new);
        is_changed = !is_right;
    }
    pthread_mutex_unlock(&lock);
    if (!is_right)
        explain("%s can't be written: %s", path, strerror(errno));
    return is_right;
}

/* ** which databases they are */

/* The name of another resource manager that the log has met as this, NULL if there is none: two
 * have changed places. */
static const char *place_of(const char *identity)
{
    for (int rm = 0; rm < settings.rms; rm++)
        if (strcmp(kept.databases[rm].identity, identity) == 0)
            return settings.rm[rm].name;
    return NULL;
}

/* Whether it is the one that was met before, if one was. */
static bool is_as_met(int rm, const char *identity)
{
    struct database *met = &kept.databases[rm];
    const char *other = place_of(identity);

    if (strcmp(met->identity, identity) == 0)
        return true;
    if (met->identity[0] == '\0') {
        snprintf(met->at, sizeof met->at, "%s", settings.rm[rm].name);
        snprintf(met->identity, sizeof met->identity, "%s", identity);
        is_changed = true;
        return true;
    }
    explain("%s isn't the database that the log %s belongs to: it is %s, and it was %s.%s%s%s Nothing was asked of it",
        settings.rm[rm].name, settings.log, identity, met->identity, other == NULL ? "" : " That is the place of ",
        other == NULL ? "" : other, other == NULL ? "" : ".");
    return false;
}

bool is_its_database(int rm)
{
    char identity[IDENTITY] = "", before[IDENTITY];
    const struct rm *it = &settings.rm[rm];

    if (it->identity == NULL)
        return true;
    pthread_mutex_lock(&lock);
    memcpy(before, kept.databases[rm].identity, sizeof before);
    pthread_mutex_unlock(&lock);
    int asked = it->identity(rm, before[0] == '\0' ? NULL : before, identity);
    if (asked < 0)
        explain("%s doesn't tell which database it is", it->name);
    if (asked != 0)
        return asked > 0;
    pthread_mutex_lock(&lock);
    bool is_right = is_as_met(rm, identity);
    pthread_mutex_unlock(&lock);
    return is_right;
}

/* ** how far the log has come */

long last_incarnation(void)
{
    return kept.incarnation;
}

void meet_incarnation(long incarnation)
{
    pthread_mutex_lock(&lock);
    kept.incarnation = incarnation;
    is_changed = true;
    pthread_mutex_unlock(&lock);
}

const char *shut_because(void)
{
    return kept.shut;
}
