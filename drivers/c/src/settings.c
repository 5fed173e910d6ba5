/* The settings of the process: a file of lines, each a word and what it is to be. */
#include "settings.h"

#include <dlfcn.h>
#include <pthread.h>
#include <stdarg.h>
#include <stdio.h>
#include <stdlib.h>
#include <string.h>
#include <unistd.h>

#include "garterfossil.h"

struct settings settings;

static _Thread_local char reason[512];
static char path[512]; /* that gf_settings was given */
static const char *read_from; /* it, or what the environment names */
static bool are_read;
static pthread_mutex_t lock = PTHREAD_MUTEX_INITIALIZER;

bool explain(const char *format, ...)
{
    va_list words;

    va_start(words, format);
    vsnprintf(reason, sizeof reason, format, words);
    va_end(words);
    return false;
}

API const char *gf_error(void)
{
    return reason;
}

/* Says what is wrong with the file. False. */
static bool wrong(const char *name, const char *why)
{
    return explain("%s: %s%s", read_from, name, why);
}

static bool is_copied(char *to, size_t room, const char *text)
{
    return (size_t)snprintf(to, room, "%s", text) < room;
}

static int rm_of(const char *name)
{
    int rm = settings.rms - 1;

    while (rm >= 0 && strcmp(settings.rm[rm].name, name) != 0)
        rm--;
    return rm;
}

/* The switch, and beside it, where there is one, a function of its name and `_identity`. */
static bool is_loaded(struct rm *rm, const char *library, const char *symbol)
{
    void *object = dlopen(strcmp(library, "-") == 0 ? NULL : library, RTLD_NOW);
    char beside[160];

    rm->xa = object == NULL ? NULL : dlsym(object, symbol);
    if (rm->xa == NULL)
        return wrong("", dlerror());
    snprintf(beside, sizeof beside, "%s_identity", symbol);
    /* (C has no conversion from an object to a function.) */
    *(void **)&rm->identity = dlsym(object, beside);
    return true;
}

/* `rm NAME LIBRARY SYMBOL INFO..`; a library `-` is the program itself. */
static bool is_rm(const char *line, bool is_embedded)
{
    char library[256], symbol[128];
    struct rm *rm = &settings.rm[settings.rms];
    int info = 0;

    if (settings.rms == MOST_RMS || sscanf(line, "%64s %255s %127s %n", rm->name, library, symbol, &info) != 3 || info == 0)
        return wrong("rm", ": it takes a name, a library, a symbol, and what xa_open takes");
    if (rm_of(rm->name) >= 0)
        return wrong(rm->name, ": there are two of this name");
    if (!is_copied(rm->open, sizeof rm->open, line + info))
        return wrong(rm->name, ": what xa_open takes has at most 255 bytes");
    rm->is_embedded = is_embedded;
    if (!is_loaded(rm, library, symbol))
        return false;
    settings.rms++;
    return true;
}

/* `close NAME INFO..` */
static bool is_close(const char *line)
{
    char name[65];
    int info = 0;
    bool is_right = sscanf(line, "%64s %n", name, &info) == 1 && info > 0 && rm_of(name) >= 0;

    return (is_right && is_copied(settings.rm[rm_of(name)].close, MAXINFOSIZE, line + info))
        || wrong("close", ": it takes the name of an rm that stands before it, and what xa_close takes");
}

static bool is_number(const char *text, double *number, double least, double most)
{
    int end = 0;

    return sscanf(text, "%lf%n", number, &end) == 1 && text[end] == '\0' && *number >= least && *number <= most;
}

/* The path as it is from any folder: the program may go to another one, and the coordinator is
 * started again there. */
static bool is_log(const char *name)
{
    char folder[sizeof settings.log];

    if (name[0] == '/')
        return is_copied(settings.log, sizeof settings.log, name);
    return getcwd(folder, sizeof folder) != NULL
        && (size_t)snprintf(settings.log, sizeof settings.log, "%s/%s", folder, name) < sizeof settings.log;
}

/* Whether the word is a setting, and the value is one of it. */
static bool is_set(const char *word, const char *value)
{
    double number = 0;

    if (strcmp(word, "log") == 0)
        return is_log(value);
    if (strcmp(word, "program") == 0)
        return is_copied(settings.program, sizeof settings.program, value);
    if (strcmp(word, "name") == 0)
        return is_copied(settings.name, sizeof settings.name, value);
    if (strcmp(word, "patience") == 0)
        return is_number(value, &settings.patience, 0.01, 86400);
    if (strcmp(word, "threads") == 0 && is_number(value, &number, 1, MOST_THREADS)) {
        settings.threads = (int)number;
        return settings.threads == number;
    }
    return false;
}

static bool is_read(char *line)
{
    char word[16];
    int begun = 0;

    line[strcspn(line, "\r\n")] = '\0';
    if (line[strspn(line, " \t")] == '\0' || line[strspn(line, " \t")] == '#')
        return true;
    sscanf(line, "%15s %n", word, &begun);
    if (strcmp(word, "rm") == 0 || strcmp(word, "embedded") == 0)
        return is_rm(line + begun, word[0] == 'e');
    if (strcmp(word, "close") == 0)
        return is_close(line + begun);
    return is_set(word, line + begun) || wrong("no such setting: ", line);
}

static bool is_file_read(void)
{
    char line[1024];
    bool is_right = true;

    read_from = path[0] != '\0' ? path : getenv("GARTERFOSSIL_SETTINGS");
    FILE *file = read_from == NULL ? NULL : fopen(read_from, "re");
    if (file == NULL)
        return explain("%s: there are no settings to read", read_from == NULL ? "GARTERFOSSIL_SETTINGS" : read_from);
    settings = (struct settings){.program = "xatm", .threads = 8, .patience = 30};
    while (is_right && fgets(line, sizeof line, file) != NULL)
        is_right = is_read(line);
    fclose(file);
    return is_right && ((settings.log[0] != '\0' && settings.rms > 0) || wrong("", "it names no log, or no rm"));
}

bool read_settings(void)
{
    pthread_mutex_lock(&lock);
    are_read = are_read || is_file_read();
    bool is_right = are_read;
    pthread_mutex_unlock(&lock);
    return is_right;
}

API int gf_settings(const char *file)
{
    pthread_mutex_lock(&lock);
    bool is_kept = are_read || is_copied(path, sizeof path, file);
    pthread_mutex_unlock(&lock);
    return (is_kept || explain("%s: the path is too long", file)) && read_settings() ? 0 : -1;
}

API int gf_rmid(const char *name)
{
    return read_settings() ? rm_of(name) : -1;
}
