/* Whether the log is the one that the databases belong to: another one is refused at each start,
 * and so is another database. */
#include <stdio.h>
#include <stdlib.h>
#include <string.h>
#include <sys/wait.h>
#include <unistd.h>

#include "story.h"

static const char known_rms[] = "rm a - stand_in x\nrm b - stand_in x\n";

static bool is_said(const char *words)
{
    if (strstr(gf_error(), words) != NULL)
        return true;
    printf("gf_error: %s\n", gf_error());
    return false;
}

/* A start in a process of its own, as a supervisor makes it. */
static int start(const char *words)
{
    int status = 1;
    pid_t pid = fork();

    if (pid == 0) {
        int found = tx_open();
        _exit(found == TX_OK ? 0 : is_said(words) ? 2 : 3);
    }
    waitpid(pid, &status, 0);
    return WEXITSTATUS(status);
}

static void the_file(void)
{
    char text[512] = "";

    set_up(known_rms, NULL);
    stand_in_is(0, "one \"x\" \\ \xc3\xa4");
    IS(tx_open(), TX_OK);
    IS(tx_close(), TX_OK);
    FILE *file = fopen(path_of("log-databases"), "r");
    IS(file != NULL && fread(text, 1, sizeof text - 1, file) > 0, true);
    SAYS(text,
        "{\n \"version\": 1,\n \"manager\": \"c\",\n \"incarnation\": 1,\n \"databases\": [{\"number\": 0, \"at\": \"a\", "
        "\"identity\": \"one \\\"x\\\" \\\\ \xc3\xa4\"}]\n}\n");
    if (file != NULL)
        fclose(file);
    IS(tx_open(), TX_OK);
}

/* That of another driver, with what this one doesn't know; and that of another manager, whose log
 * was here. */
static void the_file_of_another(void)
{
    write_file("log-databases",
        "{\n \"version\": 1, \"manager\": \"c\", \"x\": [1.5, {\"y\": null}, []], \"databases\": [{\"number\": 0, "
        "\"at\": \"PostgreSQL('..')\", \"identity\": \"\\u00e4\\ud83d\\ude00\\n\"}]\n}\n");
    stand_in_is(0, "\xc3\xa4\xf0\x9f\x98\x80\n");
    IS(tx_open(), TX_OK);
    IS(tx_close(), TX_OK);
    stand_in_is(0, "other");
    IS(tx_open(), TX_ERROR);
    remove(path_of("log"));
    write_file("log-databases", "{\"version\": 1, \"manager\": \"d\", \"incarnation\": 9, \"databases\": [], \"shut\": \"x\"}");
    IS(tx_open(), TX_OK);
}

static void a_broken_file(void)
{
    static const char *const texts[] = {"", "{", "{\"version\"}", "{\"version\": 2}", "{\"version\": 1", "[]", "{\"version\": 1} x",
        "{\"version\": 1, \"manager\": \"\\ud800\"}", "{\"version\": 1, \"manager\": \"\\x\"}", "{\"version\": 1, \"manager\": \"c",
        "{\"version\": 1, \"databases\": [{\"number\": 64, \"identity\": \"x\"}]}", "{\"version\": 1, \"databases\": [{\"number\": 0}]}",
        "{\"version\": 1, \"databases\": {}}", "{\"version\": 1, \"x\": [1, }", "{\"version\": 1, \"incarnation\": 9223372036854775808}",
        "{\"version\": 1, \"incarnation\": -1}", "{\"version\": 1, \"manager\": \"c\", \"incarnation\": 1.0}"};

    for (size_t i = 0; i < sizeof texts / sizeof texts[0]; i++) {
        write_file("log-databases", texts[i]);
        see_number(__FILE__, __LINE__, texts[i], tx_open(), TX_ERROR);
        IS(is_said("can't be read"), true);
    }
}

static char *repeated(char *to, const char *it, int times)
{
    for (int i = 0; i < times; i++)
        to = stpcpy(to, it);
    return to;
}

/* A value with so many of these before it, and so many behind it. */
static bool is_nested_refused(const char *before, const char *after, int depth)
{
    static char text[1 << 20];
    char *at = repeated(stpcpy(text, "{\"version\": 1, \"manager\": \"c\", \"x\": "), before, depth);

    strcpy(repeated(stpcpy(at, "1"), after, depth), "}");
    write_file("log-databases", text);
    return tx_open() == TX_ERROR && is_said("it isn't what a driver of this version has written");
}

static void a_file_that_is_nested_deeply(void)
{
    static const int depths[] = {100000, 1000, 33};

    for (size_t i = 0; i < sizeof depths / sizeof depths[0]; i++) {
        IS(is_nested_refused("[", "]", depths[i]), true);
        IS(is_nested_refused("{\"y\":", "}", depths[i]), true);
        IS(is_nested_refused("[", "", depths[i]), true);
    }
    IS(is_nested_refused("[", "]", 32), false);
    IS(tx_close(), TX_OK);
}

/* A byte 0, and what is behind it. */
static void a_file_that_goes_on(void)
{
    static const char text[] = "{\"version\": 1, \"manager\": \"c\"}\0{";
    FILE *file = fopen(path_of("log-databases"), "w");

    IS(file != NULL && fwrite(text, 1, sizeof text - 1, file) == sizeof text - 1 && fclose(file) == 0, true);
    IS(tx_open(), TX_ERROR);
    IS(is_said("can't be read"), true);
}

static void another_database(void)
{
    stand_in_is(0, "one");
    IS(tx_open(), TX_OK);
    IS(tx_close(), TX_OK);
    stand_in_is(0, "two");
    stand_in_journal();
    IS(tx_open(), TX_ERROR);
    IS(is_said("a isn't the database that the log"), true);
    SAYS(stand_in_journal(), "xa_open 0, xa_close 0, xa_open 1, xa_close 1"); /* nothing is asked of it */
    stand_in_is(0, "one");
    IS(tx_open(), TX_OK);
    /* Also one that a connection leads to later. */
    stand_in_is(0, "two");
    stand_in_answers(0, "xa_start", XAER_RMFAIL, false);
    IS(tx_begin(), TX_ERROR);
    IS(tx_begin(), TX_ERROR);
    IS(is_said("it is two, and it was one"), true);
}

static void two_that_changed_places(void)
{
    stand_in_is(0, "one");
    stand_in_is(1, "two");
    IS(tx_open(), TX_OK);
    IS(tx_close(), TX_OK);
    stand_in_is(0, "two");
    IS(tx_open(), TX_ERROR);
    IS(is_said("That is the place of b"), true);
}

/* A branch of this name is listed, and there is no log: it was lost. */
static void a_new_log(void)
{
    stand_in_lists(0, "7:6300000000000000030000000000000001:0000000100000000");
    for (int i = 0; i < 4; i++)
        IS(start("the log"), 2);
    IS(is_file("log"), false); /* no coordinator has made it */
    IS(stand_in_prepared(0), 1);
    /* Those of others don't count. */
    stand_in_lists(1, "7:6400000000000000030000000000000001:0000000100000001");
    stand_in_lists(1, "7:6300000000000000030000000000000001:0000000100000000");
    stand_in_lists(1, "1:61:62");
}

static void others_branches(void)
{
    stand_in_lists(0, "7:6400000000000000030000000000000001:0000000100000000");
    stand_in_lists(0, "7:6300000000000000030000000000000001:0000000100000001");
    stand_in_lists(0, "1:61:62");
    IS(tx_open(), TX_OK);
    IS(tx_close(), TX_OK);
    IS(stand_in_prepared(0), 3);
}

static void a_lost_log(void)
{
    IS(start(""), 0);
    remove(path_of("log"));
    for (int i = 0; i < 3; i++)
        IS(start("older than the log that was in use"), 2);
    IS(is_file("log"), false);
}

/* An older one, put back while the file beside it stayed: until the right one is there. */
static void an_older_log(void)
{
    for (int i = 0; i < 3; i++)
        IS(start(""), 0);
    write_file("log", "{\"incarnation\": 1, \"rows\": {}}");
    for (int i = 0; i < 5; i++)
        IS(start("older"), 2);
    write_file("log", "{\"incarnation\": 3, \"rows\": {}}");
    IS(start(""), 0);
}

/* As somebody does by hand, a line. */
static void remove_shut(void)
{
    char command[256];

    snprintf(command, sizeof command, "sed -i '/^ \"shut\": /d' %s", path_of("log-databases"));
    IS(system(command), 0);
}

/* An older one, with what stood beside it: a branch is listed of which it knows nothing. The
 * coordinator has shut it then, and the right one is taken at once. */
static void an_older_folder(void)
{
    write_file("log", "{\"incarnation\": 1, \"rows\": {}}");
    stand_in_lists(1, "7:6300000000000000040000000000000001:0000000100000001");
    IS(start("7:6300000000000000040000000000000001:0000000100000001"), 2);
    for (int i = 0; i < 5; i++)
        IS(start("it is shut"), 2);
    IS(count_told("end 1"), 0);
    IS(stand_in_prepared(1), 1);
    write_file("log", "{\"incarnation\": 4, \"rows\": {}}");
    IS(start(""), 0);
}

/* As the other drivers say it in the file beside it: until somebody has removed that line. */
static void one_that_is_shut(void)
{
    write_file("log-databases", "{\n \"version\": 1,\n \"manager\": \"c\",\n \"shut\": \"b is strange\",\n \"databases\": [],\n}\n");
    for (int i = 0; i < 3; i++)
        IS(start("b is strange"), 2);
    IS(is_file("log"), false);
    remove_shut();
    IS(start(""), 0);
}

/* A program that goes to another folder doesn't begin another log there. */
static void another_folder(void)
{
    char settings[1024];

    snprintf(settings, sizeof settings, "program %s\nlog log\nname c\npatience 120\nrm a - stand_in x\nrm b - stand_in x\n",
        getenv("STAND_IN_COORDINATOR"));
    write_file("settings", settings);
    IS(chdir(path_of("")), 0);
    IS(tx_open(), TX_OK);
    IS(chdir("/"), 0);
    kill_coordinator();
    BEGIN(5);
    IS(tx_commit(), TX_OK);
    IS(is_file("log-databases"), true);
}

/* What an earlier session left is ended as its log says. */
static void earlier_branches(void)
{
    write_file("log",
        "{\"incarnation\": 4, \"rows\": {\"00000000000000030000000000000001\": "
        "[\"7:6300000000000000030000000000000001:0000000100000000\"]}}");
    stand_in_lists(0, "7:6300000000000000030000000000000001:0000000100000000");
    for (int i = 0; i < 100; i++) {
        char text[80];
        snprintf(text, sizeof text, "7:630000000000000003%016x:0000000100000001", 2 + i);
        stand_in_lists(1, text);
    }
    IS(tx_open(), TX_OK);
    IS(tx_close(), TX_OK);
    IS(stand_in_prepared(0) + stand_in_prepared(1), 0);
    IS(count_told("page 1"), 4);
    IS(count_told("end 0 0"), 1);
    IS(count_told("end 1 0"), 100);
}

const struct story of_logs[] = {{"logs: the file beside one", the_file}, {"logs: the file of another driver", the_file_of_another},
    {"logs: a broken file", a_broken_file}, {"logs: a file that is nested deeply", a_file_that_is_nested_deeply},
    {"logs: a file that goes on", a_file_that_goes_on}, {"logs: another database", another_database},
    {"logs: two that changed places", two_that_changed_places}, {"logs: a new one", a_new_log},
    {"logs: branches of others", others_branches}, {"logs: a lost one", a_lost_log}, {"logs: an older one", an_older_log},
    {"logs: an older folder", an_older_folder}, {"logs: one that is shut", one_that_is_shut}, {"logs: another folder", another_folder},
    {"logs: earlier branches", earlier_branches}, {NULL, NULL}};
