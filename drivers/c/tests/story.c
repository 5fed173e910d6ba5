/* Tells the stories of the driver's tests, which need no database: `stories [-NAME ..] [NAME ..]`,
 * those whose names begin so, without those that are named behind a `-`. The last line is 'N
 * passed, M failed'. */
#include "story.h"

#include <errno.h>
#include <fcntl.h>
#include <signal.h>
#include <stdio.h>
#include <stdlib.h>
#include <string.h>
#include <sys/stat.h>
#include <sys/wait.h>
#include <time.h>
#include <unistd.h>

enum { AT_ONCE = 6 };

static char folder[64], place[256];
static int wrong;

/* ** what stories say */

void see_number(const char *file, int line, const char *what, long found, long expected)
{
    if (found == expected)
        return;
    printf("%s:%d: %s: %ld, not %ld (%s)\n", file, line, what, found, expected, gf_error());
    wrong++;
}

void see_text(const char *file, int line, const char *what, const char *found, const char *expected)
{
    if (strcmp(found, expected) == 0)
        return;
    printf("%s:%d: %s:\n    %s\nnot %s\n", file, line, what, found, expected);
    wrong++;
}

const char *path_of(const char *name)
{
    snprintf(place, sizeof place, "%s/%s", folder, name);
    return place;
}

void write_file(const char *name, const char *text)
{
    char new[sizeof place];

    snprintf(new, sizeof new, "%s", path_of("new"));
    FILE *file = fopen(new, "w");
    if (file == NULL || fputs(text, file) < 0 || fclose(file) != 0 || rename(new, path_of(name)) != 0)
        abort();
}

bool is_file(const char *name)
{
    return access(path_of(name), F_OK) == 0;
}

void set_up(const char *rms, const char *others)
{
    char text[1024];

    snprintf(text, sizeof text, "# %s\nprogram %s\nlog %s/log\nname c\nthreads 4\n%s%s", folder, getenv("STAND_IN_COORDINATOR"), folder,
        rms != NULL ? rms : "rm a - stand_in open\nrm b - stand_in open\n", others != NULL ? others : "patience 120\n");
    write_file("settings", text);
    setenv("GARTERFOSSIL_SETTINGS", path_of("settings"), 1);
}

/* ** what the coordinator was asked */

int count_told(const char *move)
{
    FILE *file = fopen(path_of("log.moves"), "r");
    char line[4096];
    int count = 0;

    while (file != NULL && fgets(line, sizeof line, file) != NULL)
        count += strncmp(line, move, strlen(move)) == 0;
    if (file != NULL)
        fclose(file);
    return count;
}

void kill_coordinator(void)
{
    FILE *file = fopen(path_of("log.pid"), "r");
    int pid = 0;

    if (file == NULL || fscanf(file, "%d", &pid) != 1 || kill(pid, SIGKILL) != 0)
        abort();
    fclose(file);
    nanosleep(&(struct timespec){.tv_nsec = 50000000}, NULL);
}

bool is_begun(void)
{
    bool is_so = false;

    for (int tries = 0; tries < 10 && !is_so; tries++)
        is_so = tx_open() == TX_OK && tx_begin() == TX_OK;
    return is_so;
}

bool is_settled(void)
{
    for (int i = 0; i < 1500; i++) {
        if (stand_in_prepared(0) + stand_in_prepared(1) == 0)
            return true;
        nanosleep(&(struct timespec){.tv_nsec = 20000000}, NULL);
    }
    return false;
}

/* ** telling */

static void tell_here(const struct story *it)
{
    alarm(600); /* no story waits without end */
    set_up(NULL, NULL);
    stand_in_journal();
    it->tell();
    IS(stand_in_strange(), 0);
    if (wrong == 0)
        fflush(stdout);
    exit(wrong > 0);
}

static struct telling {
    pid_t pid;
    const struct story *story;
    char folder[sizeof folder];
} tellings[AT_ONCE];

static void begin(struct telling *it, const struct story *story)
{
    strcpy(folder, "/tmp/garterfossil-XXXXXX");
    if (mkdtemp(folder) == NULL)
        abort();
    fflush(stdout);
    *it = (struct telling){.story = story, .pid = fork()};
    memcpy(it->folder, folder, sizeof folder);
    if (it->pid == 0)
        tell_here(story);
}

/* The place of a story that has ended, or of none; and whether that one was right. */
static struct telling *ended(bool *is_right)
{
    int status = 0;
    pid_t pid = waitpid(-1, &status, 0);

    for (int i = 0; i < AT_ONCE; i++)
        if (tellings[i].pid == pid && pid > 0) {
            char command[192]; /* (the coordinator may still write there.) */
            snprintf(command, sizeof command, "rm -rf %s 2>/dev/null || { sleep 1; rm -rf %s; }", tellings[i].folder, tellings[i].folder);
            (void)!system(command);
            *is_right = status == 0;
            if (status != 0)
                printf("failed: %s (status %x)\n", tellings[i].story->name, (unsigned)status);
            tellings[i].pid = 0;
            return &tellings[i];
        }
    return NULL;
}

static bool is_wanted(const char *name, int count, char **words)
{
    bool is_so = count == 1 || words[1][0] == '-';

    for (int i = 1; i < count; i++) {
        if (words[i][0] == '-' && strcmp(name, words[i] + 1) == 0)
            return false;
        is_so = is_so || strncmp(name, words[i], strlen(words[i])) == 0;
    }
    return is_so;
}

int main(int count, char **words)
{
    const struct story *const all[] = {of_parts, of_states, of_answers, of_losses, of_logs, of_processes};
    int counts[2] = {0, 0}, begun = 0;
    bool is_right = false;
    char here[256], program[300];

    if (getcwd(here, sizeof here) == NULL)
        return 2;
    snprintf(program, sizeof program, "%s/tests/stand_in_coordinator", here);
    setenv("STAND_IN_COORDINATOR", program, 0);

    for (size_t i = 0; i < sizeof all / sizeof all[0]; i++)
        for (const struct story *it = all[i]; it->name != NULL; it++)
            if (is_wanted(it->name, count, words)) {
                struct telling *it_was = begun < AT_ONCE ? &tellings[begun] : ended(&is_right);
                counts[is_right] += begun >= AT_ONCE;
                begun++;
                begin(it_was, it);
            }
    while (ended(&is_right) != NULL)
        counts[is_right]++;
    printf("%d passed, %d failed\n", counts[1], counts[0]);
    return counts[0] > 0;
}
