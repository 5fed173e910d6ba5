/* What the coordinator may say: the input is what it says in several lives, each up to a byte 0,
 * whatever it was asked: a line for each line that it reads. Nothing but its words comes from it,
 * so nothing may end but the session. One that begins with a brace is, up to there, the file beside
 * the log. (libFuzzer; tests/fuzz builds and runs it.) */
#include <pthread.h>
#include <stdint.h>
#include <stdio.h>
#include <stdlib.h>
#include <string.h>
#include <sys/socket.h>
#include <tx.h>
#include <unistd.h>

#include "../beside/databases.h"
#include "../src/process.h"
#include "stand_in_switch.h"

/* In place of clock.c: what is waited for comes fifty times as soon. */
#define now slow_now
#define timespec_of slow_timespec_of
#include "../src/clock.c"
#undef now
#undef timespec_of

enum { AS_SOON = 50 };
double now(void);
struct timespec timespec_of(double moment);

double now(void)
{
    return slow_now() * AS_SOON;
}

struct timespec timespec_of(double moment)
{
    return slow_timespec_of(moment / AS_SOON);
}

int LLVMFuzzerInitialize(int *count, char ***words);
int LLVMFuzzerTestOneInput(const uint8_t *data, size_t size);

static const uint8_t *left;
static size_t left_size;
static char folder[] = "/tmp/garterfossil-fuzz-XXXXXX";

/* ** in place of process.c */

static struct life {
    pthread_t thread;
    int lines;
    const uint8_t *at, *end;
} life;
static int lines;
static bool is_alive;

/* Says the next line. False if nothing ends it: then it is the last. */
static bool is_line_said(void)
{
    const uint8_t *stop = life.at == life.end ? NULL : memchr(life.at, '\n', (size_t)(life.end - life.at));
    const uint8_t *next = stop == NULL ? life.end : stop + 1;
    ssize_t length = next - life.at, sent = length == 0 ? 0 : send(life.lines, life.at, (size_t)length, MSG_NOSIGNAL);

    life.at = next;
    return stop != NULL && sent == length;
}

/* It says its version, greets, and then says a line for each that it reads. */
static void *live(void *unused)
{
    bool is_up = is_line_said() && is_line_said();
    char byte;

    (void)unused;
    while (is_up && recv(life.lines, &byte, 1, 0) == 1)
        is_up = byte != '\n' || is_line_said();
    shutdown(life.lines, SHUT_RDWR);
    return NULL;
}

int process_start(char *const words[])
{
    int pair[2];
    const uint8_t *end = left_size == 0 ? NULL : memchr(left, 0, left_size);
    size_t length = end == NULL ? left_size : (size_t)(end - left);

    (void)words;
    if (socketpair(AF_UNIX, SOCK_STREAM, 0, pair) != 0)
        abort();
    life = (struct life){.lines = pair[1], .at = left, .end = left + length};
    left += length + (end != NULL);
    left_size -= length + (end != NULL);
    if (pthread_create(&life.thread, NULL, live, NULL) != 0)
        abort();
    is_alive = true;
    return lines = pair[0];
}

void process_end(double patience, char *said, size_t room)
{
    (void)patience;
    said[0] = '\0';
    if (!is_alive)
        return;
    close(lines);
    pthread_join(life.thread, NULL);
    close(life.lines);
    is_alive = false;
    /* Once there is no more input, it is an error that doesn't go away. */
    snprintf(said, room, "%s", left_size == 0 ? "xatm: log: over" : "");
}

void process_forget(void)
{
}

/* ** one program over it */

int LLVMFuzzerInitialize(int *count, char ***words)
{
    char path[64];

    (void)count;
    (void)words;
    if (mkdtemp(folder) == NULL)
        abort();
    snprintf(path, sizeof path, "%s/settings", folder);
    FILE *file = fopen(path, "w");
    fprintf(file, "log %s/log\nname c\nthreads 2\npatience 4\nrm a - stand_in x\nrm b - stand_in_dynamic x\n", folder);
    fclose(file);
    snprintf(path, sizeof path, "%s/log", folder);
    file = fopen(path, "w");
    fputs("a log", file);
    fclose(file);
    setenv("GARTERFOSSIL_SETTINGS", (snprintf(path, sizeof path, "%s/settings", folder), path), 1);
    if (freopen("/dev/null", "w", stdout) == NULL)
        abort();
    return 0;
}

static void lay_file(void)
{
    char path[64];
    const uint8_t *end = left_size == 0 ? NULL : memchr(left, 0, left_size);
    size_t length = end == NULL ? left_size : (size_t)(end - left);

    snprintf(path, sizeof path, "%s/log-databases", folder);
    unlink(path);
    if (left_size == 0 || left[0] != '{')
        return;
    FILE *file = fopen(path, "w");
    if (file == NULL || fwrite(left, 1, length, file) != length || fclose(file) != 0)
        abort();
    left += length + (end != NULL);
    left_size -= length + (end != NULL);
}

int LLVMFuzzerTestOneInput(const uint8_t *data, size_t size)
{
    left = data;
    left_size = size;
    lay_file();
    if (stand_in_prepared(0) == 0)
        stand_in_lists(0, "7:6300000000000000010000000000000001:0000000100000000");
    if (tx_open() == TX_OK) {
        for (int i = 0; i < 3; i++) {
            if (tx_begin() != TX_OK)
                break;
            stand_in_add(0, 1);
            if (i != 1)
                stand_in_add(1, -1);
            i == 2 ? tx_rollback() : tx_commit();
        }
        tx_close();
    }
    return 0;
}
