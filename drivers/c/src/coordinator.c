/* Lines of moves to the coordinator, and its replies. Any thread may move and wait: whichever waits
 * reads what has come. */
#include <errno.h>
#include <stdarg.h>
#include <stdio.h>
#include <string.h>
#include <sys/socket.h>
#include <sys/time.h>

#include "clock.h"
#include "process.h"
#include "thread.h"

enum { LINE = 65536 };

_Thread_local struct thread *me;
static _Thread_local pthread_cond_t woken = PTHREAD_COND_INITIALIZER;
struct coordinator coordinator = {.lock = PTHREAD_MUTEX_INITIALIZER, .changed = PTHREAD_COND_INITIALIZER, .is_gone = true};

/* All of it is under the lock. */
static int lines = -1; /* the socket */
static struct move *posted, *sent; /* that wait to be sent, and for their replies, the oldest first */
static unsigned deciding; /* so many of those that are sent */
static bool is_read, is_written, is_silent; /* by a thread at this moment; it has said nothing for too long */
static size_t unread; /* bytes of `in` */
static char in[LINE], out[LINE];

bool is_changed_by(double moment)
{
    struct timespec until = timespec_of(moment);

    return pthread_cond_clockwait(&coordinator.changed, &coordinator.lock, CLOCK_MONOTONIC, &until) == 0;
}

static void append(struct move **list, struct move *move)
{
    while (*list != NULL)
        list = &(*list)->next;
    move->next = NULL;
    *list = move;
}

static void arrive(struct move *move)
{
    move->is_here = true;
    if (move->woken != NULL)
        pthread_cond_signal(move->woken);
}

static void lose(void)
{
    if (coordinator.is_gone)
        return;
    coordinator.is_gone = true;
    coordinator.is_up = false;
    shutdown(lines, SHUT_RDWR); /* whoever waits at it wakes */
    while (sent != NULL || posted != NULL) {
        struct move **list = sent != NULL ? &sent : &posted, *move = *list;
        *list = move->next;
        arrive(move);
    }
    pthread_cond_broadcast(&coordinator.changed);
}

/* ** reading */

/* Gives out the replies that are whole. */
static void deliver(void)
{
    size_t begun = 0;

    for (size_t i = 0; i < unread; i++) {
        if (in[i] != ';' && in[i] != '\n')
            continue;
        struct move *move = sent;
        if (move == NULL || i - begun >= REPLY || move->ends_line != (in[i] == '\n')) {
            lose(); /* it doesn't reply to what it was asked */
            return;
        }
        sent = move->next;
        deciding -= move->decides;
        memcpy(move->reply, in + begun, i - begun);
        move->reply[i - begun] = '\0';
        arrive(move);
        begun = i + 1;
    }
    unread -= begun;
    memmove(in, in + begun, unread);
    if (unread >= REPLY)
        lose();
}

/* Reads what has come, or waits for it if no flag is given, and gives the replies out. False if
 * nothing has come: the socket knows the patience. The lock is free meanwhile. */
static bool is_any_read(int flags)
{
    is_read = true;
    pthread_mutex_unlock(&coordinator.lock);
    ssize_t count = recv(lines, in + unread, sizeof in - unread, flags);
    bool is_later = count < 0 && (errno == EAGAIN || errno == EINTR);
    pthread_mutex_lock(&coordinator.lock);
    is_read = false;
    if (is_later)
        return false;
    unread += count > 0 ? (size_t)count : 0;
    deliver();
    if (count <= 0)
        lose();
    return true;
}

/* ** writing */

/* The next line: how many bytes, and whether earlier ones are yet to be replied to. A move that
 * decides waits while another is on its way, and goes with those that wait, too: so the log is
 * written once for all of them. */
static size_t write_line(bool *are_others)
{
    bool may_decide = deciding == 0;
    struct move *last = NULL;
    size_t length = 0;

    *are_others = sent != NULL;
    for (struct move **link = &posted, *move; (move = *link) != NULL && length + MOVE < LINE;) {
        if (move->decides && !may_decide) {
            link = &move->next;
            continue;
        }
        if (last != NULL && (last->is_alone || move->is_alone))
            break;
        *link = move->next;
        length += (size_t)snprintf(out + length, sizeof out - length, "%s%s", last == NULL ? "" : ";", move->text);
        append(&sent, move);
        deciding += move->decides;
        last = move;
    }
    if (last != NULL) {
        last->ends_line = true;
        out[length++] = '\n';
    }
    return length;
}

/* False if the coordinator is gone, or reads nothing within the patience, which the socket
 * knows. */
static bool is_line_sent(const char *from, size_t length)
{
    while (length > 0) {
        ssize_t count = send(lines, from, length, MSG_NOSIGNAL);
        if (count < 0 && errno != EINTR)
            return false;
        from += count > 0 ? count : 0;
        length -= count > 0 ? (size_t)count : 0;
    }
    return true;
}

/* Writes what was posted, unless another thread does. What is unread of earlier lines is read
 * before: the coordinator might wait for a reader, and this writer for the coordinator. */
static void write_all(void)
{
    bool are_others;
    size_t length;

    if (is_written)
        return;
    is_written = true;
    while (!coordinator.is_gone && (length = write_line(&are_others)) > 0) {
        if (are_others && !is_read)
            is_any_read(MSG_DONTWAIT);
        pthread_mutex_unlock(&coordinator.lock);
        bool is_sent = is_line_sent(out, length), is_late = !is_sent && errno == EAGAIN;
        pthread_mutex_lock(&coordinator.lock);
        is_silent = is_silent || is_late;
        if (!is_sent)
            lose();
    }
    is_written = false;
}

/* ** waiting */

/* Somebody has to read on: one of those that are asleep. False if there is none. */
static bool is_reader_woken(struct move *list)
{
    while (list != NULL && list->woken == NULL)
        list = list->next;
    if (list != NULL)
        pthread_cond_signal(list->woken);
    return list != NULL;
}

/* Reads, or waits while another thread does. A process that was stopped for long looks once
 * more. */
static void wait_for(struct move *move, double until)
{
    if (is_read) {
        move->woken = &woken;
        pthread_cond_wait(&woken, &coordinator.lock);
        move->woken = NULL;
        return;
    }
    bool is_late = now() >= until;
    if (!is_any_read(is_late ? MSG_DONTWAIT : 0) && is_late) {
        is_silent = true;
        lose();
    }
    write_all(); /* what it brought may let others go out */
}

static void wait_until_here(struct move *move)
{
    double until = now() + settings.patience;

    pthread_mutex_lock(&coordinator.lock);
    if (!move->is_here)
        write_all();
    while (!move->is_here)
        wait_for(move, until);
    if (!is_read && !is_reader_woken(sent))
        is_reader_woken(posted);
    pthread_mutex_unlock(&coordinator.lock);
}

/* ** of the calling thread */

static void begin(struct move *move, enum haste haste)
{
    move->reply[0] = '\0';
    move->decides = haste == DECIDING;
    move->is_asked = true;
    move->is_here = move->ends_line = false;
}

void move(enum haste haste, const char *format, ...)
{
    struct move *it = me->move;
    va_list words;

    replied(); /* there is one at a time */
    va_start(words, format);
    vsnprintf(it->text, sizeof it->text, format, words);
    va_end(words);
    pthread_mutex_lock(&coordinator.lock);
    begin(it, haste);
    if (is_session_over())
        arrive(it);
    else
        append(&posted, it);
    if (haste != LATER)
        write_all();
    pthread_mutex_unlock(&coordinator.lock);
}

const char *replied(void)
{
    struct move *it = me->move;

    if (!it->is_asked)
        return it->reply;
    wait_until_here(it);
    it->is_asked = false;
    if (is_reply(it->reply, "error") || is_reply(it->reply, "stopped")) {
        char why[512];
        snprintf(why, sizeof why, "replied to %.200s: %.200s", it->text, it->reply);
        lose_session(why);
    }
    return it->reply;
}

bool is_session_over(void)
{
    return me->session != coordinator.session || coordinator.is_gone;
}

const char *lose_session(const char *why)
{
    explain("the coordinator %s", why);
    pthread_mutex_lock(&coordinator.lock);
    if (me->session == coordinator.session)
        lose();
    pthread_mutex_unlock(&coordinator.lock);
    me->move->is_asked = false;
    me->move->reply[0] = '\0';
    return me->move->reply;
}

/* ** its start and its end */

/* The next line, which nothing asks for. */
static void expect(struct move *move)
{
    begin(move, SOON);
    move->ends_line = true;
    append(&sent, move);
}

bool coordinator_start(char *const words[])
{
    static struct move version; /* what it says before it greets */
    struct timespec patience = timespec_of(settings.patience);
    struct timeval longest = {.tv_sec = patience.tv_sec, .tv_usec = patience.tv_nsec / 1000};
    int started = process_start(words);

    if (started < 0)
        return false;
    setsockopt(started, SOL_SOCKET, SO_RCVTIMEO, &longest, sizeof longest);
    setsockopt(started, SOL_SOCKET, SO_SNDTIMEO, &longest, sizeof longest);
    pthread_mutex_lock(&coordinator.lock);
    lines = started;
    posted = sent = NULL;
    unread = deciding = 0;
    coordinator.is_gone = is_silent = false;
    me->session = ++coordinator.session;
    expect(&version);
    expect(me->move);
    pthread_mutex_unlock(&coordinator.lock);
    wait_until_here(&version);
    if (strncmp(version.reply, "protocol 1 ", 11) != 0)
        lose_session("doesn't say its version");
    return true;
}

void coordinator_end(char *said, size_t room)
{
    pthread_mutex_lock(&coordinator.lock);
    lose();
    while (is_read || is_written)
        is_changed_by(now() + 0.001);
    pthread_mutex_unlock(&coordinator.lock);
    process_end(is_silent ? 0 : settings.patience, said, room);
    said[strcspn(said, "\n")] = '\0';
}
