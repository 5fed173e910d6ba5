/* A network between programs and a server: each chunk of bytes is handed on so many microseconds
 * after it came, in order, both ways.
 *
 * usage: delay MICROSECONDS TARGET LISTEN..
 *
 * TARGET is the path of the server's Unix socket. Each LISTEN is where programs connect: the path of
 * a Unix socket, or a port of TCP on 127.0.0.1. Says "ready" once it listens, and ends as its input
 * ends. Where an end closes, the other one is closed that much later, behind what was sent before.
 * A connection itself is made at once. Needs Linux 5.11, for a wait that is told in nanoseconds. */
#define _GNU_SOURCE
#include <arpa/inet.h>
#include <errno.h>
#include <netinet/tcp.h>
#include <stdbool.h>
#include <stdio.h>
#include <stdlib.h>
#include <string.h>
#include <sys/epoll.h>
#include <sys/prctl.h>
#include <sys/socket.h>
#include <sys/un.h>
#include <time.h>
#include <unistd.h>

enum { EVENTS = 64, MOST = 65536, SECOND = 1000000000, AGAIN = 100000 };

/* Bytes on their way. None of them: the end of those of a side. */
struct chunk {
    struct chunk *next;
    long long due;
    ssize_t length, sent;
    char bytes[];
};

/* One end of a connection, with what is on its way to it. Or, without another end, a listener. */
struct side {
    int fd;
    struct side *other, *next;
    struct chunk *first, **last;
};

static int epoll;
static long long delay;
static struct sockaddr_un target;
/* The first ends of all connections. */
static struct side *sides;

static void see(bool is_well, const char *what)
{
    if (!is_well) {
        perror(what);
        exit(1);
    }
}

static long long now(void)
{
    struct timespec it;
    clock_gettime(CLOCK_MONOTONIC, &it);
    return it.tv_sec * (long long)SECOND + it.tv_nsec;
}

static void watch(int how, int fd, struct side *it)
{
    see(!epoll_ctl(epoll, how, fd, &(struct epoll_event){.events = EPOLLIN, .data.ptr = it}), "epoll_ctl");
}

static void open_side(struct side *it, int fd, struct side *other)
{
    *it = (struct side){.fd = fd, .other = other, .last = &it->first};
    watch(EPOLL_CTL_ADD, fd, it);
}

static struct sockaddr_un named(const char *path)
{
    struct sockaddr_un it = {.sun_family = AF_UNIX};
    snprintf(it.sun_path, sizeof it.sun_path, "%s", path);
    return it;
}

static void listen_at(struct side *it, const char *where)
{
    bool is_path = strchr(where, '/');
    struct sockaddr_un path = named(where);
    struct sockaddr_in port = {AF_INET, htons(atoi(where)), {htonl(INADDR_LOOPBACK)}, {0}};
    int fd = socket(is_path ? AF_UNIX : AF_INET, SOCK_STREAM | SOCK_NONBLOCK, 0);
    see(!bind(fd, is_path ? (void *)&path : (void *)&port, is_path ? sizeof path : sizeof port) && !listen(fd, 512), where);
    open_side(it, fd, NULL);
}

/* Takes a connection, and makes one to the server. Without that the first is closed. */
static void take(int listening)
{
    int client = accept4(listening, NULL, NULL, 0), server = socket(AF_UNIX, SOCK_STREAM, 0);
    if (client < 0 || connect(server, (void *)&target, sizeof target)) {
        close(client);
        close(server);
        return;
    }
    /* (Refused for a Unix socket, which sends at once anyway.) */
    setsockopt(client, IPPROTO_TCP, TCP_NODELAY, &(int){1}, sizeof(int));
    struct side *pair = malloc(2 * sizeof *pair);
    see(pair, "malloc");
    open_side(&pair[0], client, &pair[1]);
    open_side(&pair[1], server, &pair[0]);
    pair->next = sides;
    sides = pair;
}

/* What came from a side goes on its way to the other one. */
static void read_from(struct side *it)
{
    static char bytes[MOST];
    ssize_t length = recv(it->fd, bytes, sizeof bytes, MSG_DONTWAIT);
    if (length < 0 && (errno == EAGAIN || errno == EINTR))
        return;
    length = length < 0 ? 0 : length;
    if (!length)
        /* Closed, or lost: that would be told again and again. */
        watch(EPOLL_CTL_DEL, it->fd, NULL);
    struct chunk *chunk = malloc(sizeof *chunk + length);
    see(chunk, "malloc");
    *chunk = (struct chunk){.due = now() + delay, .length = length};
    memcpy(chunk->bytes, bytes, length);
    *it->other->last = chunk;
    it->other->last = &chunk->next;
}

/* Hands on what is due to a side. Whether its connection goes on. */
static bool hand_on(struct side *it)
{
    for (struct chunk *chunk; (chunk = it->first) && chunk->due <= now();) {
        ssize_t sent = send(it->fd, chunk->bytes + chunk->sent, chunk->length - chunk->sent, MSG_DONTWAIT | MSG_NOSIGNAL);
        if (!chunk->length || (sent < 0 && errno != EAGAIN))
            return false;
        chunk->sent += sent < 0 ? 0 : sent;
        if (chunk->sent < chunk->length) {
            /* It is full, and is tried again. */
            chunk->due = now() + AGAIN;
            continue;
        }
        if (!(it->first = chunk->next))
            it->last = &it->first;
        free(chunk);
    }
    return true;
}

/* Hands on all that is due, and tells when the next chunk is: -1 where none is on its way. */
static long long hand_all_on(void)
{
    long long soonest = -1;
    for (struct side *one, **place = &sides; (one = *place);) {
        if (hand_on(one) && hand_on(one->other)) {
            for (int i = 0; i < 2; i++)
                soonest = one[i].first && (soonest < 0 || one[i].first->due < soonest) ? one[i].first->due : soonest;
            place = &one->next;
            continue;
        }
        *place = one->next;
        for (int i = 0; i < 2; close(one[i++].fd))
            for (struct chunk *chunk; (chunk = one[i].first); free(chunk))
                one[i].first = chunk->next;
        free(one);
    }
    return soonest;
}

int main(int count, char **words)
{
    struct side listeners[EVENTS];
    delay = count > 3 ? atoll(words[1]) * 1000 : 0;
    if (count < 4 || count > EVENTS || delay < 0) {
        fputs("usage: delay MICROSECONDS TARGET LISTEN..\n", stderr);
        return 2;
    }
    target = named(words[2]);
    /* Else the kernel may wake it 50 microseconds late. */
    prctl(PR_SET_TIMERSLACK, 1);
    epoll = epoll_create1(0);
    watch(EPOLL_CTL_ADD, STDIN_FILENO, NULL);
    for (int i = 3; i < count; i++)
        listen_at(&listeners[i], words[i]);
    puts("ready");
    fflush(stdout);
    for (;;) {
        long long due = hand_all_on(), left = due - now(), wait = left < 0 ? 0 : left;
        struct epoll_event events[EVENTS];
        int found = epoll_pwait2(epoll, events, EVENTS, due < 0 ? NULL : &(struct timespec){wait / SECOND, wait % SECOND}, NULL);
        see(found >= 0 || errno == EINTR, "epoll_pwait2");
        for (int i = 0; i < found; i++) {
            struct side *it = events[i].data.ptr;
            if (!it)
                return 0;
            it->other ? read_from(it) : take(it->fd);
        }
    }
}
