/* The coordinator's process: how it is started, and how it ends. */
#include "process.h"

#include <errno.h>
#include <signal.h>
#include <spawn.h>
#include <sys/socket.h>
#include <sys/syscall.h>
#include <sys/time.h>
#include <sys/wait.h>
#include <unistd.h>

enum { BY_HANDLE = 3 }; /* P_PIDFD of waitid, which older headers lack */

extern char **environ;

/* The handle is the system's own of this process. So no other is meant, even if the program waits
 * for all its children itself and their numbers are given out again. */
static int handle = -1, lines = -1, errors = -1;

/* In a process group of its own, so that Ctrl-C in a terminal ends the program before it. */
static pid_t spawn(char *const words[], int its_lines, int its_errors)
{
    posix_spawn_file_actions_t files;
    posix_spawnattr_t how;
    sigset_t none;
    pid_t pid = -1;

    sigemptyset(&none);
    posix_spawn_file_actions_init(&files);
    posix_spawn_file_actions_adddup2(&files, its_lines, STDIN_FILENO);
    posix_spawn_file_actions_adddup2(&files, its_lines, STDOUT_FILENO);
    posix_spawn_file_actions_adddup2(&files, its_errors, STDERR_FILENO);
#if __GLIBC_PREREQ(2, 34)
    /* What the program has open is no affair of the coordinator's, as a socket that it listens
     * on. */
    posix_spawn_file_actions_addclosefrom_np(&files, STDERR_FILENO + 1);
#endif
    posix_spawnattr_init(&how);
    posix_spawnattr_setflags(&how, POSIX_SPAWN_SETPGROUP | POSIX_SPAWN_SETSIGMASK);
    posix_spawnattr_setsigmask(&how, &none);
    if (posix_spawnp(&pid, words[0], &files, &how, words, environ) != 0)
        pid = -1;
    posix_spawn_file_actions_destroy(&files);
    posix_spawnattr_destroy(&how);
    return pid;
}

int process_start(char *const words[])
{
    int pairs[] = {-1, -1, -1, -1};
    pid_t pid = -1;

    if (socketpair(AF_UNIX, SOCK_STREAM | SOCK_CLOEXEC, 0, pairs) == 0
        && socketpair(AF_UNIX, SOCK_STREAM | SOCK_CLOEXEC, 0, pairs + 2) == 0)
        pid = spawn(words, pairs[1], pairs[3]);
    close(pairs[1]);
    close(pairs[3]);
    lines = pairs[0];
    errors = pairs[2];
    handle = (int)syscall(SYS_pidfd_open, pid, 0);
    if (pid < 0)
        process_forget();
    return lines;
}

/* Its end closes what it prints its errors to. */
void process_end(double patience, char *said, size_t room)
{
    struct timeval longest = {.tv_sec = (time_t)patience + 1};
    size_t length = 0;
    ssize_t count = 0;
    siginfo_t how;

    shutdown(lines, SHUT_RDWR); /* its end of input */
    setsockopt(errors, SOL_SOCKET, SO_RCVTIMEO, &longest, sizeof longest);
    while (lines >= 0 && (count = recv(errors, said + length, room - length - 1, 0)) > 0)
        length += (size_t)count;
    said[length] = '\0';
    if (count < 0)
        syscall(SYS_pidfd_send_signal, handle, SIGKILL, NULL, 0);
    while (waitid((idtype_t)BY_HANDLE, (id_t)handle, &how, WEXITED) != 0 && errno == EINTR)
        ;
    process_forget();
}

void process_forget(void)
{
    close(lines);
    close(errors);
    close(handle);
    lines = errors = handle = -1;
}
