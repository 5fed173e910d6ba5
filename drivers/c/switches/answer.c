/* A database that is silent, as one that was stopped, keeps no call of XA waiting for ever. */
#include "answer.h"

#include <errno.h>
#include <poll.h>
#include <sys/socket.h>

#include "../src/clock.h"

void wait_for_answer(int socket, double seconds)
{
    struct pollfd it = {.fd = socket, .events = POLLIN};
    double end = now() + seconds, left = seconds;
    int found;

    do
        found = poll(&it, 1, (int)(1000 * left));
    while (found < 0 && errno == EINTR && (left = end - now()) > 0);
    if (found <= 0)
        shutdown(socket, SHUT_RDWR);
}
