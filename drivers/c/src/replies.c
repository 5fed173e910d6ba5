/* What stands in a reply of the coordinator. */
#include <errno.h>
#include <stdlib.h>
#include <string.h>

#include "coordinator.h"

bool is_reply(const char *reply, const char *word)
{
    size_t length = strlen(word);

    return strncmp(reply, word, length) == 0 && (reply[length] == '\0' || reply[length] == ' ');
}

long next_number(const char **at, long most)
{
    char *end;

    if (**at != ' ' || (*at)[1] < '0' || (*at)[1] > '9')
        return -1;
    errno = 0;
    long number = strtol(*at + 1, &end, 10);
    *at = end;
    return errno == 0 && number <= most ? number : -1;
}

int named_in(const char *reply, int rms[MOST_RMS])
{
    const char *at = reply + strcspn(reply, " ");
    int count = 0;
    long rm;

    while (count < settings.rms && (rm = next_number(&at, settings.rms - 1)) >= 0)
        rms[count++] = (int)rm;
    return count;
}
