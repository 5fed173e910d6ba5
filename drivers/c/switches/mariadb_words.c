/* What xa_open takes for MariaDB: words as `host=..`, with one space between two. */
#include <string.h>

#include "mariadb.h"

struct known {
    const char *name;
    char *value;
    size_t room;
};

/* Reads one of so many characters. */
static bool is_word_read(const char *word, size_t length, const struct known *known, size_t count)
{
    for (size_t i = 0; i < count; i++) {
        size_t name = strlen(known[i].name);
        if (strncmp(word, known[i].name, name) != 0)
            continue;
        if (length - name >= known[i].room)
            return false;
        memcpy(known[i].value, word + name, length - name);
        return true;
    }
    return false;
}

bool are_words_read(const char *info, struct words *to)
{
    const struct known known[] = {{"host=", to->host, sizeof to->host}, {"port=", to->port, sizeof to->port},
        {"socket=", to->socket, sizeof to->socket}, {"user=", to->user, sizeof to->user}, {"password=", to->password, sizeof to->password},
        {"db=", to->db, sizeof to->db}, {"label=", to->label, sizeof to->label},
        {"lock_timeout=", to->lock_timeout, sizeof to->lock_timeout}};

    memset(to, 0, sizeof *to);
    while (*info != '\0') {
        size_t length = strcspn(info, " ");
        if (!is_word_read(info, length, known, sizeof known / sizeof known[0]))
            return false;
        info += length + (info[length] == ' ');
    }
    if (strspn(to->lock_timeout, "0123456789") != strlen(to->lock_timeout))
        return false;
    return strspn(to->label, "abcdefghijklmnopqrstuvwxyz0123456789-_") == strlen(to->label);
}
