/* JSON, as far as the file beside the log has it. */
#include "json.h"

#include <errno.h>
#include <stdlib.h>
#include <string.h>

enum { DEEPEST = 32 };

bool is_next(const char **at, char it)
{
    *at += strspn(*at, " \t\r\n");
    if (**at != it)
        return false;
    ++*at;
    return true;
}

static bool is_next_seen(const char **at, char it)
{
    *at += strspn(*at, " \t\r\n");
    return **at == it;
}

/* The four digits of an escape, -1 if they aren't there. */
static long unit_at(const char *at)
{
    char digits[5] = {0};

    strncpy(digits, at, 4);
    return strspn(digits, "0123456789abcdefABCDEF") == 4 ? strtol(digits, NULL, 16) : -1;
}

static size_t put_utf8(long point, char to[4])
{
    if (point < 0x80) {
        to[0] = (char)point;
        return 1;
    }
    size_t count = point < 0x800 ? 2 : point < 0x10000 ? 3 : 4;
    for (size_t i = count - 1; i > 0; i--, point >>= 6)
        to[i] = (char)(0x80 | (point & 0x3f));
    to[0] = (char)((0xf0 << (4 - count) & 0xff) | point);
    return count;
}

/* What `\u` stands for, whose digits come next, with its other half where it has one. How many
 * bytes; 0 if it is none. */
static size_t read_point(const char **at, char to[4])
{
    long point = unit_at(*at), low;

    if (point <= 0)
        return 0;
    *at += 4;
    if (point >= 0xd800 && point < 0xdc00) {
        low = (*at)[0] == '\\' && (*at)[1] == 'u' ? unit_at(*at + 2) : -1;
        if (low < 0xdc00 || low > 0xdfff)
            return 0;
        *at += 6;
        point = 0x10000 + ((point - 0xd800) << 10) + (low - 0xdc00);
    }
    return put_utf8(point, to);
}

/* The next character of a string, as it is meant. How many bytes; 0 if it is none. */
static size_t read_character(const char **at, char to[4])
{
    static const char letters[] = "\"\\/bfnrt", meant[] = "\"\\/\b\f\n\r\t";
    char it = *(*at)++;

    if (it != '\\') {
        to[0] = it;
        return (unsigned char)it < ' ' ? 0 : 1;
    }
    it = *(*at)++;
    if (it == 'u')
        return read_point(at, to);
    const char *found = it == '\0' ? NULL : strchr(letters, it);
    to[0] = found == NULL ? '\0' : meant[found - letters];
    return found == NULL ? 0 : 1;
}

bool read_string(const char **at, char *to, size_t room)
{
    char bytes[4];

    if (!is_next(at, '"'))
        return false;
    while (**at != '"') {
        size_t count = read_character(at, bytes);
        if (count == 0)
            return false;
        if (count < room) {
            memcpy(to, bytes, count);
            to += count;
            room -= count;
        } else {
            room = 1; /* nothing behind what has no room is kept */
        }
    }
    ++*at;
    *to = '\0';
    return true;
}

bool read_number(const char **at, long *to)
{
    char *end;

    is_next(at, ' ');
    errno = 0;
    *to = strtol(*at, &end, 10);
    bool is_one = end != *at && errno == 0 && *end != '.' && *end != 'e' && *end != 'E';
    *at = end;
    return is_one;
}

bool read_object(const char **at, bool (*read)(const char *name, const char **at, void *to), void *to)
{
    char name[32];

    if (!is_next(at, '{'))
        return false;
    if (is_next(at, '}'))
        return true;
    do {
        if (!read_string(at, name, sizeof name) || !is_next(at, ':') || !read(name, at, to))
            return false;
        /* (Somebody may have removed the last line, and left the comma.) */
    } while (is_next(at, ',') && !is_next_seen(at, '}'));
    return is_next(at, '}');
}

static bool skip_nested(const char **at, int depth);

static bool skip_member(const char *name, const char **at, void *depth)
{
    (void)name;
    return skip_nested(at, *(const int *)depth);
}

static bool skip_array(const char **at, int depth)
{
    if (!is_next(at, '['))
        return false;
    if (is_next(at, ']'))
        return true;
    do {
        if (!skip_nested(at, depth))
            return false;
    } while (is_next(at, ','));
    return is_next(at, ']');
}

/* So many are around it: the stack holds no more than the deepest. */
static bool skip_nested(const char **at, int depth)
{
    char nothing[1];

    is_next(at, ' ');
    if (**at == '"')
        return read_string(at, nothing, sizeof nothing);
    if (**at == '{' || **at == '[') {
        if (depth++ == DEEPEST)
            return false;
        return **at == '{' ? read_object(at, skip_member, &depth) : skip_array(at, depth);
    }
    size_t length = strspn(*at, "+-.0123456789abcdefghijklmnopqrstuvwxyzE");
    *at += length;
    return length > 0;
}

bool skip_value(const char **at)
{
    return skip_nested(at, 0);
}

void write_string(FILE *to, const char *text)
{
    putc('"', to);
    for (; *text != '\0'; text++) {
        if (*text == '"' || *text == '\\')
            fprintf(to, "\\%c", *text);
        else if ((unsigned char)*text < ' ')
            fprintf(to, "\\u%04x", *text);
        else
            putc(*text, to);
    }
    putc('"', to);
}
