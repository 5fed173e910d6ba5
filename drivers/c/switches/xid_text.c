/* The text of an identifier: `<format>:<gtrid>:<bqual>`, both parts in hexadecimal (docs/SERVE.md).
 * The library and its switches have it. */
#include "xid_text.h"

#include <stdio.h>
#include <stdlib.h>
#include <string.h>

static const char digits[] = "0123456789abcdef";

static int value_of(char digit)
{
    const char *found = digit == '\0' ? NULL : strchr(digits, digit);
    return found == NULL ? -1 : (int)(found - digits);
}

char *write_hex(char *to, const char *bytes, long count)
{
    for (long i = 0; i < count; i++) {
        *to++ = digits[(unsigned char)bytes[i] >> 4];
        *to++ = digits[bytes[i] & 15];
    }
    *to = '\0';
    return to;
}

long read_hex(const char *text, size_t length, char *to, long most)
{
    if (length % 2 != 0 || (long)(length / 2) > most)
        return -1;
    for (size_t i = 0; i < length; i += 2) {
        int high = value_of(text[i]), low = value_of(text[i + 1]);
        if (high < 0 || low < 0)
            return -1;
        *to++ = (char)(high << 4 | low);
    }
    return (long)(length / 2);
}

char *text_of(const XID *xid, char text[XID_TEXT])
{
    char *at = write_hex(text + sprintf(text, "%ld:", xid->formatID), xid->data, xid->gtrid_length);

    *at++ = ':';
    write_hex(at, xid->data + xid->gtrid_length, xid->bqual_length);
    return text;
}

bool xid_from(const char *text, XID *xid)
{
    char *end, again[XID_TEXT];

    memset(xid, 0, sizeof *xid);
    xid->formatID = strtol(text, &end, 10);
    const char *gtrid = end + 1, *colon = *end == ':' ? strchr(gtrid, ':') : NULL;
    if (colon == NULL)
        return false;
    xid->gtrid_length = read_hex(gtrid, (size_t)(colon - gtrid), xid->data, MAXGTRIDSIZE);
    if (xid->gtrid_length < 1)
        return false;
    xid->bqual_length = read_hex(colon + 1, strlen(colon + 1), xid->data + xid->gtrid_length, MAXBQUALSIZE);
    /* Another spelling of its number is another name. */
    return xid->bqual_length >= 1 && strcmp(text_of(xid, again), text) == 0;
}

bool is_uuid(const char *text)
{
    for (int i = 0; i < 36; i++) {
        bool is_bar = i == 8 || i == 13 || i == 18 || i == 23;
        if (is_bar ? text[i] != '-' : value_of(text[i]) < 0)
            return false;
    }
    return text[36] == '\0';
}

bool is_same(const XID *one, const XID *other)
{
    return one->formatID == other->formatID && one->gtrid_length == other->gtrid_length && one->bqual_length == other->bqual_length
        && memcmp(one->data, other->data, (size_t)(one->gtrid_length + one->bqual_length)) == 0;
}
