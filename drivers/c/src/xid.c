/* The identifiers of this manager: `7:<name and transaction>:<thread and resource manager>`
 * (docs/SERVE.md). */
#include "xid.h"

#include <arpa/inet.h>
#include <string.h>

#include "settings.h"

enum { FORMAT = 7, BQUAL = 8 };

XID transaction_of(const char *text)
{
    XID xid = {.formatID = FORMAT};
    size_t name = strlen(settings.name);

    memcpy(xid.data, settings.name, name);
    xid.gtrid_length = (long)name + OWN;
    return read_hex(text, strlen(text), xid.data + name, OWN) == OWN ? xid : (XID){.formatID = 0};
}

XID branch_of(const XID *transaction, unsigned thread, int rm)
{
    XID xid = *transaction;
    uint32_t bqual[] = {htonl(thread), htonl((unsigned)rm)};

    memcpy(xid.data + xid.gtrid_length, bqual, BQUAL);
    xid.bqual_length = BQUAL;
    return xid;
}

bool is_ours(const XID *xid, int rm)
{
    size_t name = strlen(settings.name);
    uint32_t number = htonl((unsigned)rm);

    return xid->formatID == FORMAT && xid->gtrid_length == (long)name + OWN && xid->bqual_length == BQUAL
        && memcmp(xid->data, settings.name, name) == 0 && memcmp(xid->data + name + OWN + BQUAL - 4, &number, 4) == 0;
}
