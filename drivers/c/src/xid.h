/* The identifiers of this manager. */
#ifndef XID_H
#define XID_H
#include "../switches/xid_text.h"

enum { OWN = 16 }; /* bytes of a transaction's own, behind the manager's name */

/* The identifier of a transaction, without a branch, whose own bytes are these in hexadecimal; all
 * zeroes if the text isn't so many. */
XID transaction_of(const char *text);
/* Its branch at a resource manager. */
XID branch_of(const XID *, unsigned thread, int rm);
/* Whether it is one of this manager at the resource manager. */
bool is_ours(const XID *, int rm);
#endif
