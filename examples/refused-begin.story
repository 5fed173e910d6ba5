  1  thread 1 → manager begin a                refused 14 Limit: there is no such thread or resource manager, or no room for more
  2  thread 0 → rm 0    xa_open                waits
  3  rm 0 → thread 0    xa_open                XA_OK
  4  thread 0 ← rm 0    xa_open                XA_OK
  5  thread 0 → manager begin b                transaction 1 of incarnation 1
  6  thread 0 → rm 0    xa_start a             refused 5 UnknownTransaction: no such transaction was begun since the manager came up
  7  thread 0 → rm 0    xa_start b             waits
  8  rm 0 → thread 0    xa_start b             XA_OK         active
  9  thread 0 ← rm 0    xa_start b             XA_OK

      b at rm 0        active
      No decision to commit b is in the log, and what has no row there is never committed.
