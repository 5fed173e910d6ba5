  1  thread 0 → manager begin a                transaction 1 of incarnation 1
  2  rm 0               will vote XA_RBDEADLOCK on a
  3  thread 0 → rm 0    xa_open                waits
  4  rm 0 → thread 0    xa_open                XA_OK
  5  thread 0 ← rm 0    xa_open                XA_OK
  6  thread 0 → rm 0    xa_start a             waits
  7  rm 0 → thread 0    xa_start a             XA_OK         active
  8  thread 0 ← rm 0    xa_start a             XA_OK
  9  thread 0 → rm 0    xa_end a               waits
 10  rm 0 → thread 0    xa_end a               XA_OK         idle
 11  thread 0 ← rm 0    xa_end a               XA_OK
 12  thread 0 → rm 0    xa_prepare a           waits
 13  rm 0 → thread 0    xa_prepare a           XA_RBDEADLOCK rolled back
 14  thread 0 ← rm 0    xa_prepare a           XA_RBDEADLOCK votes no

      a at rm 0        rolled-back
      No decision to commit a is in the log, and what has no row there is never committed.
