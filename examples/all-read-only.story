  1  thread 0 → manager begin a                transaction 1 of incarnation 1
  2  thread 0 → rm 0    xa_open                waits
  3  rm 0 → thread 0    xa_open                XA_OK
  4  thread 0 ← rm 0    xa_open                XA_OK
  5  thread 0 → rm 0    xa_start a             waits
  6  rm 0 → thread 0    xa_start a             XA_OK         active
  7  thread 0 ← rm 0    xa_start a             XA_OK
  8  thread 0 → rm 0    xa_end a               waits
  9  rm 0 → thread 0    xa_end a               XA_OK         idle
 10  thread 0 ← rm 0    xa_end a               XA_OK
 11  thread 0 → rm 1    xa_open                waits
 12  rm 1 → thread 0    xa_open                XA_OK
 13  thread 0 ← rm 1    xa_open                XA_OK
 14  thread 0 → rm 1    xa_start a             waits
 15  rm 1 → thread 0    xa_start a             XA_OK         active
 16  thread 0 ← rm 1    xa_start a             XA_OK
 17  thread 0 → rm 1    xa_end a               waits
 18  rm 1 → thread 0    xa_end a               XA_OK         idle
 19  thread 0 ← rm 1    xa_end a               XA_OK
 20  rm 0               will vote read-only (XA_RDONLY) on a
 21  rm 1               will vote read-only (XA_RDONLY) on a
 22  thread 0 → rm 0    xa_prepare a           waits
 23  rm 0 → thread 0    xa_prepare a           XA_RDONLY     over, read only
 24  thread 0 ← rm 0    xa_prepare a           XA_RDONLY     votes read-only, and needs no second phase
 25  thread 0 → rm 1    xa_prepare a           waits
 26  rm 1 → thread 0    xa_prepare a           XA_RDONLY     over, read only
 27  thread 0 ← rm 1    xa_prepare a           XA_RDONLY     votes read-only, and needs no second phase
 28  manager            decide a commit        decided       no row is needed: every branch has only read
 29  thread 0 → rm 0    xa_commit a            refused 9 NotDecided: its transaction has no row in the log, and none may be committed before it has

      a at rm 0        read-only
      a at rm 1        read-only
      a was decided to commit at 28. Its branches have only read, so that nothing is left to do.
