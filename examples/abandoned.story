  1  thread 0 → manager begin a                transaction 1 of incarnation 1
  2  thread 0 → rm 0    xa_open                waits
  3  rm 0 → thread 0    xa_open                XA_OK
  4  thread 0 ← rm 0    xa_open                XA_OK
  5  thread 0 → rm 0    xa_start a             waits
  6  rm 0 → thread 0    xa_start a             XA_OK         active
  7  thread 0 ← rm 0    xa_start a             XA_OK
  8  thread 0 → rm 0    xa_end a               waits
  9  rm 0 → thread 0    xa_end a               XA_OK         idle
 10  thread 0 ← rm 0    xa_end a               XA_OK
 11  thread 0 → rm 0    xa_prepare a           waits
 12  rm 0 → thread 0    xa_prepare a           XA_OK         prepared
 13  thread 0 ← rm 0    xa_prepare a           XA_OK         votes yes
 14  manager            claim a                claimed       all votes are in: no recovery rolls it back now
 15  manager            abandon a              decided       no row is written: no row means rollback
 16  thread 0 → rm 0    xa_rollback a          waits
 17  rm 0 → thread 0    xa_rollback a          XA_OK         rolled back
 18  thread 0 ← rm 0    xa_rollback a          XA_OK
 19  manager            settle a               refused 8 Decided: how it ends is settled already: decided, claimed or handed over

      a at rm 0        rolled-back
      a was decided to roll back at 15. That is not written: a branch with no row in the log is rolled back.
