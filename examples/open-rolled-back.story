  1  thread 0 → manager begin a                transaction 1 of incarnation 1
  2  thread 0 → rm 0    xa_open                waits
  3  rm 0 → thread 0    xa_open                XA_OK
  4  thread 0 ← rm 0    xa_open                XA_OK
  5  thread 0 → rm 0    xa_start a             waits
  6  rm 0 → thread 0    xa_start a             XA_OK         active
  7  thread 0 ← rm 0    xa_start a             XA_OK
  8  thread 0 → rm 0    xa_end a               waits
  9  rm 0 → thread 0    xa_end a               XA_OK         idle
 10  thread 0 ← rm 0    xa_end a               XA_OK
 11  thread 0 → rm 0    xa_prepare a           waits
 12  rm 0 → thread 0    xa_prepare a           XA_OK         prepared
 13  thread 0 ← rm 0    xa_prepare a           XA_OK         votes yes
 14  manager → rm 0     xa_recover             waits
 15  rm 0 → manager     xa_recover             1             in doubt here: a
 16  manager ← rm 0     xa_recover             1
 17  manager → rm 0     resolve-open           1 call        a decided to roll back; each listed branch: commit with a row, rollback without
 18  manager            claim a                refused 8 Decided: how it ends is settled already: decided, claimed or handed over
 19  rm 0 → manager     xa_rollback a          XA_OK         rolled back: its transaction has no row in the log
 20  manager ← rm 0     xa_rollback a          XA_OK

      a at rm 0        rolled-back
      a was decided to roll back at 17. That is not written: a branch with no row in the log is rolled back.
