  1  thread 0 → rm 0    xa_open                waits
  2  rm 0 → thread 0    xa_open                XA_OK
  3  thread 0 ← rm 0    xa_open                XA_OK
  4  thread 1 → rm 0    xa_open                waits
  5  rm 0 → thread 1    xa_open                XA_OK
  6  thread 1 ← rm 0    xa_open                XA_OK
  7  thread 0 → manager begin a                transaction 1 of incarnation 1
  8  thread 0 → rm 0    xa_start a             waits
  9  manager            decide a rollback      decided       no row is written: no row means rollback
 10  thread 1 → rm 0    xa_rollback a          refused 11 Busy: the answer to the branch's xa_start isn't heard yet
 11  rm 0 → thread 0    xa_start a             XA_OK         active
 12  thread 0 ← rm 0    xa_start a             XA_OK
 13  thread 1 → rm 0    xa_rollback a          waits
 14  rm 0 → thread 1    xa_rollback a          XAER_PROTO
 15  thread 1 ← rm 0    xa_rollback a          XAER_PROTO
 16  thread 0 → rm 0    xa_end a               waits
 17  rm 0 → thread 0    xa_end a               XA_OK         idle
 18  thread 0 ← rm 0    xa_end a               XA_OK
 19  thread 1 → rm 0    xa_rollback a          waits
 20  rm 0 → thread 1    xa_rollback a          XA_OK         rolled back
 21  thread 1 ← rm 0    xa_rollback a          XA_OK

      a at rm 0        rolled-back
      a was decided to roll back at 9. That is not written: a branch with no row in the log is rolled back.
