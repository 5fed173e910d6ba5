  1  thread 0 → manager begin a                transaction 1 of incarnation 1
  2  thread 0 → rm 0    xa_open                waits
  3  rm 0 → thread 0    xa_open                XA_OK
  4  thread 0 ← rm 0    xa_open                XA_OK
  5  thread 0 → rm 0    xa_start a             waits
  6  rm 0 → thread 0    xa_start a             XA_OK         active
  7  thread 0 ← rm 0    xa_start a             XA_OK
  8  thread 0 → rm 0    xa_end a               waits
  9  rm 0 → thread 0    xa_end a               XA_OK         idle
 10  thread 0 ← rm 0    xa_end a               XA_OK
 11  thread 0 → rm 0    xa_close               refused 11 Busy: a branch on this line isn't finished
 12  manager            decide a rollback      decided       no row is written: no row means rollback
 13  thread 0 → rm 0    xa_rollback a          waits
 14  rm 0 → thread 0    xa_rollback a          XA_OK         rolled back
 15  thread 0 ← rm 0    xa_rollback a          XA_OK
 16  thread 0 → rm 0    xa_close               waits
 17  rm 0 → thread 0    xa_close               XA_OK
 18  thread 0 ← rm 0    xa_close               XA_OK
 19  thread 0 → manager begin b                transaction 2 of incarnation 1
 20  thread 0 → rm 0    xa_start b             refused 4 Closed: xa_close was issued on this line

      a at rm 0        rolled-back
      a was decided to roll back at 12. That is not written: a branch with no row in the log is rolled back.
