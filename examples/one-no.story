  1  thread 0 → manager begin a                transaction 1 of incarnation 1
  2  thread 0 → rm 0    xa_open                waits
  3  rm 0 → thread 0    xa_open                XA_OK
  4  thread 0 ← rm 0    xa_open                XA_OK
  5  thread 0 → rm 0    xa_start a             waits
  6  rm 0 → thread 0    xa_start a             XA_OK         active
  7  thread 0 ← rm 0    xa_start a             XA_OK
  8  thread 0 → rm 0    xa_end a               waits
  9  rm 0 → thread 0    xa_end a               XA_OK         idle
 10  thread 0 ← rm 0    xa_end a               XA_OK
 11  thread 0 → rm 1    xa_open                waits
 12  rm 1 → thread 0    xa_open                XA_OK
 13  thread 0 ← rm 1    xa_open                XA_OK
 14  thread 0 → rm 1    xa_start a             waits
 15  rm 1 → thread 0    xa_start a             XA_OK         active
 16  thread 0 ← rm 1    xa_start a             XA_OK
 17  thread 0 → rm 1    xa_end a               waits
 18  rm 1 → thread 0    xa_end a               XA_OK         idle
 19  thread 0 ← rm 1    xa_end a               XA_OK
 20  rm 1               will vote XA_RBDEADLOCK on a
 21  thread 0 → rm 0    xa_prepare a           waits
 22  rm 0 → thread 0    xa_prepare a           XA_OK         prepared
 23  thread 0 ← rm 0    xa_prepare a           XA_OK         votes yes
 24  thread 0 → rm 1    xa_prepare a           waits
 25  rm 1 → thread 0    xa_prepare a           XA_RBDEADLOCK rolled back
 26  thread 0 ← rm 1    xa_prepare a           XA_RBDEADLOCK votes no
 27  manager            decide a commit        refused 10 Votes: not every branch has voted for commit
 28  manager            decide a rollback      decided       no row is written: no row means rollback
 29  thread 0 → rm 0    xa_rollback a          waits
 30  rm 0 → thread 0    xa_rollback a          XA_OK         rolled back
 31  thread 0 ← rm 0    xa_rollback a          XA_OK
 32  thread 0 → rm 1    xa_rollback a          waits
 33  rm 1 → thread 0    xa_rollback a          XAER_NOTA     no such branch is there any more
 34  thread 0 ← rm 1    xa_rollback a          XAER_NOTA

      a at rm 0        rolled-back
      a at rm 1        rolled-back
      a was decided to roll back at 28. That is not written: a branch with no row in the log is rolled back.
