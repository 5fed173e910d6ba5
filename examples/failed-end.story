  1  thread 0 → manager begin a                transaction 1 of incarnation 1
  2  thread 0 → rm 0    xa_open                waits
  3  rm 0 → thread 0    xa_open                XA_OK
  4  thread 0 ← rm 0    xa_open                XA_OK
  5  thread 0 → rm 0    xa_start a             waits
  6  rm 0 → thread 0    xa_start a             XA_OK         active
  7  thread 0 ← rm 0    xa_start a             XA_OK
  8  thread 0 → rm 0    xa_end(TMFAIL) a       waits
  9  rm 0 → thread 0    xa_end(TMFAIL) a       XA_RBROLLBACK rollback-only
 10  thread 0 ← rm 0    xa_end(TMFAIL) a       XA_RBROLLBACK
 11  thread 0 → rm 0    xa_prepare a           waits
 12  rm 0 → thread 0    xa_prepare a           XAER_PROTO
 13  thread 0 ← rm 0    xa_prepare a           XAER_PROTO
 14  manager            decide a commit        refused 10 Votes: not every branch has voted for commit
 15  manager            decide a rollback      decided       no row is written: no row means rollback
 16  thread 0 → rm 0    xa_rollback a          waits
 17  rm 0 → thread 0    xa_rollback a          XA_RBROLLBACK rolled back
 18  thread 0 ← rm 0    xa_rollback a          XA_RBROLLBACK

      a at rm 0        rolled-back
      a was decided to roll back at 15. That is not written: a branch with no row in the log is rolled back.
