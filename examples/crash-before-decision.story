  1  thread 0 → manager begin a                transaction 1 of incarnation 1
  2  thread 0 → rm 0    xa_open                waits
  3  rm 0 → thread 0    xa_open                XA_OK
  4  thread 0 ← rm 0    xa_open                XA_OK
  5  thread 0 → rm 0    xa_start a             waits
  6  rm 0 → thread 0    xa_start a             XA_OK         active
  7  thread 0 ← rm 0    xa_start a             XA_OK
  8  thread 0 → rm 0    xa_end a               waits
  9  rm 0 → thread 0    xa_end a               XA_OK         idle
 10  thread 0 ← rm 0    xa_end a               XA_OK
 11  thread 0 → rm 0    xa_prepare a           waits
 12  rm 0 → thread 0    xa_prepare a           XA_OK         prepared
 13  thread 0 ← rm 0    xa_prepare a           XA_OK         votes yes
 14  manager            crashes                down          nothing was lost; the log has no row
 15  manager            restarts               up            incarnation 2: its log is empty
 16  thread 0 → rm 0    xa_open                waits
 17  rm 0 → thread 0    xa_open                XA_OK
 18  thread 0 ← rm 0    xa_open                XA_OK
 19  manager → rm 0     xa_recover             waits
 20  rm 0 → manager     xa_recover             1             in doubt here: a
 21  manager ← rm 0     xa_recover             1
 22  manager → rm 0     resolve                1 call        each listed branch: commit with a row, rollback without
 23  rm 0 → manager     xa_rollback a          XA_OK         rolled back: its transaction has no row in the log
 24  manager ← rm 0     xa_rollback a          XA_OK
 25  rm 0 → thread 0    take a call                          nothing waits there
 26  thread 0 ← rm 0    hear an answer                       nothing waits there

      a at rm 0        rolled-back
      No decision to commit a is in the log, and what has no row there is never committed.
