  1  thread 0 → manager begin a                transaction 1 of incarnation 1
  2  thread 0 → rm 0    xa_open                waits
  3  rm 0 → thread 0    xa_open                XA_OK
  4  thread 0 ← rm 0    xa_open                XA_OK
  5  thread 0 → rm 0    xa_start a             waits
  6  rm 0 → thread 0    xa_start a             XA_OK         active
  7  thread 0 ← rm 0    xa_start a             XA_OK
  8  thread 0 → rm 0    xa_end a               waits
  9  rm 0 → thread 0    xa_end a               XA_OK         idle
 10  thread 0 ← rm 0    xa_end a               XA_OK
 11  manager            claim a                refused 10 Votes: not every branch has voted for commit
 12  thread 0 → rm 0    xa_prepare a           waits
 13  rm 0 → thread 0    xa_prepare a           XA_OK         prepared
 14  thread 0 ← rm 0    xa_prepare a           XA_OK         votes yes
 15  manager            settle a               refused 9 NotDecided: the transaction isn't claimed
 16  manager            claim a                claimed       all votes are in: no recovery rolls it back now
 17  manager            crashes                down          nothing was lost; the log has no row
 18  manager            restarts               up            incarnation 2: its log is empty
 19  manager            settle a               refused 5 UnknownTransaction: no such transaction was begun since the manager came up
 20  thread 0 → rm 0    xa_open                waits
 21  rm 0 → thread 0    xa_open                XA_OK
 22  thread 0 ← rm 0    xa_open                XA_OK
 23  manager → rm 0     xa_recover             waits
 24  rm 0 → manager     xa_recover             1             in doubt here: a
 25  manager ← rm 0     xa_recover             1
 26  manager → rm 0     resolve                1 call        each listed branch: commit with a row, rollback without
 27  rm 0 → manager     xa_rollback a          XA_OK         rolled back: its transaction has no row in the log
 28  manager ← rm 0     xa_rollback a          XA_OK

      a at rm 0        rolled-back
      No decision to commit a is in the log, and what has no row there is never committed.
