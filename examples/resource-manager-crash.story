  1  thread 0 → manager begin a                transaction 1 of incarnation 1
  2  thread 0 → rm 0    xa_open                waits
  3  rm 0 → thread 0    xa_open                XA_OK
  4  thread 0 ← rm 0    xa_open                XA_OK
  5  thread 0 → rm 0    xa_start a             waits
  6  rm 0 → thread 0    xa_start a             XA_OK         active
  7  thread 0 ← rm 0    xa_start a             XA_OK
  8  thread 0 → rm 0    xa_end a               waits
  9  rm 0 → thread 0    xa_end a               XA_OK         idle
 10  thread 0 ← rm 0    xa_end a               XA_OK
 11  thread 0 → rm 1    xa_open                waits
 12  rm 1 → thread 0    xa_open                XA_OK
 13  thread 0 ← rm 1    xa_open                XA_OK
 14  thread 0 → rm 1    xa_start a             waits
 15  rm 1 → thread 0    xa_start a             XA_OK         active
 16  thread 0 ← rm 1    xa_start a             XA_OK
 17  thread 0 → rm 1    xa_end a               waits
 18  rm 1 → thread 0    xa_end a               XA_OK         idle
 19  thread 0 ← rm 1    xa_end a               XA_OK
 20  thread 0 → rm 0    xa_prepare a           waits
 21  rm 0 → thread 0    xa_prepare a           XA_OK         prepared
 22  thread 0 ← rm 0    xa_prepare a           XA_OK         votes yes
 23  thread 0 → rm 1    xa_prepare a           waits
 24  rm 1 → thread 0    xa_prepare a           XA_OK         prepared
 25  thread 0 ← rm 1    xa_prepare a           XA_OK         votes yes
 26  manager            decide a commit        decided       row added to the log, waits for rm 0, rm 1
 27  thread 0 → rm 0    xa_commit a            waits
 28  rm 0 → thread 0    xa_commit a            XA_OK         committed
 29  thread 0 ← rm 0    xa_commit a            XA_OK         acknowledged: the row still waits for rm 1
 30  rm 1               crashes                down          nothing was lost
 31  manager            done a                 refused 11 Busy: a branch of the transaction hasn't acknowledged yet (rm 1)
 32  rm 1               restarts               up
 33  thread 0 → rm 1    xa_open                waits
 34  rm 1 → thread 0    xa_open                XA_OK
 35  thread 0 ← rm 1    xa_open                XA_OK
 36  manager → rm 1     xa_recover             waits
 37  rm 1 → manager     xa_recover             1             in doubt here: a
 38  manager ← rm 1     xa_recover             1
 39  manager → rm 1     resolve                1 call        each listed branch: commit with a row, rollback without
 40  rm 1 → manager     xa_commit a            XA_OK         committed: its transaction has a row in the log
 41  manager ← rm 1     xa_commit a            XA_OK         acknowledged: the row waits for no more
 42  manager            done a                 done          the row leaves the log

      a at rm 0        committed
      a at rm 1        committed
      a was decided to commit at 26. The decision is a row in the log, which outlives a crash: a branch with a row is told to commit.
