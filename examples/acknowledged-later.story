  1  thread 0 → manager begin a                transaction 1 of incarnation 1
  2  thread 0 → rm 0    xa_open                waits
  3  rm 0 → thread 0    xa_open                XA_OK
  4  thread 0 ← rm 0    xa_open                XA_OK
  5  thread 0 → rm 0    xa_start a             waits
  6  rm 0 → thread 0    xa_start a             XA_OK         active
  7  thread 0 ← rm 0    xa_start a             XA_OK
  8  thread 0 → rm 0    xa_end a               waits
  9  rm 0 → thread 0    xa_end a               XA_OK         idle
 10  thread 0 ← rm 0    xa_end a               XA_OK
 11  thread 0 → rm 1    xa_open                waits
 12  rm 1 → thread 0    xa_open                XA_OK
 13  thread 0 ← rm 1    xa_open                XA_OK
 14  thread 0 → rm 1    xa_start a             waits
 15  rm 1 → thread 0    xa_start a             XA_OK         active
 16  thread 0 ← rm 1    xa_start a             XA_OK
 17  thread 0 → rm 1    xa_end a               waits
 18  rm 1 → thread 0    xa_end a               XA_OK         idle
 19  thread 0 ← rm 1    xa_end a               XA_OK
 20  thread 0 → rm 0    xa_prepare a           waits
 21  rm 0 → thread 0    xa_prepare a           XA_OK         prepared
 22  thread 0 ← rm 0    xa_prepare a           XA_OK         votes yes
 23  thread 0 → rm 1    xa_prepare a           waits
 24  rm 1 → thread 0    xa_prepare a           XA_OK         prepared
 25  thread 0 ← rm 1    xa_prepare a           XA_OK         votes yes
 26  manager            decide a commit        decided       row added to the log, waits for rm 0, rm 1
 27  manager            crashes                down          nothing was lost; the log keeps the row of a
 28  manager            restarts               up            incarnation 2: it finds 1 row in its log
 29  thread 0 → rm 0    xa_open                waits
 30  rm 0 → thread 0    xa_open                XA_OK
 31  thread 0 ← rm 0    xa_open                XA_OK
 32  manager → rm 0     xa_recover             waits
 33  rm 0 → manager     xa_recover             1             in doubt here: a
 34  manager ← rm 0     xa_recover             1
 35  rm 0 → thread 0    take a call                          nothing waits there
 36  thread 0 ← rm 0    hear an answer                       nothing waits there
 37  manager → rm 0     resolve                1 call        each listed branch: commit with a row, rollback without
 38  thread 0 → rm 1    xa_open                waits
 39  rm 1 → thread 0    xa_open                XA_OK
 40  thread 0 ← rm 1    xa_open                XA_OK
 41  manager → rm 1     xa_recover             waits
 42  rm 1 → manager     xa_recover             1             in doubt here: a
 43  manager ← rm 1     xa_recover             1
 44  rm 1 → thread 0    take a call                          nothing waits there
 45  thread 0 ← rm 1    hear an answer                       nothing waits there
 46  manager → rm 1     resolve                1 call        each listed branch: commit with a row, rollback without
 47  rm 0 → manager     xa_commit a            XA_OK         committed: its transaction has a row in the log
 48  manager ← rm 0     xa_commit a            XA_OK         acknowledged: the row still waits for rm 1
 49  rm 0 → thread 0    take a call                          nothing waits there
 50  thread 0 ← rm 0    hear an answer                       nothing waits there
 51  manager            done a                 refused 11 Busy: a branch of the transaction hasn't acknowledged yet (rm 1)
 52  rm 1 → manager     xa_commit a            XA_OK         committed: its transaction has a row in the log
 53  manager ← rm 1     xa_commit a            XA_OK         acknowledged: the row waits for no more
 54  rm 1 → thread 0    take a call                          nothing waits there
 55  thread 0 ← rm 1    hear an answer                       nothing waits there
 56  manager            done a                 done          the row leaves the log

      a at rm 0        committed
      a at rm 1        committed
      a was decided to commit at 26. The decision is a row in the log, which outlives a crash: a branch with a row is told to commit.
