  1  thread 0 → manager begin a                transaction 1 of incarnation 1
  2  thread 0 → rm 0    xa_open                waits
  3  rm 0 → thread 0    xa_open                XA_OK
  4  thread 0 ← rm 0    xa_open                XA_OK
  5  thread 0 → rm 0    xa_start a             waits
  6  rm 0 → thread 0    xa_start a             XA_OK         active
  7  thread 0 ← rm 0    xa_start a             XA_OK
  8  thread 0 → rm 0    xa_end a               waits
  9  rm 0 → thread 0    xa_end a               XA_OK         idle
 10  thread 0 ← rm 0    xa_end a               XA_OK
 11  thread 0 → rm 0    xa_prepare a           waits
 12  rm 0 → thread 0    xa_prepare a           XA_OK         prepared
 13  thread 0 ← rm 0    xa_prepare a           XA_OK         votes yes
 14  manager            decide a commit        decided       row added to the log, waits for rm 0
 15  rm 0               will put xa_commit a off 3 times
 16  thread 0 → rm 0    xa_commit a            waits
 17  rm 0 → thread 0    xa_commit a            XA_RETRY      put off: it stays prepared
 18  thread 0 ← rm 0    xa_commit a            XA_RETRY
 19  thread 0 → rm 0    xa_commit a            waits
 20  rm 0 → thread 0    xa_commit a            XA_RETRY      put off: it stays prepared
 21  thread 0 ← rm 0    xa_commit a            XA_RETRY
 22  thread 0 → rm 0    xa_commit a            waits
 23  rm 0 → thread 0    xa_commit a            XA_RETRY      put off: it stays prepared
 24  thread 0 ← rm 0    xa_commit a            XA_RETRY
 25  manager            done a                 refused 11 Busy: a branch of the transaction hasn't acknowledged yet (rm 0)
 26  thread 0 → rm 0    xa_commit a            waits
 27  rm 0 → thread 0    xa_commit a            XA_OK         committed
 28  thread 0 ← rm 0    xa_commit a            XA_OK         acknowledged: the row waits for no more
 29  manager            done a                 done          the row leaves the log

      a at rm 0        committed
      a was decided to commit at 14. The decision is a row in the log, which outlives a crash: a branch with a row is told to commit.
