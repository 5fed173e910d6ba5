  1  thread 0 → manager begin a                transaction 1 of incarnation 1
  2  thread 0 → rm 0    xa_open                waits
  3  rm 0 → thread 0    xa_open                XA_OK
  4  thread 0 ← rm 0    xa_open                XA_OK
  5  thread 0 → rm 0    xa_start a             waits
  6  rm 0 → thread 0    xa_start a             XA_OK         active
  7  thread 0 ← rm 0    xa_start a             XA_OK
  8  thread 0 → rm 0    xa_end a               waits
  9  rm 0 → thread 0    xa_end a               XA_OK         idle
 10  thread 0 ← rm 0    xa_end a               XA_OK
 11  thread 0 → rm 0    xa_prepare a           waits
 12  rm 0 → thread 0    xa_prepare a           XA_OK         prepared
 13  thread 0 ← rm 0    xa_prepare a           XA_OK         votes yes
 14  manager            claim a                claimed       all votes are in: no recovery rolls it back now
 15  manager → rm 0     xa_recover             waits
 16  rm 0 → manager     xa_recover             1             in doubt here: a
 17  manager ← rm 0     xa_recover             1
 18  manager → rm 0     resolve-open           0 calls
 19  manager            settle a               decided       row added to the log, waits for rm 0
 20  thread 0 → rm 0    xa_commit a            waits
 21  rm 0 → thread 0    xa_commit a            XA_OK         committed
 22  thread 0 ← rm 0    xa_commit a            XA_OK         acknowledged: the row waits for no more
 23  manager            done a                 done          the row leaves the log

      a at rm 0        committed
      a was decided to commit at 19. The decision is a row in the log, which outlives a crash: a branch with a row is told to commit.
