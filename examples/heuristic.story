  1  thread 0 → manager begin a                transaction 1 of incarnation 1
  2  thread 0 → rm 0    xa_open                waits
  3  rm 0 → thread 0    xa_open                XA_OK
  4  thread 0 ← rm 0    xa_open                XA_OK
  5  thread 0 → rm 0    xa_start a             waits
  6  rm 0 → thread 0    xa_start a             XA_OK         active
  7  thread 0 ← rm 0    xa_start a             XA_OK
  8  thread 0 → rm 0    xa_end a               waits
  9  rm 0 → thread 0    xa_end a               XA_OK         idle
 10  thread 0 ← rm 0    xa_end a               XA_OK
 11  thread 0 → rm 1    xa_open                waits
 12  rm 1 → thread 0    xa_open                XA_OK
 13  thread 0 ← rm 1    xa_open                XA_OK
 14  thread 0 → rm 1    xa_start a             waits
 15  rm 1 → thread 0    xa_start a             XA_OK         active
 16  thread 0 ← rm 1    xa_start a             XA_OK
 17  thread 0 → rm 1    xa_end a               waits
 18  rm 1 → thread 0    xa_end a               XA_OK         idle
 19  thread 0 ← rm 1    xa_end a               XA_OK
 20  thread 0 → rm 0    xa_prepare a           waits
 21  rm 0 → thread 0    xa_prepare a           XA_OK         prepared
 22  thread 0 ← rm 0    xa_prepare a           XA_OK         votes yes
 23  thread 0 → rm 1    xa_prepare a           waits
 24  rm 1 → thread 0    xa_prepare a           XA_OK         prepared
 25  thread 0 ← rm 1    xa_prepare a           XA_OK         votes yes
 26  rm 1               rolls a back itself                  a heuristic completion: nobody told it to
 27  manager            decide a commit        decided       row added to the log, waits for rm 0, rm 1
 28  thread 0 → rm 0    xa_commit a            waits
 29  rm 0 → thread 0    xa_commit a            XA_OK         committed
 30  thread 0 ← rm 0    xa_commit a            XA_OK         acknowledged: the row still waits for rm 1
 31  thread 0 → rm 1    xa_forget a            refused 9 NotDecided: the log has no record that the rm ended this branch by itself
 32  thread 0 → rm 1    xa_commit a            waits
 33  rm 1 → thread 0    xa_commit a            XA_HEURRB     it has ended the branch by itself
 34  thread 0 ← rm 1    xa_commit a            XA_HEURRB     recorded in the log
 35  thread 0 → rm 1    xa_forget a            waits
 36  rm 1 → thread 0    xa_forget a            XA_OK         forgotten
 37  thread 0 ← rm 1    xa_forget a            XA_OK
 38  manager            done a                 done          the row leaves the log

      a at rm 0        committed
      a at rm 1        heuristic-rb: its resource manager rolled it back without being told
      a was decided to commit at 27. The decision is a row in the log, which outlives a crash: a branch with a row is told to commit.
      The branches of a ended differently: a resource manager has ended its own without being told, and the log's record of that stays.
