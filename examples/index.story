  1  thread 0 → rm 0    xa_open                waits
  2  rm 0 → thread 0    xa_open                XA_OK
  3  thread 0 ← rm 0    xa_open                XA_OK
  4  thread 0 → manager begin a                transaction 1 of incarnation 1
  5  thread 0 → rm 0    xa_start a             waits
  6  rm 0 → thread 0    xa_start a             XA_OK         active
  7  thread 0 ← rm 0    xa_start a             XA_OK
  8  thread 0 → rm 0    xa_end a               waits
  9  rm 0 → thread 0    xa_end a               XA_OK         idle
 10  thread 0 ← rm 0    xa_end a               XA_OK
 11  thread 0 → manager begin b                transaction 2 of incarnation 1
 12  thread 0 → rm 0    xa_start b             waits
 13  rm 0 → thread 0    xa_start b             XA_OK         active
 14  thread 0 ← rm 0    xa_start b             XA_OK
 15  thread 0 → rm 0    xa_end b               waits
 16  rm 0 → thread 0    xa_end b               XA_OK         idle
 17  thread 0 ← rm 0    xa_end b               XA_OK
 18  thread 0 → manager begin c                transaction 3 of incarnation 1
 19  thread 0 → rm 0    xa_start c             waits
 20  rm 0 → thread 0    xa_start c             XA_OK         active
 21  thread 0 ← rm 0    xa_start c             XA_OK
 22  thread 0 → rm 0    xa_end c               waits
 23  rm 0 → thread 0    xa_end c               XA_OK         idle
 24  thread 0 ← rm 0    xa_end c               XA_OK
 25  thread 0 → manager begin d                transaction 4 of incarnation 1
 26  thread 0 → rm 0    xa_start d             waits
 27  rm 0 → thread 0    xa_start d             XA_OK         active
 28  thread 0 ← rm 0    xa_start d             XA_OK
 29  thread 0 → rm 0    xa_end d               waits
 30  rm 0 → thread 0    xa_end d               XA_OK         idle
 31  thread 0 ← rm 0    xa_end d               XA_OK
 32  thread 0 → rm 0    xa_prepare b           waits
 33  rm 0 → thread 0    xa_prepare b           XA_OK         prepared
 34  thread 0 ← rm 0    xa_prepare b           XA_OK         votes yes
 35  thread 0 → rm 0    xa_prepare c           waits
 36  rm 0 → thread 0    xa_prepare c           XA_OK         prepared
 37  thread 0 ← rm 0    xa_prepare c           XA_OK         votes yes
 38  thread 0 → rm 0    xa_prepare d           waits
 39  rm 0 → thread 0    xa_prepare d           XA_OK         prepared
 40  thread 0 ← rm 0    xa_prepare d           XA_OK         votes yes
 41  thread 0 → rm 0    xa_recover             waits
 42  rm 0 → thread 0    xa_recover             1             in doubt here: b
 43  thread 0 ← rm 0    xa_recover             1
 44  thread 0 → rm 0    xa_prepare a           waits
 45  rm 0 → thread 0    xa_prepare a           XA_OK         prepared
 46  thread 0 ← rm 0    xa_prepare a           XA_OK         votes yes
 47  manager            decide b commit        decided       row added to the log, waits for rm 0
 48  thread 0 → rm 0    xa_commit b            waits
 49  rm 0 → thread 0    xa_commit b            XA_OK         committed
 50  thread 0 ← rm 0    xa_commit b            XA_OK         acknowledged: the row waits for no more
 51  thread 0 → rm 0    xa_recover             waits
 52  rm 0 → thread 0    xa_recover             2             in doubt here: c, d
 53  thread 0 ← rm 0    xa_recover             2
 54  thread 0 → rm 0    xa_recover             waits
 55  rm 0 → thread 0    xa_recover             3             in doubt here: a, c, d
 56  thread 0 ← rm 0    xa_recover             3

      a at rm 0        prepared: it waits to be told how it ends
      b at rm 0        committed
      c at rm 0        prepared: it waits to be told how it ends
      d at rm 0        prepared: it waits to be told how it ends
      No decision to commit a is in the log, and what has no row there is never committed.
      b was decided to commit at 47. The decision is a row in the log, which outlives a crash: a branch with a row is told to commit.
      No decision to commit c is in the log, and what has no row there is never committed.
      No decision to commit d is in the log, and what has no row there is never committed.
