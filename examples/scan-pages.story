  1  thread 0 → rm 0    xa_open                waits
  2  rm 0 → thread 0    xa_open                XA_OK
  3  thread 0 ← rm 0    xa_open                XA_OK
  4  thread 0 → manager begin a                transaction 1 of incarnation 1
  5  thread 0 → rm 0    xa_start a             waits
  6  rm 0 → thread 0    xa_start a             XA_OK         active
  7  thread 0 ← rm 0    xa_start a             XA_OK
  8  thread 0 → rm 0    xa_end a               waits
  9  rm 0 → thread 0    xa_end a               XA_OK         idle
 10  thread 0 ← rm 0    xa_end a               XA_OK
 11  thread 0 → rm 0    xa_prepare a           waits
 12  rm 0 → thread 0    xa_prepare a           XA_OK         prepared
 13  thread 0 ← rm 0    xa_prepare a           XA_OK         votes yes
 14  thread 0 → manager begin b                transaction 2 of incarnation 1
 15  thread 0 → rm 0    xa_start b             waits
 16  rm 0 → thread 0    xa_start b             XA_OK         active
 17  thread 0 ← rm 0    xa_start b             XA_OK
 18  thread 0 → rm 0    xa_end b               waits
 19  rm 0 → thread 0    xa_end b               XA_OK         idle
 20  thread 0 ← rm 0    xa_end b               XA_OK
 21  thread 0 → rm 0    xa_prepare b           waits
 22  rm 0 → thread 0    xa_prepare b           XA_OK         prepared
 23  thread 0 ← rm 0    xa_prepare b           XA_OK         votes yes
 24  thread 0 → manager begin c                transaction 3 of incarnation 1
 25  thread 0 → rm 0    xa_start c             waits
 26  rm 0 → thread 0    xa_start c             XA_OK         active
 27  thread 0 ← rm 0    xa_start c             XA_OK
 28  thread 0 → rm 0    xa_end c               waits
 29  rm 0 → thread 0    xa_end c               XA_OK         idle
 30  thread 0 ← rm 0    xa_end c               XA_OK
 31  thread 0 → rm 0    xa_prepare c           waits
 32  rm 0 → thread 0    xa_prepare c           XA_OK         prepared
 33  thread 0 ← rm 0    xa_prepare c           XA_OK         votes yes
 34  thread 0 → manager begin d                transaction 4 of incarnation 1
 35  thread 0 → rm 0    xa_start d             waits
 36  rm 0 → thread 0    xa_start d             XA_OK         active
 37  thread 0 ← rm 0    xa_start d             XA_OK
 38  thread 0 → rm 0    xa_end d               waits
 39  rm 0 → thread 0    xa_end d               XA_OK         idle
 40  thread 0 ← rm 0    xa_end d               XA_OK
 41  thread 0 → rm 0    xa_prepare d           waits
 42  rm 0 → thread 0    xa_prepare d           XA_OK         prepared
 43  thread 0 ← rm 0    xa_prepare d           XA_OK         votes yes
 44  thread 0 → manager begin e                transaction 5 of incarnation 1
 45  thread 0 → rm 0    xa_start e             waits
 46  rm 0 → thread 0    xa_start e             XA_OK         active
 47  thread 0 ← rm 0    xa_start e             XA_OK
 48  thread 0 → rm 0    xa_end e               waits
 49  rm 0 → thread 0    xa_end e               XA_OK         idle
 50  thread 0 ← rm 0    xa_end e               XA_OK
 51  thread 0 → rm 0    xa_prepare e           waits
 52  rm 0 → thread 0    xa_prepare e           XA_OK         prepared
 53  thread 0 ← rm 0    xa_prepare e           XA_OK         votes yes
 54  thread 0 → rm 0    xa_recover             waits
 55  rm 0 → thread 0    xa_recover             2             in doubt here: a, b
 56  thread 0 ← rm 0    xa_recover             2
 57  manager → rm 0     resolve                0 calls
 58  thread 0 → rm 0    xa_recover             waits
 59  rm 0 → thread 0    xa_recover             2             in doubt here: c, d
 60  thread 0 ← rm 0    xa_recover             2
 61  thread 0 → rm 0    xa_recover             waits
 62  rm 0 → thread 0    xa_recover             1             in doubt here: e
 63  thread 0 ← rm 0    xa_recover             1
 64  thread 0 → rm 0    xa_recover             waits
 65  rm 0 → thread 0    xa_recover             XAER_INVAL
 66  thread 0 ← rm 0    xa_recover             XAER_INVAL
 67  thread 0 → rm 0    xa_recover             waits
 68  rm 0 → thread 0    xa_recover             0             nothing is in doubt here
 69  thread 0 ← rm 0    xa_recover             0
 70  thread 0 → rm 0    xa_recover             waits
 71  rm 0 → thread 0    xa_recover             XAER_INVAL
 72  thread 0 ← rm 0    xa_recover             XAER_INVAL

      a at rm 0        prepared: it waits to be told how it ends
      b at rm 0        prepared: it waits to be told how it ends
      c at rm 0        prepared: it waits to be told how it ends
      d at rm 0        prepared: it waits to be told how it ends
      e at rm 0        prepared: it waits to be told how it ends
      No decision to commit a is in the log, and what has no row there is never committed.
      No decision to commit b is in the log, and what has no row there is never committed.
      No decision to commit c is in the log, and what has no row there is never committed.
      No decision to commit d is in the log, and what has no row there is never committed.
      No decision to commit e is in the log, and what has no row there is never committed.
