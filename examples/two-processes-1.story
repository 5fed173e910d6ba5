  1  thread 0 → manager begin decided          transaction 1 of incarnation 1
  2  thread 0 → rm 0    xa_open                waits
  3  rm 0 → thread 0    xa_open                XA_OK
  4  thread 0 ← rm 0    xa_open                XA_OK
  5  thread 0 → rm 0    xa_start decided       waits
  6  rm 0 → thread 0    xa_start decided       XA_OK         active
  7  thread 0 ← rm 0    xa_start decided       XA_OK
  8  thread 0 → rm 0    xa_end decided         waits
  9  rm 0 → thread 0    xa_end decided         XA_OK         idle
 10  thread 0 ← rm 0    xa_end decided         XA_OK
 11  thread 0 → rm 1    xa_open                waits
 12  rm 1 → thread 0    xa_open                XA_OK
 13  thread 0 ← rm 1    xa_open                XA_OK
 14  thread 0 → rm 1    xa_start decided       waits
 15  rm 1 → thread 0    xa_start decided       XA_OK         active
 16  thread 0 ← rm 1    xa_start decided       XA_OK
 17  thread 0 → rm 1    xa_end decided         waits
 18  rm 1 → thread 0    xa_end decided         XA_OK         idle
 19  thread 0 ← rm 1    xa_end decided         XA_OK
 20  thread 0 → rm 0    xa_prepare decided     waits
 21  rm 0 → thread 0    xa_prepare decided     XA_OK         prepared
 22  thread 0 ← rm 0    xa_prepare decided     XA_OK         votes yes
 23  thread 0 → rm 1    xa_prepare decided     waits
 24  rm 1 → thread 0    xa_prepare decided     XA_OK         prepared
 25  thread 0 ← rm 1    xa_prepare decided     XA_OK         votes yes
 26  manager            decide decided commit  decided       row added to the log, waits for rm 0, rm 1
 27  thread 0 → manager begin open             transaction 2 of incarnation 1
 28  thread 0 → rm 0    xa_start open          waits
 29  rm 0 → thread 0    xa_start open          XA_OK         active
 30  thread 0 ← rm 0    xa_start open          XA_OK
 31  thread 0 → rm 0    xa_end open            waits
 32  rm 0 → thread 0    xa_end open            XA_OK         idle
 33  thread 0 ← rm 0    xa_end open            XA_OK
 34  thread 0 → rm 0    xa_prepare open        waits
 35  rm 0 → thread 0    xa_prepare open        XA_OK         prepared
 36  thread 0 ← rm 0    xa_prepare open        XA_OK         votes yes
 37  thread 0 → manager begin heuristic        transaction 3 of incarnation 1
 38  thread 0 → rm 1    xa_start heuristic     waits
 39  rm 1 → thread 0    xa_start heuristic     XA_OK         active
 40  thread 0 ← rm 1    xa_start heuristic     XA_OK
 41  thread 0 → rm 1    xa_end heuristic       waits
 42  rm 1 → thread 0    xa_end heuristic       XA_OK         idle
 43  thread 0 ← rm 1    xa_end heuristic       XA_OK
 44  thread 0 → rm 1    xa_prepare heuristic   waits
 45  rm 1 → thread 0    xa_prepare heuristic   XA_OK         prepared
 46  thread 0 ← rm 1    xa_prepare heuristic   XA_OK         votes yes
 47  manager            decide heuristic commit decided       row added to the log, waits for rm 1
 48  rm 1               rolls heuristic back itself               a heuristic completion: nobody told it to

      decided at rm 0  prepared: it waits to be told how it ends
      decided at rm 1  prepared: it waits to be told how it ends
      open at rm 0     prepared: it waits to be told how it ends
      heuristic at rm 1 heuristic-rb: its resource manager rolled it back without being told
      decided was decided to commit at 26. The decision is a row in the log, which outlives a crash: a branch with a row is told to commit.
      No decision to commit open is in the log, and what has no row there is never committed.
      heuristic was decided to commit at 47. The decision is a row in the log, which outlives a crash: a branch with a row is told to commit.
