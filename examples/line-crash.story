  1  thread 0 → manager begin a                transaction 1 of incarnation 1
  2  thread 0 → rm 0    xa_open                waits
  3  rm 0 → thread 0    xa_open                XA_OK
  4  thread 0 ← rm 0    xa_open                XA_OK
  5  thread 0 → rm 0    xa_start a             waits
  6  thread 0 → rm 0    xa_end a               waits         behind 1 on the line
  7  thread 0 → rm 0    xa_prepare a           waits         behind 2 on the line
  8  rm 0 → thread 0    xa_start a             XA_OK         active
  9  thread 0 – rm 0    breaks                               lost: 2 waiting calls, 1 waiting answer, a at rm 0
 10  rm 0 → thread 0    take a call                          nothing waits there

      a at rm 0        lost: its line broke before it was prepared
      No decision to commit a is in the log, and what has no row there is never committed.
