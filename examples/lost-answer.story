  1  thread 0 → manager begin a                transaction 1 of incarnation 1
  2  thread 0 → rm 0    xa_open                waits
  3  rm 0 → thread 0    xa_open                XA_OK
  4  thread 0 ← rm 0    xa_open                XA_OK
  5  thread 0 → rm 0    xa_start a             waits
  6  rm 0 → thread 0    xa_start a             XA_OK         active
  7  thread 0 ← rm 0    xa_start a             XA_OK
  8  thread 0 → rm 0    xa_end a               waits
  9  rm 0 → thread 0    xa_end a               XA_OK         idle
 10  thread 0 ← rm 0    xa_end a               XA_OK
 11  thread 0 → rm 0    xa_commit(TMONEPHASE) a waits
 12  rm 0 → thread 0    xa_commit(TMONEPHASE) a XA_OK         committed
 13  thread 0 – rm 0    breaks                               lost: 1 waiting answer
 14  thread 0 → rm 0    xa_open                waits
 15  rm 0 → thread 0    xa_open                XA_OK
 16  thread 0 ← rm 0    xa_open                XA_OK
 17  thread 0 → rm 0    xa_rollback a          waits
 18  rm 0 → thread 0    xa_rollback a          XAER_NOTA     no such branch is there any more
 19  thread 0 ← rm 0    xa_rollback a          XAER_NOTA

      a at rm 0        committed
      a was handed over at 11: with one branch there is one phase, and its rm decides.
