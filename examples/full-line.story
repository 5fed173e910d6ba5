  1  thread 0 → rm 0    xa_open                waits
  2  rm 0 → thread 0    xa_open                XA_OK
  3  thread 0 ← rm 0    xa_open                XA_OK
  4  thread 0 → rm 0    xa_open                waits
  5  thread 0 → rm 0    xa_open                waits         behind 1 on the line
  6  thread 0 → rm 0    xa_open                waits         behind 2 on the line
  7  thread 0 → rm 0    xa_open                waits         behind 3 on the line
  8  thread 0 → rm 0    xa_open                waits         behind 4 on the line
  9  thread 0 → rm 0    xa_open                waits         behind 5 on the line
 10  thread 0 → rm 0    xa_open                waits         behind 6 on the line
 11  thread 0 → rm 0    xa_open                waits         behind 7 on the line
 12  thread 0 → rm 0    xa_open                waits         behind 8 on the line
 13  thread 0 → rm 0    xa_open                waits         behind 9 on the line
 14  thread 0 → rm 0    xa_open                waits         behind 10 on the line
 15  thread 0 → rm 0    xa_open                waits         behind 11 on the line
 16  thread 0 → rm 0    xa_open                waits         behind 12 on the line
 17  thread 0 → rm 0    xa_open                waits         behind 13 on the line
 18  thread 0 → rm 0    xa_open                waits         behind 14 on the line
 19  thread 0 → rm 0    xa_open                waits         behind 15 on the line
 20  thread 0 → rm 0    xa_open                waits         behind 16 on the line
 21  thread 0 → rm 0    xa_open                waits         behind 17 on the line
 22  thread 0 → rm 0    xa_open                waits         behind 18 on the line
 23  thread 0 → rm 0    xa_open                waits         behind 19 on the line
 24  thread 0 → rm 0    xa_open                waits         behind 20 on the line
 25  thread 0 → rm 0    xa_open                waits         behind 21 on the line
 26  thread 0 → rm 0    xa_open                waits         behind 22 on the line
 27  thread 0 → rm 0    xa_open                waits         behind 23 on the line
 28  thread 0 → rm 0    xa_open                waits         behind 24 on the line
 29  thread 0 → rm 0    xa_open                waits         behind 25 on the line
 30  thread 0 → rm 0    xa_open                waits         behind 26 on the line
 31  thread 0 → rm 0    xa_open                waits         behind 27 on the line
 32  thread 0 → rm 0    xa_open                waits         behind 28 on the line
 33  thread 0 → rm 0    xa_open                waits         behind 29 on the line
 34  thread 0 → rm 0    xa_open                waits         behind 30 on the line
 35  thread 0 → rm 0    xa_open                waits         behind 31 on the line
 36  thread 0 → rm 0    xa_open                waits         behind 32 on the line
 37  thread 0 → rm 0    xa_open                waits         behind 33 on the line
 38  thread 0 → rm 0    xa_open                waits         behind 34 on the line
 39  thread 0 → rm 0    xa_open                waits         behind 35 on the line
 40  thread 0 → rm 0    xa_open                waits         behind 36 on the line
 41  thread 0 → rm 0    xa_open                waits         behind 37 on the line
 42  thread 0 → rm 0    xa_open                waits         behind 38 on the line
 43  thread 0 → rm 0    xa_open                waits         behind 39 on the line
 44  thread 0 → rm 0    xa_open                waits         behind 40 on the line
 45  thread 0 → rm 0    xa_open                waits         behind 41 on the line
 46  thread 0 → rm 0    xa_open                waits         behind 42 on the line
 47  thread 0 → rm 0    xa_open                waits         behind 43 on the line
 48  thread 0 → rm 0    xa_open                waits         behind 44 on the line
 49  thread 0 → rm 0    xa_open                waits         behind 45 on the line
 50  thread 0 → rm 0    xa_open                waits         behind 46 on the line
 51  thread 0 → rm 0    xa_open                waits         behind 47 on the line
 52  thread 0 → rm 0    xa_open                waits         behind 48 on the line
 53  thread 0 → rm 0    xa_open                waits         behind 49 on the line
 54  thread 0 → rm 0    xa_open                waits         behind 50 on the line
 55  thread 0 → rm 0    xa_open                waits         behind 51 on the line
 56  thread 0 → rm 0    xa_open                waits         behind 52 on the line
 57  thread 0 → rm 0    xa_open                waits         behind 53 on the line
 58  thread 0 → rm 0    xa_open                waits         behind 54 on the line
 59  thread 0 → rm 0    xa_open                waits         behind 55 on the line
 60  thread 0 → rm 0    xa_open                waits         behind 56 on the line
 61  thread 0 → rm 0    xa_open                waits         behind 57 on the line
 62  thread 0 → rm 0    xa_open                waits         behind 58 on the line
 63  thread 0 → rm 0    xa_open                waits         behind 59 on the line
 64  thread 0 → rm 0    xa_open                waits         behind 60 on the line
 65  thread 0 → rm 0    xa_open                waits         behind 61 on the line
 66  thread 0 → rm 0    xa_open                waits         behind 62 on the line
 67  thread 0 → rm 0    xa_open                waits         behind 63 on the line
 68  thread 0 → rm 0    xa_open                refused 12 Full: 64 calls or answers wait on the line, and it takes no more
 69  rm 0 → thread 0    xa_open                XA_OK
 70  thread 0 → rm 0    xa_open                waits         behind 63 on the line

