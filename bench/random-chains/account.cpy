       01  ACCOUNT-RECORD.
           05  ACCOUNT-KEY          PIC X(12).
           05  ACCOUNT-NAME         PIC X(16).
           05  ACCOUNT-BALANCE      PIC S9(9)V99 COMP-3.
           05  ACCOUNT-MOVES        PIC S9(5) COMP-3.
           05  ACCOUNT-MOVED        PIC 9(6).
           05  FILLER               PIC X(21).
