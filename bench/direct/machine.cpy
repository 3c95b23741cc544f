       01  MACHINE-RECORD.
           05  MACHINE-NAME         PIC X(16).
           05  MACHINE-HOURS        PIC S9(6)V9 COMP-3.
           05  MACHINE-PIECES       PIC S9(7) COMP-3.
           05  MACHINE-SCRAP        PIC S9(5) COMP-3.
           05  MACHINE-COST         PIC S9(9)V99 COMP-3.
           05  MACHINE-RATE         PIC S9(3)V99 COMP-3.
           05  MACHINE-RUNS         PIC 9(4).
           05  MACHINE-LAST         PIC 9(6).
           05  MACHINE-LEAST        PIC S9(5) COMP-3.
           05  MACHINE-MOST         PIC S9(5) COMP-3.
           05  FILLER               PIC X(20).
