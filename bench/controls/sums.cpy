           05  SUM-COUNT            PIC S9(8) COMP-5 VALUE 0.
           05  SUM-UNITS            PIC S9(9) COMP-5 VALUE 0.
           05  SUM-AMOUNT           PIC S9(11)V99 COMP-5 VALUE 0.
           05  SUM-MARGIN           PIC S9(11)V99 COMP-5 VALUE 0.
