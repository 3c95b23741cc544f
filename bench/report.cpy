       01  REPORT-LINE.
           05  REPORT-PAGE          PIC 9(4).
           05  FILLER               PIC X.
           05  REPORT-PLACE         PIC 99.
           05  FILLER               PIC X.
           05  REPORT-TEXT          PIC X(132).
