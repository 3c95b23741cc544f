       01  STOCK-RECORD.
           05  STOCK-ITEM           PIC X(6).
           05  STOCK-BIN            PIC X(4).
           05  STOCK-ON-HAND        PIC S9(7) COMP-3.
           05  STOCK-LEAST          PIC S9(5) COMP-3.
           05  STOCK-MOVED          PIC 9(6).
           05  FILLER               PIC X.
