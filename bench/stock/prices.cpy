       01  PRICE-RECORD.
           05  PRICE-ITEM           PIC X(6).
           05  PRICE-TEXT           PIC X(16).
           05  PRICE-AMOUNT         PIC S9(4)V999 COMP-3.
           05  FILLER               PIC X(6).
