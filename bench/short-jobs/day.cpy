       01  DAY-RECORD.
           05  DAY-TEXTS.
               10  DAY-ORDER        PIC X(6).
               10  DAY-CUSTOMER     PIC X(6).
               10  DAY-ITEM         PIC X(12).
           05  DAY-QUANTITY         PIC S9(5) COMP-3.
           05  DAY-PRICE            PIC S9(5)V99 COMP-3.
           05  DAY-STATUS           PIC X.
           05  DAY-AMOUNT           PIC S9(9)V99 COMP-3.
           05  DAY-TAKEN            PIC 9(6).
           05  FILLER               PIC X(4).
