       01  ITEM-RECORD.
           05  ITEM-KEY             PIC X(6).
           05  ITEM-TEXT            PIC X(16).
           05  ITEM-BIN             PIC X(4).
           05  ITEM-ON-HAND         PIC S9(5) COMP-3.
           05  ITEM-PRICE           PIC S9(4)V999 COMP-3.
           05  ITEM-MADE            PIC 9(6).
           05  FILLER               PIC X.
