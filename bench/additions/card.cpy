       01  ITEM-CARD.
           05  CARD-TEXTS.
               10  CARD-KEY         PIC X(6).
               10  FILLER           PIC X(20).
           05  CARD-ON-HAND         PIC 9(5).
           05  CARD-PRICE           PIC 9(4)V999.
           05  FILLER               PIC X(58).
