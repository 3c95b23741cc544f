      *> Where the printer of printer.cpy is.
       01  PRINTER.
           05  PAGE-NUMBER          PIC S9(4) COMP-5 VALUE 1.
           05  PLACE                PIC S9(4) COMP-5 VALUE 1.
           05  PLACE-BEFORE         PIC S9(4) COMP-5.
           05  SPACES-DUE           PIC S9(4) COMP-5.
           05  SPACES-AFTER         PIC S9(4) COMP-5.
           05  OVERFLOW-STATE       PIC X VALUE "N".
               88  OVERFLOWS        VALUE "Y".
