      *> The additions of source.txt and the list by key for one
      *> level: cards on standard input, both reports on standard
      *> output. ITEMS is a file by key in the folder that it runs
      *> in.
       IDENTIFICATION DIVISION.
       PROGRAM-ID. ADDS.
       ENVIRONMENT DIVISION.
       INPUT-OUTPUT SECTION.
       FILE-CONTROL.
           COPY "select.cpy".
           SELECT ITEMS ASSIGN TO "ITEMS"
               ORGANIZATION IS INDEXED
               ACCESS MODE IS DYNAMIC
               RECORD KEY IS ITEM-KEY.
       DATA DIVISION.
       FILE SECTION.
       FD  CARDS.
           COPY "card.cpy".
       FD  ITEMS.
           COPY "item.cpy".
       FD  REPORT-FILE.
           COPY "report.cpy".
       WORKING-STORAGE SECTION.
           COPY "place.cpy".
       01  SWITCHES.
           05  END-STATE            PIC X VALUE "N".
               88  ALL-READ         VALUE "Y".
           05  REFUSED-STATE        PIC X VALUE "N".
               88  IS-REFUSED       VALUE "Y".
       01  SUMS.
           05  PAGES                PIC S9(8) COMP-5 VALUE 0.
           05  ITEMS-COUNT          PIC S9(8) COMP-5 VALUE 0.
           05  ON-HAND              PIC S9(8) COMP-5.
           05  PRICE                PIC S9(6)V999 COMP-5.
           05  ITEM-VALUE           PIC S9(9)V99 COMP-5.
           05  ALL-VALUE            PIC S9(11)V99 COMP-5 VALUE 0.
       01  ADDED-LINE.
           05  FILLER               PIC X VALUE SPACE.
           05  LINE-ADDED           PIC ZZZZ9.
           05  FILLER               PIC X(21)
               VALUE "  ITEMS ADDED, VALUE".
           05  LINE-ADDED-VALUE     PIC ZZ,ZZZ,ZZZ,ZZZ.99.
       01  FIRST-HEADING.
           05  FILLER               PIC X(52) VALUE "ITEMS BY KEY".
           05  HEAD-DATE            PIC Z9/99/99.
           05  FILLER               PIC X(19) VALUE SPACES.
           05  FILLER               PIC X(5) VALUE "PAGE".
           05  HEAD-PAGE            PIC ZZZZ.
       01  SECOND-HEADING.
           05  FILLER               PIC X(25) VALUE "ITEM".
           05  FILLER               PIC X(6) VALUE "BIN".
           05  FILLER               PIC X(13) VALUE "ON HAND".
           05  FILLER               PIC X(16) VALUE "PRICE".
           05  FILLER               PIC X(11) VALUE "VALUE".
           05  FILLER               PIC X(4) VALUE "MADE".
       01  ITEM-LINE.
           05  LINE-KEY             PIC X(6).
           05  FILLER               PIC XX VALUE SPACES.
           05  LINE-TEXT            PIC X(16).
           05  FILLER               PIC X VALUE SPACE.
           05  LINE-BIN             PIC X(4).
           05  FILLER               PIC X(3) VALUE SPACES.
           05  LINE-ON-HAND         PIC ZZ,ZZ9.
           05  FILLER               PIC XX VALUE SPACES.
           05  LINE-PRICE           PIC Z,ZZZ.999.
           05  FILLER               PIC XX VALUE SPACES.
           05  LINE-VALUE           PIC ZZZ,ZZZ,ZZZ.99.
           05  FILLER               PIC XX VALUE SPACES.
           05  LINE-MADE            PIC Z9/99/99.
       01  END-LINE.
           05  FILLER               PIC X VALUE SPACE.
           05  END-ITEMS            PIC ZZZZ9.
           05  FILLER               PIC X(38) VALUE " ITEMS".
           05  FILLER               PIC X(6) VALUE "VALUE".
           05  END-VALUE            PIC ZZ,ZZZ,ZZZ,ZZZ.99.
       PROCEDURE DIVISION.
       MAIN-PART.
           OPEN INPUT CARDS OUTPUT REPORT-FILE I-O ITEMS
           MOVE 061576 TO HEAD-DATE
           MOVE SPACES TO REPORT-LINE
           PERFORM READ-CARD
           PERFORM ONE-CARD UNTIL ALL-READ
           PERFORM ADDED-TOTALS
           CLOSE ITEMS
           MOVE 1 TO PAGE-NUMBER PLACE
           MOVE "N" TO OVERFLOW-STATE END-STATE
           OPEN INPUT ITEMS
           PERFORM HEADINGS
           PERFORM READ-ITEM
           PERFORM ONE-ITEM UNTIL ALL-READ
           PERFORM LIST-TOTALS
           CLOSE CARDS ITEMS REPORT-FILE
           STOP RUN.
       READ-CARD.
           READ CARDS
               AT END SET ALL-READ TO TRUE
           END-READ.
       READ-ITEM.
           READ ITEMS NEXT RECORD
               AT END SET ALL-READ TO TRUE
           END-READ.
       ONE-CARD.
           MOVE CARD-TEXTS TO ITEM-RECORD
           MOVE CARD-ON-HAND TO ON-HAND
           MOVE CARD-PRICE TO PRICE
           MOVE ON-HAND TO ITEM-ON-HAND
           MOVE PRICE TO ITEM-PRICE
           MOVE 061576 TO ITEM-MADE
           WRITE ITEM-RECORD
               INVALID KEY SET IS-REFUSED TO TRUE
           END-WRITE
           IF IS-REFUSED
               DISPLAY "A KEY IS THERE ALREADY" UPON SYSERR
               STOP RUN RETURNING 1
           END-IF
           PERFORM ADD-VALUE
           PERFORM READ-CARD.
       ADD-VALUE.
           COMPUTE ITEM-VALUE ROUNDED = ON-HAND * PRICE
           ADD ITEM-VALUE TO ALL-VALUE
           ADD 1 TO ITEMS-COUNT.
       ADDED-TOTALS.
           MOVE ITEMS-COUNT TO LINE-ADDED
           MOVE ALL-VALUE TO LINE-ADDED-VALUE
           MOVE ADDED-LINE TO REPORT-TEXT
           MOVE 1 TO SPACES-AFTER
           PERFORM PRINT-LINE
           MOVE 0 TO ITEMS-COUNT ALL-VALUE.
       ONE-ITEM.
           IF OVERFLOWS
               PERFORM HEADINGS
           END-IF
           MOVE ITEM-ON-HAND TO ON-HAND
           MOVE ITEM-PRICE TO PRICE
           PERFORM ADD-VALUE
           MOVE ITEM-KEY TO LINE-KEY
           MOVE ITEM-TEXT TO LINE-TEXT
           MOVE ITEM-BIN TO LINE-BIN
           MOVE ON-HAND TO LINE-ON-HAND
           MOVE PRICE TO LINE-PRICE
           MOVE ITEM-VALUE TO LINE-VALUE
           MOVE ITEM-MADE TO LINE-MADE
           MOVE ITEM-LINE TO REPORT-TEXT
           MOVE 1 TO SPACES-AFTER
           PERFORM PRINT-LINE
           PERFORM READ-ITEM.
       LIST-TOTALS.
           MOVE 1 TO SPACES-DUE
           PERFORM SPACE-LINES
           MOVE ITEMS-COUNT TO END-ITEMS
           MOVE ALL-VALUE TO END-VALUE
           MOVE END-LINE TO REPORT-TEXT
           MOVE 1 TO SPACES-AFTER
           PERFORM PRINT-LINE.
           COPY "headings.cpy".
           COPY "printer.cpy".
