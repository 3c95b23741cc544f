      *> The movements and the list of the stock of
      *> samples/stock/README.md for one department: movement cards on
      *> standard input, both reports on standard output. The files
      *> by key are STOCK and PRICES in the folder that it runs in.
      *> The department's name is the first word of the command.
       IDENTIFICATION DIVISION.
       PROGRAM-ID. STOCKS.
       ENVIRONMENT DIVISION.
       INPUT-OUTPUT SECTION.
       FILE-CONTROL.
           COPY "select.cpy".
           SELECT STOCK ASSIGN TO "STOCK"
               ORGANIZATION IS INDEXED
               ACCESS MODE IS DYNAMIC
               RECORD KEY IS STOCK-ITEM.
           SELECT PRICES ASSIGN TO "PRICES"
               ORGANIZATION IS INDEXED
               ACCESS MODE IS RANDOM
               RECORD KEY IS PRICE-ITEM.
       DATA DIVISION.
       FILE SECTION.
       FD  CARDS.
       01  MOVEMENT-CARD.
           05  CARD-KIND            PIC X.
               88  IS-ISSUE         VALUE "I".
           05  CARD-ITEM            PIC X(6).
           05  CARD-QUANTITY        PIC 9(5).
           05  FILLER               PIC X(84).
       FD  REPORT-FILE.
           COPY "report.cpy".
       FD  STOCK.
           COPY "stock.cpy".
       FD  PRICES.
           COPY "prices.cpy".
       WORKING-STORAGE SECTION.
       01  DEPARTMENT               PIC X(4).
           COPY "place.cpy".
       01  SWITCHES.
           05  END-STATE            PIC X VALUE "N".
               88  ALL-READ         VALUE "Y".
           05  STOCK-STATE          PIC X.
               88  IS-THERE         VALUE "Y".
           05  PRICE-STATE          PIC X.
               88  HAS-PRICE        VALUE "Y".
           05  SHORT-STATE          PIC X.
               88  IS-SHORT         VALUE "Y".
           05  LISTING-STATE        PIC X VALUE "N".
               88  IS-LISTING       VALUE "Y".
       01  SUMS.
           05  PAGES                PIC S9(5) COMP-3 VALUE 0.
           05  MOVED-VALUE          PIC S9(7)V99 COMP-3.
           05  ITEM-VALUE           PIC S9(9)V99 COMP-3.
           05  RECEIVED             PIC S9(9)V99 COMP-3 VALUE 0.
           05  ISSUED               PIC S9(9)V99 COMP-3 VALUE 0.
           05  ITEMS                PIC S9(5) COMP-3 VALUE 0.
           05  ALL-VALUE            PIC S9(11)V99 COMP-3 VALUE 0.
       01  MOVEMENT-HEADING.
           05  HEAD-NAME            PIC X(5).
           05  FILLER               PIC X(41)
               VALUE "STOCK MOVEMENTS".
           05  HEAD-DATE            PIC Z9/99/99.
           05  FILLER               PIC X(21) VALUE
               "                PAGE ".
           05  HEAD-PAGE            PIC ZZZZ.
       01  MOVEMENT-COLUMNS.
           05  FILLER               PIC X(34) VALUE "ITEM".
           05  FILLER               PIC X(13) VALUE "QUANTITY".
           05  FILLER               PIC X(13) VALUE "ON HAND".
           05  FILLER               PIC X(14) VALUE "PRICE".
           05  FILLER               PIC X(5) VALUE "VALUE".
       01  MOVEMENT-LINE.
           05  LINE-ITEM            PIC X(6).
           05  FILLER               PIC XX VALUE SPACES.
           05  LINE-TEXT            PIC X(16).
           05  FILLER               PIC XX VALUE SPACES.
           05  LINE-KIND            PIC X(8).
           05  FILLER               PIC XX VALUE SPACES.
           05  LINE-QUANTITY        PIC ZZ,ZZ9.
           05  FILLER               PIC XX VALUE SPACES.
           05  LINE-ON-HAND         PIC Z,ZZZ,ZZ9-.
           05  FILLER               PIC XX VALUE SPACES.
           05  LINE-PRICE           PIC Z,ZZZ.999.
           05  LINE-NO-PRICE REDEFINES LINE-PRICE PIC X(9).
           05  FILLER               PIC XX VALUE SPACES.
           05  LINE-VALUE           PIC Z,ZZZ,ZZZ.99.
           05  LINE-NO-VALUE REDEFINES LINE-VALUE PIC X(12).
           05  FILLER               PIC XX VALUE SPACES.
           05  LINE-REMARK          PIC X(11).
       01  REFUSED-LINE.
           05  REFUSED-ITEM         PIC X(6).
           05  FILLER               PIC X(28)
               VALUE "                NO SUCH ITEM".
       01  MOVEMENT-END.
           05  FILLER               PIC X(26) VALUE SPACES.
           05  FILLER               PIC X(14) VALUE "RECEIVED".
           05  END-RECEIVED         PIC ZZZ,ZZZ,ZZZ.99.
           05  FILLER               PIC X(11) VALUE "     ISSUED".
           05  END-ISSUED           PIC ZZZ,ZZZ,ZZZ.99.
       01  LIST-HEADING.
           05  LIST-NAME            PIC X(5).
           05  FILLER               PIC X(46) VALUE "STOCK LIST".
           05  LIST-DATE            PIC Z9/99/99.
           05  FILLER               PIC X(24) VALUE
               "                   PAGE ".
           05  LIST-PAGE            PIC ZZZZ.
       01  LIST-COLUMNS.
           05  FILLER               PIC X(27) VALUE "ITEM".
           05  FILLER               PIC X(6) VALUE "BIN".
           05  FILLER               PIC X(9) VALUE "ON HAND".
           05  FILLER               PIC X(11) VALUE "LEAST".
           05  FILLER               PIC X(16) VALUE "PRICE".
           05  FILLER               PIC X(10) VALUE "VALUE".
           05  FILLER               PIC X(5) VALUE "MOVED".
       01  LIST-LINE.
           05  LIST-ITEM            PIC X(6).
           05  FILLER               PIC XX VALUE SPACES.
           05  LIST-TEXT            PIC X(16).
           05  FILLER               PIC XX VALUE SPACES.
           05  LIST-BIN             PIC X(4).
           05  FILLER               PIC X VALUE SPACE.
           05  LIST-ON-HAND         PIC Z,ZZZ,ZZ9.
           05  FILLER               PIC XX VALUE SPACES.
           05  LIST-LEAST           PIC ZZZZ9.
           05  FILLER               PIC XX VALUE SPACES.
           05  LIST-PRICE           PIC Z,ZZZ.999.
           05  LIST-NO-PRICE REDEFINES LIST-PRICE PIC X(9).
           05  FILLER               PIC XX VALUE SPACES.
           05  LIST-VALUE           PIC ZZZ,ZZZ,ZZZ.99.
           05  LIST-NO-VALUE REDEFINES LIST-VALUE PIC X(14).
           05  FILLER               PIC XX VALUE SPACES.
           05  LIST-MOVED           PIC Z9/99/99.
           05  FILLER               PIC X VALUE SPACE.
           05  LIST-REMARK          PIC X.
       01  LIST-END.
           05  FILLER               PIC X VALUE SPACE.
           05  END-ITEMS            PIC ZZZZ9.
           05  FILLER               PIC X(30) VALUE " ITEMS".
           05  FILLER               PIC X(21) VALUE "STOCK VALUE".
           05  END-VALUE            PIC ZZ,ZZZ,ZZZ,ZZZ.99.
       PROCEDURE DIVISION.
       MAIN-PART.
           ACCEPT DEPARTMENT FROM COMMAND-LINE
           OPEN INPUT CARDS PRICES OUTPUT REPORT-FILE I-O STOCK
           MOVE DEPARTMENT TO HEAD-NAME LIST-NAME
           MOVE 061576 TO HEAD-DATE LIST-DATE
           MOVE SPACES TO REPORT-LINE
           PERFORM HEADINGS
           PERFORM READ-CARD
           PERFORM ONE-CARD UNTIL ALL-READ
           PERFORM MOVEMENT-TOTALS
           CLOSE STOCK
           SET IS-LISTING TO TRUE
           MOVE 0 TO PAGES
           MOVE 1 TO PAGE-NUMBER PLACE
           MOVE "N" TO OVERFLOW-STATE END-STATE
           OPEN INPUT STOCK
           PERFORM HEADINGS
           PERFORM READ-STOCK
           PERFORM ONE-ITEM UNTIL ALL-READ
           PERFORM LIST-TOTALS
           CLOSE CARDS PRICES STOCK REPORT-FILE
           STOP RUN.
       READ-CARD.
           READ CARDS
               AT END SET ALL-READ TO TRUE
           END-READ.
       READ-STOCK.
           READ STOCK NEXT RECORD
               AT END SET ALL-READ TO TRUE
           END-READ.
       READ-PRICE.
           SET HAS-PRICE TO TRUE
           READ PRICES
               INVALID KEY MOVE "N" TO PRICE-STATE
           END-READ.
       ONE-CARD.
           IF OVERFLOWS
               PERFORM HEADINGS
           END-IF
           MOVE CARD-ITEM TO STOCK-ITEM
           SET IS-THERE TO TRUE
           READ STOCK
               INVALID KEY MOVE "N" TO STOCK-STATE
           END-READ
           IF IS-THERE
               PERFORM ONE-MOVEMENT
           ELSE
               MOVE CARD-ITEM TO REFUSED-ITEM
               MOVE REFUSED-LINE TO REPORT-TEXT
           END-IF
           MOVE 1 TO SPACES-AFTER
           PERFORM PRINT-LINE
           PERFORM READ-CARD.
       ONE-MOVEMENT.
           MOVE CARD-ITEM TO PRICE-ITEM
           PERFORM READ-PRICE
           MOVE "N" TO SHORT-STATE
           IF IS-ISSUE
               IF CARD-QUANTITY > STOCK-ON-HAND
                   SET IS-SHORT TO TRUE
               ELSE
                   SUBTRACT CARD-QUANTITY FROM STOCK-ON-HAND
               END-IF
               MOVE "  ISSUED" TO LINE-KIND
           ELSE
               ADD CARD-QUANTITY TO STOCK-ON-HAND
               MOVE "RECEIVED" TO LINE-KIND
           END-IF
           IF NOT IS-SHORT
               MOVE 061576 TO STOCK-MOVED
               REWRITE STOCK-RECORD
           END-IF
           MOVE CARD-ITEM TO LINE-ITEM
           MOVE CARD-QUANTITY TO LINE-QUANTITY
           MOVE STOCK-ON-HAND TO LINE-ON-HAND
           MOVE SPACES TO LINE-NO-VALUE
           IF HAS-PRICE
               MOVE PRICE-TEXT TO LINE-TEXT
               MOVE PRICE-AMOUNT TO LINE-PRICE
               IF NOT IS-SHORT
                   COMPUTE MOVED-VALUE ROUNDED
                       = CARD-QUANTITY * PRICE-AMOUNT
                   IF IS-ISSUE
                       ADD MOVED-VALUE TO ISSUED
                   ELSE
                       ADD MOVED-VALUE TO RECEIVED
                   END-IF
                   MOVE MOVED-VALUE TO LINE-VALUE
               END-IF
           ELSE
               MOVE "        NO PRICE" TO LINE-TEXT
               MOVE SPACES TO LINE-NO-PRICE
           END-IF
           MOVE SPACES TO LINE-REMARK
           IF IS-SHORT
               MOVE "SHORT" TO LINE-REMARK
           ELSE
               IF STOCK-ON-HAND < STOCK-LEAST
                   MOVE "BELOW LEAST" TO LINE-REMARK
               END-IF
           END-IF
           MOVE MOVEMENT-LINE TO REPORT-TEXT.
       MOVEMENT-TOTALS.
           MOVE 1 TO SPACES-DUE
           PERFORM SPACE-LINES
           MOVE RECEIVED TO END-RECEIVED
           MOVE ISSUED TO END-ISSUED
           MOVE MOVEMENT-END TO REPORT-TEXT
           MOVE 1 TO SPACES-AFTER
           PERFORM PRINT-LINE.
       ONE-ITEM.
           IF OVERFLOWS
               PERFORM HEADINGS
           END-IF
           MOVE STOCK-ITEM TO PRICE-ITEM LIST-ITEM
           PERFORM READ-PRICE
           IF HAS-PRICE
               MOVE PRICE-TEXT TO LIST-TEXT
               MOVE PRICE-AMOUNT TO LIST-PRICE
               COMPUTE ITEM-VALUE ROUNDED
                   = STOCK-ON-HAND * PRICE-AMOUNT
               ADD ITEM-VALUE TO ALL-VALUE
               MOVE ITEM-VALUE TO LIST-VALUE
           ELSE
               MOVE "        NO PRICE" TO LIST-TEXT
               MOVE SPACES TO LIST-NO-PRICE LIST-NO-VALUE
           END-IF
           ADD 1 TO ITEMS
           MOVE STOCK-BIN TO LIST-BIN
           MOVE STOCK-ON-HAND TO LIST-ON-HAND
           MOVE STOCK-LEAST TO LIST-LEAST
           MOVE STOCK-MOVED TO LIST-MOVED
           IF STOCK-ON-HAND < STOCK-LEAST
               MOVE "*" TO LIST-REMARK
           ELSE
               MOVE SPACE TO LIST-REMARK
           END-IF
           MOVE LIST-LINE TO REPORT-TEXT
           MOVE 1 TO SPACES-AFTER
           PERFORM PRINT-LINE
           PERFORM READ-STOCK.
       LIST-TOTALS.
           MOVE 1 TO SPACES-DUE
           PERFORM SPACE-LINES
           MOVE ITEMS TO END-ITEMS
           MOVE ALL-VALUE TO END-VALUE
           MOVE LIST-END TO REPORT-TEXT
           MOVE 1 TO SPACES-AFTER
           PERFORM PRINT-LINE.
       HEADINGS.
           IF PLACE > 1
               PERFORM NEXT-PAGE
               MOVE 1 TO PLACE
           END-IF
           ADD 1 TO PAGES
           MOVE 2 TO SPACES-AFTER
           IF IS-LISTING
               MOVE PAGES TO LIST-PAGE
               MOVE LIST-HEADING TO REPORT-TEXT
               PERFORM PRINT-LINE
               MOVE LIST-COLUMNS TO REPORT-TEXT
           ELSE
               MOVE PAGES TO HEAD-PAGE
               MOVE MOVEMENT-HEADING TO REPORT-TEXT
               PERFORM PRINT-LINE
               MOVE MOVEMENT-COLUMNS TO REPORT-TEXT
           END-IF
           PERFORM PRINT-LINE
           MOVE "N" TO OVERFLOW-STATE.
           COPY "printer.cpy".
