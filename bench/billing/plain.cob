      *> The billing of samples/billing.py: data cards on standard
      *> input, the report on standard output.
       IDENTIFICATION DIVISION.
       PROGRAM-ID. BILLING.
       ENVIRONMENT DIVISION.
       INPUT-OUTPUT SECTION.
       FILE-CONTROL.
           COPY "select.cpy".
       DATA DIVISION.
       FILE SECTION.
       FD  CARDS.
       01  CUSTOMER-CARD.
           05  CARD-KIND            PIC X.
               88  IS-CUSTOMER      VALUE "C".
           05  CARD-CUSTOMER        PIC 9(5).
           05  CARD-NAME            PIC X(24).
           05  FILLER               PIC X(66).
       01  ITEM-CARD.
           05  FILLER               PIC X(6).
           05  CARD-ITEM            PIC X(6).
           05  CARD-DESCRIPTION     PIC X(20).
           05  CARD-QUANTITY        PIC S9(4)V9.
           05  CARD-PRICE           PIC S9(3)V9(3).
           05  FILLER               PIC X(53).
       FD  REPORT-FILE.
           COPY "report.cpy".
       WORKING-STORAGE SECTION.
           COPY "place.cpy".
       01  SWITCHES.
           05  END-STATE            PIC X VALUE "N".
               88  ALL-READ         VALUE "Y".
           05  CUSTOMER-STATE       PIC X VALUE "N".
               88  HAS-CUSTOMER     VALUE "Y".
       01  SUMS.
           05  PAGES                PIC S9(5) COMP-5 VALUE 0.
           05  CUSTOMER             PIC 9(5).
           05  AMOUNT               PIC S9(7)V99 COMP-5.
           05  TOTAL                PIC S9(9)V99 COMP-5 VALUE 0.
           05  ITEMS                PIC S9(5) COMP-5 VALUE 0.
           05  DISCOUNT             PIC S9(9)V99 COMP-5.
           05  DUE                  PIC S9(9)V99 COMP-5.
           05  ALL-DUE              PIC S9(11)V99 COMP-5 VALUE 0.
           05  ALL-ITEMS            PIC S9(7) COMP-5 VALUE 0.
           05  CUSTOMERS            PIC S9(5) COMP-5 VALUE 0.
       01  FIRST-HEADING.
           05  FILLER               PIC X(32)
               VALUE "BILLING REGISTER".
           05  HEAD-DATE            PIC Z9/99/99.
           05  FILLER               PIC X(18) VALUE
               "             PAGE ".
           05  HEAD-PAGE            PIC ZZZZ.
       01  SECOND-HEADING.
           05  FILLER               PIC X(10) VALUE "  ITEM    ".
           05  FILLER               PIC X(22) VALUE "DESCRIPTION".
           05  FILLER               PIC X(13) VALUE "QUANTITY".
           05  FILLER               PIC X(13) VALUE "PRICE".
           05  FILLER               PIC X(6) VALUE "AMOUNT".
       01  CUSTOMER-LINE.
           05  FILLER               PIC XX VALUE SPACES.
           05  LINE-CUSTOMER        PIC ZZZZZ.
           05  FILLER               PIC X VALUE SPACES.
           05  LINE-NAME            PIC X(24).
       01  ITEM-LINE.
           05  FILLER               PIC XX VALUE SPACES.
           05  LINE-ITEM            PIC X(6).
           05  FILLER               PIC XX VALUE SPACES.
           05  LINE-DESCRIPTION     PIC X(20).
           05  FILLER               PIC XX VALUE SPACES.
           05  LINE-QUANTITY        PIC Z,ZZZ.9-.
           05  FILLER               PIC X(3) VALUE SPACES.
           05  LINE-PRICE           PIC ZZZ.999.
           05  FILLER               PIC XX VALUE SPACES.
           05  LINE-AMOUNT          PIC Z,ZZZ,ZZZ.99-.
           05  FILLER               PIC XX VALUE SPACES.
           05  LINE-CREDIT          PIC X(6).
       01  TOTAL-LINE.
           05  FILLER               PIC X(3) VALUE SPACES.
           05  LINE-ITEMS           PIC ZZZZ9.
           05  FILLER               PIC X(18) VALUE " ITEMS".
           05  FILLER               PIC X(24) VALUE "CUSTOMER TOTAL".
           05  LINE-TOTAL           PIC ZZZ,ZZZ,ZZZ.99CR.
       01  DISCOUNT-LINE.
           05  FILLER               PIC X(22) VALUE SPACES.
           05  FILLER               PIC X(28)
               VALUE "LESS 2.5% DISCOUNT".
           05  LINE-DISCOUNT        PIC ZZZ,ZZZ,ZZZ.99CR.
       01  DUE-LINE.
           05  FILLER               PIC X(30) VALUE SPACES.
           05  FILLER               PIC X(20) VALUE "AMOUNT DUE".
           05  LINE-DUE             PIC ZZZ,ZZZ,ZZZ.99CR.
           05  FILLER               PIC XX VALUE " *".
       01  END-LINE.
           05  FILLER               PIC X(3) VALUE SPACES.
           05  LINE-CUSTOMERS       PIC ZZZZ9.
           05  FILLER               PIC X(11) VALUE " CUSTOMERS".
           05  LINE-ALL-ITEMS       PIC Z,ZZZ,ZZ9.
           05  FILLER               PIC X(8) VALUE " ITEMS".
           05  FILLER               PIC X(11) VALUE "TOTAL DUE".
           05  LINE-ALL-DUE         PIC ZZ,ZZZ,ZZZ,ZZZ.99CR.
           05  FILLER               PIC X(3) VALUE " **".
       PROCEDURE DIVISION.
       MAIN-PART.
           OPEN INPUT CARDS OUTPUT REPORT-FILE
           MOVE 061576 TO HEAD-DATE
           MOVE SPACES TO REPORT-LINE
           PERFORM HEADINGS
           PERFORM READ-CARD
           PERFORM ONE-CARD UNTIL ALL-READ
           IF HAS-CUSTOMER
               PERFORM CUSTOMER-TOTALS
           END-IF
           PERFORM ALL-TOTALS
           CLOSE CARDS REPORT-FILE
           STOP RUN.
       READ-CARD.
           READ CARDS
               AT END SET ALL-READ TO TRUE
           END-READ.
       ONE-CARD.
           IF HAS-CUSTOMER AND CARD-CUSTOMER NOT = CUSTOMER
               PERFORM CUSTOMER-TOTALS
           END-IF
           MOVE CARD-CUSTOMER TO CUSTOMER
           SET HAS-CUSTOMER TO TRUE
           IF OVERFLOWS
               PERFORM HEADINGS
           END-IF
           IF IS-CUSTOMER
               MOVE CARD-CUSTOMER TO LINE-CUSTOMER
               MOVE CARD-NAME TO LINE-NAME
               MOVE 1 TO SPACES-DUE
               PERFORM SPACE-LINES
               MOVE CUSTOMER-LINE TO REPORT-TEXT
               MOVE 1 TO SPACES-AFTER
               PERFORM PRINT-LINE
           ELSE
               PERFORM ONE-ITEM
           END-IF
           PERFORM READ-CARD.
       ONE-ITEM.
           COMPUTE AMOUNT ROUNDED = CARD-QUANTITY * CARD-PRICE
           ADD AMOUNT TO TOTAL
           ADD 1 TO ITEMS
           MOVE CARD-ITEM TO LINE-ITEM
           MOVE CARD-DESCRIPTION TO LINE-DESCRIPTION
           MOVE CARD-QUANTITY TO LINE-QUANTITY
           MOVE CARD-PRICE TO LINE-PRICE
           MOVE AMOUNT TO LINE-AMOUNT
           IF AMOUNT < 0
               MOVE "CREDIT" TO LINE-CREDIT
           ELSE
               MOVE SPACES TO LINE-CREDIT
           END-IF
           MOVE ITEM-LINE TO REPORT-TEXT
           MOVE 1 TO SPACES-AFTER
           PERFORM PRINT-LINE.
       CUSTOMER-TOTALS.
           IF TOTAL >= 1000
               COMPUTE DISCOUNT ROUNDED = TOTAL * 0.025
           ELSE
               MOVE 0 TO DISCOUNT
           END-IF
           SUBTRACT DISCOUNT FROM TOTAL GIVING DUE
           ADD DUE TO ALL-DUE
           ADD ITEMS TO ALL-ITEMS
           ADD 1 TO CUSTOMERS
           MOVE 1 TO SPACES-DUE
           PERFORM SPACE-LINES
           MOVE ITEMS TO LINE-ITEMS
           MOVE TOTAL TO LINE-TOTAL
           MOVE TOTAL-LINE TO REPORT-TEXT
           MOVE 1 TO SPACES-AFTER
           PERFORM PRINT-LINE
           IF TOTAL >= 1000
               MOVE DISCOUNT TO LINE-DISCOUNT
               MOVE DISCOUNT-LINE TO REPORT-TEXT
               PERFORM PRINT-LINE
           END-IF
           MOVE DUE TO LINE-DUE
           MOVE DUE-LINE TO REPORT-TEXT
           PERFORM PRINT-LINE
           MOVE 0 TO TOTAL ITEMS.
       ALL-TOTALS.
           MOVE 1 TO SPACES-DUE
           PERFORM SPACE-LINES
           MOVE CUSTOMERS TO LINE-CUSTOMERS
           MOVE ALL-ITEMS TO LINE-ALL-ITEMS
           MOVE ALL-DUE TO LINE-ALL-DUE
           MOVE END-LINE TO REPORT-TEXT
           MOVE 1 TO SPACES-AFTER
           PERFORM PRINT-LINE.
       HEADINGS.
           IF PLACE > 1
               PERFORM NEXT-PAGE
               MOVE 1 TO PLACE
           END-IF
           ADD 1 TO PAGES
           IF PAGES > 9999
               MOVE 0 TO PAGES
           END-IF
           MOVE PAGES TO HEAD-PAGE
           MOVE FIRST-HEADING TO REPORT-TEXT
           MOVE 2 TO SPACES-AFTER
           PERFORM PRINT-LINE
           MOVE SECOND-HEADING TO REPORT-TEXT
           PERFORM PRINT-LINE
           MOVE "N" TO OVERFLOW-STATE.
           COPY "printer.cpy".
