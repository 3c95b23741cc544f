      *> The sales of source.txt: cards on standard input, the
      *> report on standard output.
       IDENTIFICATION DIVISION.
       PROGRAM-ID. SALES.
       ENVIRONMENT DIVISION.
       INPUT-OUTPUT SECTION.
       FILE-CONTROL.
           COPY "select.cpy".
       DATA DIVISION.
       FILE SECTION.
       FD  CARDS.
       01  SALE-CARD.
           05  FILLER               PIC X.
           05  CARD-REGION          PIC X(2).
           05  CARD-BRANCH          PIC X(3).
           05  CARD-SALESMAN        PIC 9(4).
           05  CARD-ORDER           PIC 9(5).
           05  CARD-DATE            PIC 9(6).
           05  CARD-UNITS           PIC S9(5).
           05  CARD-AMOUNT          PIC S9(7)V99.
           05  CARD-COST            PIC S9(7)V99.
           05  CARD-QUOTA           PIC 9(4).
           05  FILLER               PIC X(48).
       FD  REPORT-FILE.
           COPY "report.cpy".
       WORKING-STORAGE SECTION.
           COPY "place.cpy".
       01  SWITCHES.
           05  END-STATE            PIC X VALUE "N".
               88  ALL-READ         VALUE "Y".
       01  HELD-FIELDS.
           05  REGION               PIC X(2).
           05  BRANCH               PIC X(3).
           05  SALESMAN             PIC 9(4).
       01  WORK.
           05  PAGES                PIC S9(8) COMP-5 VALUE 0.
           05  UNITS                PIC S9(5) COMP-5.
           05  AMOUNT               PIC S9(7)V99 COMP-5.
           05  COST                 PIC S9(7)V99 COMP-5.
           05  MARGIN               PIC S9(7)V99 COMP-5.
           05  EACH-PRICE           PIC S9(6)V999 COMP-5.
           05  PART                 PIC S9(4)V9 COMP-5.
           05  AVERAGE              PIC S9(7)V99 COMP-5.
       01  OF-SALESMAN.
           COPY "sums.cpy".
       01  OF-BRANCH.
           COPY "sums.cpy".
       01  OF-REGION.
           COPY "sums.cpy".
       01  OF-ALL.
           COPY "sums.cpy".
       01  OF-LEVEL.
           COPY "sums.cpy".
       01  FIRST-HEADING.
           05  FILLER               PIC X(24)
               VALUE "SALES BY REGION, BRANCH".
           05  FILLER               PIC X(28) VALUE "AND SALESMAN".
           05  HEAD-DATE            PIC Z9/99/99.
           05  FILLER               PIC X(26) VALUE SPACES.
           05  FILLER               PIC X(5) VALUE "PAGE".
           05  HEAD-PAGE            PIC ZZZZ.
       01  SECOND-HEADING.
           05  FILLER               PIC X(5) VALUE " MAN".
           05  FILLER               PIC X(7) VALUE "ORDER".
           05  FILLER               PIC X(15) VALUE "DATE".
           05  FILLER               PIC X(12) VALUE "UNITS".
           05  FILLER               PIC X(15) VALUE "AMOUNT".
           05  FILLER               PIC X(14) VALUE "EACH".
           05  FILLER               PIC X(11) VALUE "COST".
           05  FILLER               PIC X(9) VALUE "MARGIN".
           05  FILLER               PIC X(8) VALUE "PERCENT".
           05  FILLER               PIC X(5) VALUE "QUOTA".
       01  SALE-LINE.
           05  LINE-SALESMAN        PIC ZZZZ.
           05  FILLER               PIC X VALUE SPACE.
           05  LINE-ORDER           PIC ZZZZ9.
           05  FILLER               PIC X VALUE SPACE.
           05  LINE-DATE            PIC Z9/99/99.
           05  FILLER               PIC X VALUE SPACE.
           05  LINE-PLUS            PIC 9(5).
           05  LINE-PUNCHED REDEFINES LINE-PLUS PIC S9(5).
           05  FILLER               PIC X VALUE SPACE.
           05  LINE-UNITS           PIC ZZ,ZZ9-.
           05  FILLER               PIC X VALUE SPACE.
           05  LINE-AMOUNT          PIC Z,ZZZ,ZZZ.99- BLANK WHEN ZERO.
           05  FILLER               PIC X VALUE SPACE.
           05  LINE-EACH            PIC ZZZZZZ.999-.
           05  FILLER               PIC X VALUE SPACE.
           05  LINE-COST            PIC Z,ZZZ,ZZZ.99CR.
           05  FILLER               PIC X VALUE SPACE.
           05  LINE-MARGIN          PIC ZZZZZZZ.99- BLANK WHEN ZERO.
           05  FILLER               PIC X VALUE SPACE.
           05  LINE-PART            PIC ZZZZ.9CR.
           05  FILLER               PIC X(2) VALUE SPACES.
           05  LINE-QUOTA           PIC ZZZZ.
           05  FILLER               PIC X(2) VALUE SPACES.
           05  LINE-LOSS            PIC X(4).
       01  SALESMAN-LINE.
           05  FILLER               PIC X(13) VALUE "    SALESMAN".
           05  S-NAME               PIC ZZZZ.
           05  FILLER               PIC X VALUE SPACE.
           05  S-LINE-COUNT         PIC Z,ZZ9.
           05  FILLER               PIC X(2) VALUE SPACES.
           05  S-LINE-UNITS         PIC Z,ZZZ,ZZ9CR BLANK WHEN ZERO.
           05  FILLER               PIC X(2) VALUE SPACES.
           05  S-LINE-AMOUNT        PIC ZZZ,ZZZ,ZZZ.99CR.
           05  FILLER               PIC X(2) VALUE SPACES.
           05  S-LINE-AVERAGE       PIC ZZZZZZZ.99CR BLANK WHEN ZERO.
           05  FILLER               PIC X(3) VALUE SPACES.
           05  S-LINE-MARGIN        PIC ZZZ,ZZZ,ZZZ.99-.
           05  FILLER               PIC X(2) VALUE SPACES.
           05  S-LINE-PART          PIC ZZZZ.9-.
       01  BRANCH-LINE.
           05  FILLER               PIC X(14) VALUE "      BRANCH".
           05  B-NAME               PIC X(3).
           05  FILLER               PIC X VALUE SPACE.
           05  B-LINE-COUNT         PIC ZZ,ZZ9 BLANK WHEN ZERO.
           05  FILLER               PIC X(3) VALUE SPACES.
           05  B-LINE-UNITS         PIC ZZZZZZZZ9CR.
           05  FILLER               PIC X(3) VALUE SPACES.
           05  B-LINE-AMOUNT        PIC Z(11).99- BLANK WHEN ZERO.
           05  B-LINE-AVERAGE       PIC Z,ZZZ,ZZZ.99CR.
           05  FILLER               PIC X VALUE SPACE.
           05  B-LINE-MARGIN        PIC ZZ,ZZZ,ZZZ,ZZZ.99-
                                    BLANK WHEN ZERO.
           05  FILLER               PIC X VALUE SPACE.
           05  B-LINE-PART          PIC ZZZZ.9CR BLANK WHEN ZERO.
       01  REGION-LINE.
           05  FILLER               PIC X(15) VALUE "      REGION".
           05  R-NAME               PIC X(2).
           05  FILLER               PIC X(2) VALUE SPACES.
           05  R-LINE-COUNT         PIC ZZZZZ.
           05  FILLER               PIC X(2) VALUE SPACES.
           05  R-LINE-UNITS         PIC ZZZ,ZZZ,ZZ9-.
           05  FILLER               PIC X VALUE SPACE.
           05  R-LINE-AMOUNT        PIC ZZ,ZZZ,ZZZ,ZZZ.99CR
                                    BLANK WHEN ZERO.
           05  FILLER               PIC X VALUE SPACE.
           05  R-LINE-AVERAGE       PIC Z,ZZZ,ZZZ.99- BLANK WHEN ZERO.
           05  FILLER               PIC X(2) VALUE SPACES.
           05  R-LINE-MARGIN        PIC Z(11).99-.
           05  R-LINE-PART          PIC Z,ZZZ.9CR.
       01  ALL-LINE.
           05  FILLER               PIC X(18) VALUE "         ALL".
           05  T-LINE-COUNT         PIC ZZ,ZZ9.
           05  FILLER               PIC X(4) VALUE SPACES.
           05  T-LINE-UNITS         PIC ZZZZZZZZ9- BLANK WHEN ZERO.
           05  FILLER               PIC X(4) VALUE SPACES.
           05  T-LINE-AMOUNT        PIC Z(11).99CR.
           05  FILLER               PIC X(3) VALUE SPACES.
           05  T-LINE-AVERAGE       PIC ZZZZZZZ.99-.
           05  T-LINE-MARGIN        PIC ZZ,ZZZ,ZZZ,ZZZ.99CR.
           05  FILLER               PIC X VALUE SPACE.
           05  T-LINE-PART          PIC Z,ZZZ.9-.
       PROCEDURE DIVISION.
       MAIN-PART.
           OPEN INPUT CARDS OUTPUT REPORT-FILE
           MOVE 061876 TO HEAD-DATE
           MOVE SPACES TO REPORT-LINE
           PERFORM HEADINGS
           PERFORM READ-CARD
           PERFORM KEEP-CONTROLS
           PERFORM ONE-SALE UNTIL ALL-READ
           PERFORM REGION-TOTALS
           PERFORM ALL-TOTALS
           CLOSE CARDS REPORT-FILE
           STOP RUN.
       READ-CARD.
           READ CARDS
               AT END SET ALL-READ TO TRUE
           END-READ.
       KEEP-CONTROLS.
           MOVE CARD-REGION TO REGION
           MOVE CARD-BRANCH TO BRANCH
           MOVE CARD-SALESMAN TO SALESMAN.
       ONE-SALE.
           IF CARD-SALESMAN NOT = SALESMAN OR CARD-BRANCH NOT = BRANCH
               OR CARD-REGION NOT = REGION
               PERFORM TOTALS-DUE
               PERFORM KEEP-CONTROLS
           END-IF
           IF OVERFLOWS
               PERFORM HEADINGS
           END-IF
           MOVE CARD-UNITS TO UNITS
           MOVE CARD-AMOUNT TO AMOUNT
           MOVE CARD-COST TO COST
           SUBTRACT COST FROM AMOUNT GIVING MARGIN
           IF UNITS = 0
               MOVE 0 TO EACH-PRICE
           ELSE
               DIVIDE AMOUNT BY UNITS GIVING EACH-PRICE ROUNDED
           END-IF
           IF AMOUNT = 0
               MOVE 0 TO PART
           ELSE
               COMPUTE PART ROUNDED = MARGIN * 100 / AMOUNT
           END-IF
           ADD 1 TO SUM-COUNT OF OF-SALESMAN
           ADD UNITS TO SUM-UNITS OF OF-SALESMAN
           ADD AMOUNT TO SUM-AMOUNT OF OF-SALESMAN
           ADD MARGIN TO SUM-MARGIN OF OF-SALESMAN
           PERFORM PRINT-SALE
           PERFORM READ-CARD.
       PRINT-SALE.
           MOVE CARD-SALESMAN TO LINE-SALESMAN
           MOVE CARD-ORDER TO LINE-ORDER
           MOVE CARD-DATE TO LINE-DATE
           IF UNITS < 0
               MOVE UNITS TO LINE-PUNCHED
           ELSE
               MOVE UNITS TO LINE-PLUS
           END-IF
           MOVE UNITS TO LINE-UNITS
           MOVE AMOUNT TO LINE-AMOUNT
           MOVE EACH-PRICE TO LINE-EACH
           MOVE COST TO LINE-COST
           MOVE MARGIN TO LINE-MARGIN
           MOVE PART TO LINE-PART
           MOVE CARD-QUOTA TO LINE-QUOTA
           IF PART < 0
               MOVE "LOSS" TO LINE-LOSS
           ELSE
               MOVE SPACES TO LINE-LOSS
           END-IF
           MOVE SALE-LINE TO REPORT-TEXT
           MOVE 1 TO SPACES-AFTER
           PERFORM PRINT-LINE.
       TOTALS-DUE.
           EVALUATE TRUE
               WHEN CARD-REGION NOT = REGION
                   PERFORM REGION-TOTALS
               WHEN CARD-BRANCH NOT = BRANCH
                   PERFORM BRANCH-TOTALS
               WHEN OTHER
                   PERFORM SALESMAN-TOTALS
           END-EVALUATE.
       QUOTIENTS.
           DIVIDE SUM-AMOUNT OF OF-LEVEL BY SUM-COUNT OF OF-LEVEL
               GIVING AVERAGE ROUNDED
           MOVE 0 TO PART
           IF SUM-AMOUNT OF OF-LEVEL NOT = 0
               COMPUTE PART ROUNDED = SUM-MARGIN OF OF-LEVEL * 100
                   / SUM-AMOUNT OF OF-LEVEL
           END-IF.
       SALESMAN-TOTALS.
           MOVE OF-SALESMAN TO OF-LEVEL
           INITIALIZE OF-SALESMAN
           ADD CORRESPONDING OF-LEVEL TO OF-BRANCH
           PERFORM QUOTIENTS
           MOVE SALESMAN TO S-NAME
           MOVE SUM-COUNT OF OF-LEVEL TO S-LINE-COUNT
           MOVE SUM-UNITS OF OF-LEVEL TO S-LINE-UNITS
           MOVE SUM-AMOUNT OF OF-LEVEL TO S-LINE-AMOUNT
           MOVE AVERAGE TO S-LINE-AVERAGE
           MOVE SUM-MARGIN OF OF-LEVEL TO S-LINE-MARGIN
           MOVE PART TO S-LINE-PART
           MOVE 1 TO SPACES-DUE
           PERFORM SPACE-LINES
           MOVE SALESMAN-LINE TO REPORT-TEXT
           MOVE 1 TO SPACES-AFTER
           PERFORM PRINT-LINE.
       BRANCH-TOTALS.
           PERFORM SALESMAN-TOTALS
           MOVE OF-BRANCH TO OF-LEVEL
           INITIALIZE OF-BRANCH
           ADD CORRESPONDING OF-LEVEL TO OF-REGION
           PERFORM QUOTIENTS
           MOVE BRANCH TO B-NAME
           MOVE SUM-COUNT OF OF-LEVEL TO B-LINE-COUNT
           MOVE SUM-UNITS OF OF-LEVEL TO B-LINE-UNITS
           MOVE SUM-AMOUNT OF OF-LEVEL TO B-LINE-AMOUNT
           MOVE AVERAGE TO B-LINE-AVERAGE
           MOVE SUM-MARGIN OF OF-LEVEL TO B-LINE-MARGIN
           MOVE PART TO B-LINE-PART
           MOVE BRANCH-LINE TO REPORT-TEXT
           MOVE 2 TO SPACES-AFTER
           PERFORM PRINT-LINE.
       REGION-TOTALS.
           PERFORM BRANCH-TOTALS
           MOVE OF-REGION TO OF-LEVEL
           INITIALIZE OF-REGION
           ADD CORRESPONDING OF-LEVEL TO OF-ALL
           PERFORM QUOTIENTS
           MOVE REGION TO R-NAME
           MOVE SUM-COUNT OF OF-LEVEL TO R-LINE-COUNT
           MOVE SUM-UNITS OF OF-LEVEL TO R-LINE-UNITS
           MOVE SUM-AMOUNT OF OF-LEVEL TO R-LINE-AMOUNT
           MOVE AVERAGE TO R-LINE-AVERAGE
           MOVE SUM-MARGIN OF OF-LEVEL TO R-LINE-MARGIN
           MOVE PART TO R-LINE-PART
           MOVE 1 TO SPACES-DUE
           PERFORM SPACE-LINES
           MOVE REGION-LINE TO REPORT-TEXT
           MOVE 2 TO SPACES-AFTER
           PERFORM PRINT-LINE.
       ALL-TOTALS.
           MOVE OF-ALL TO OF-LEVEL
           PERFORM QUOTIENTS
           MOVE SUM-COUNT OF OF-LEVEL TO T-LINE-COUNT
           MOVE SUM-UNITS OF OF-LEVEL TO T-LINE-UNITS
           MOVE SUM-AMOUNT OF OF-LEVEL TO T-LINE-AMOUNT
           MOVE AVERAGE TO T-LINE-AVERAGE
           MOVE SUM-MARGIN OF OF-LEVEL TO T-LINE-MARGIN
           MOVE PART TO T-LINE-PART
           MOVE ALL-LINE TO REPORT-TEXT
           MOVE 1 TO SPACES-AFTER
           PERFORM PRINT-LINE.
           COPY "headings.cpy".
           COPY "printer.cpy".
