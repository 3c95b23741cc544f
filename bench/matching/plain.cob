      *> The orders by customer of source.txt: orders on standard
      *> input, the report on standard output. CUSTOMER is a
      *> sequential file in the folder that it runs in.
       IDENTIFICATION DIVISION.
       PROGRAM-ID. ORDERS.
       ENVIRONMENT DIVISION.
       INPUT-OUTPUT SECTION.
       FILE-CONTROL.
           COPY "select.cpy".
           SELECT CUSTOMERS ASSIGN TO "CUSTOMER"
               ORGANIZATION IS SEQUENTIAL.
       DATA DIVISION.
       FILE SECTION.
       FD  CARDS.
       01  ORDER-CARD.
           05  FILLER               PIC X.
           05  CARD-CUSTOMER        PIC 9(6).
           05  CARD-ORDER           PIC 9(6).
           05  FILLER               PIC X(6).
           05  CARD-DUE             PIC 9(6).
           05  CARD-ITEM            PIC X(8).
           05  FILLER               PIC X(2).
           05  CARD-QUANTITY        PIC 9(5).
           05  FILLER               PIC X(2).
           05  CARD-PRICE           PIC 9(5)V99.
           05  FILLER               PIC X(47).
       FD  CUSTOMERS.
       01  CUSTOMER-RECORD.
           05  CUSTOMER-NUMBER      PIC 9(6).
           05  CUSTOMER-NAME        PIC X(24).
           05  FILLER               PIC X(18).
           05  CUSTOMER-CITY        PIC X(14).
           05  CUSTOMER-REGION      PIC X(2).
           05  FILLER               PIC X(4).
           05  CUSTOMER-BALANCE     PIC S9(7)V99 COMP-3.
           05  CUSTOMER-LIMIT       PIC S9(7)V99 COMP-3.
           05  CUSTOMER-DISCOUNT    PIC S9(2)V9 COMP-3.
           05  FILLER               PIC X(16).
       FD  REPORT-FILE.
           COPY "report.cpy".
       WORKING-STORAGE SECTION.
           COPY "place.cpy".
       01  HEADS.
           05  ORDER-STATE          PIC X VALUE "N".
               88  NO-ORDER         VALUE "Y".
           05  CUSTOMER-STATE       PIC X VALUE "N".
               88  NO-CUSTOMER      VALUE "Y".
           05  ORDER-NUMBER         PIC S9(8) COMP-5.
           05  HEAD-NUMBER          PIC S9(8) COMP-5.
       01  SUMS.
           05  PAGES                PIC S9(8) COMP-5 VALUE 0.
           05  QUANTITY             PIC S9(8) COMP-5.
           05  PRICE                PIC S9(7)V99 COMP-5.
           05  DISCOUNT             PIC S9(2)V9 COMP-5.
           05  AMOUNT               PIC S9(9)V99 COMP-5.
           05  LESS-AMOUNT          PIC S9(9)V99 COMP-5.
           05  NET                  PIC S9(9)V99 COMP-5.
           05  ORDERS               PIC S9(8) COMP-5 VALUE 0.
           05  ALL-LESS             PIC S9(9)V99 COMP-5.
           05  ALL-NET              PIC S9(9)V99 COMP-5.
           05  OWED                 PIC S9(9)V99 COMP-5.
           05  OVER                 PIC S9(9)V99 COMP-5.
           05  BUYERS               PIC S9(8) COMP-5 VALUE 0.
           05  IDLE                 PIC S9(8) COMP-5 VALUE 0.
           05  LOST                 PIC S9(8) COMP-5 VALUE 0.
           05  LOST-AMOUNT          PIC S9(11)V99 COMP-5 VALUE 0.
           05  WHOLE-ORDERS         PIC S9(8) COMP-5 VALUE 0.
           05  WHOLE-LESS           PIC S9(11)V99 COMP-5 VALUE 0.
           05  WHOLE-NET            PIC S9(11)V99 COMP-5 VALUE 0.
       01  FIRST-HEADING.
           05  FILLER               PIC X(32)
               VALUE "ORDERS BY CUSTOMER".
           05  HEAD-DATE            PIC Z9/99/99.
           05  FILLER               PIC X(44) VALUE SPACES.
           05  FILLER               PIC X(5) VALUE "PAGE".
           05  HEAD-PAGE            PIC ZZZZ.
       01  SECOND-HEADING.
           05  FILLER               PIC X(15) VALUE "   ORDER".
           05  FILLER               PIC X(5) VALUE "DUE".
           05  FILLER               PIC X(10) VALUE "ITEM".
           05  FILLER               PIC X(14) VALUE "QUANTITY".
           05  FILLER               PIC X(14) VALUE "PRICE".
           05  FILLER               PIC X(13) VALUE "AMOUNT".
           05  FILLER               PIC X(19) VALUE "DISCOUNT".
           05  FILLER               PIC X(3) VALUE "NET".
       01  CUSTOMER-LINE.
           05  LINE-CUSTOMER        PIC ZZZZZZ.
           05  FILLER               PIC XX VALUE SPACES.
           05  LINE-NAME            PIC X(24).
           05  FILLER               PIC XX VALUE SPACES.
           05  LINE-CITY            PIC X(14).
           05  FILLER               PIC X(9) VALUE "  REGION".
           05  LINE-REGION          PIC X(2).
           05  FILLER               PIC X(11) VALUE "  DISCOUNT".
           05  LINE-DISCOUNT        PIC ZZ.9.
       01  ORDER-LINE.
           05  FILLER               PIC XX VALUE SPACES.
           05  LINE-ORDER           PIC ZZZZZZ.
           05  FILLER               PIC XX VALUE SPACES.
           05  LINE-DUE             PIC Z9/99/99.
           05  FILLER               PIC XX VALUE SPACES.
           05  LINE-ITEM            PIC X(8).
           05  FILLER               PIC X(4) VALUE SPACES.
           05  LINE-QUANTITY        PIC ZZ,ZZ9.
           05  FILLER               PIC XX VALUE SPACES.
           05  LINE-PRICE           PIC ZZ,ZZZ.99.
           05  FILLER               PIC X VALUE SPACE.
           05  LINE-AMOUNT          PIC ZZZ,ZZZ,ZZZ.99.
           05  LINE-PRICED.
               10  FILLER           PIC X VALUE SPACE.
               10  LINE-LESS        PIC ZZZ,ZZZ,ZZZ.99
                                    BLANK WHEN ZERO.
               10  LINE-NET         PIC ZZZ,ZZZ,ZZZ.99.
           05  LINE-LOST REDEFINES LINE-PRICED.
               10  FILLER           PIC X(5).
               10  LINE-LOST-TEXT   PIC X(12).
               10  LINE-LOST-NUMBER PIC ZZZZZZ.
               10  FILLER           PIC X(6).
       01  TOTAL-LINE.
           05  FILLER               PIC XX VALUE SPACES.
           05  TOTAL-ORDERS         PIC ZZZ9.
           05  FILLER               PIC X(21)
               VALUE " ORDERS OWED BEFORE".
           05  TOTAL-BEFORE         PIC Z,ZZZ,ZZZ.99-.
           05  FILLER               PIC X(25) VALUE " ORDERED".
           05  TOTAL-LESS           PIC ZZZ,ZZZ,ZZZ.99
                                    BLANK WHEN ZERO.
           05  TOTAL-NET            PIC ZZZ,ZZZ,ZZZ.99.
       01  OWED-LINE.
           05  FILLER               PIC X(25)
               VALUE "                 OWED NOW".
           05  LINE-OWED            PIC ZZZ,ZZZ,ZZZ.99-.
           05  OWED-OVER.
               10  FILLER           PIC X(20)
                   VALUE " OVER THE LIMIT BY".
               10  LINE-OVER        PIC ZZZ,ZZZ,ZZZ.99.
       01  FIRST-END.
           05  FILLER               PIC X VALUE SPACE.
           05  END-BUYERS           PIC ZZZZ9.
           05  FILLER               PIC X(12) VALUE " CUSTOMERS".
           05  END-ORDERS           PIC ZZZ,ZZ9.
           05  FILLER               PIC X(37) VALUE " ORDERS".
           05  END-LESS             PIC ZZ,ZZZ,ZZZ,ZZZ.99.
           05  FILLER               PIC X VALUE SPACE.
           05  END-NET              PIC ZZ,ZZZ,ZZZ,ZZZ.99.
       01  SECOND-END.
           05  FILLER               PIC X VALUE SPACE.
           05  END-IDLE             PIC ZZZZ9.
           05  FILLER               PIC X(27)
               VALUE " CUSTOMERS WITHOUT ORDERS".
           05  END-LOST             PIC ZZZZ9.
           05  FILLER               PIC X(24)
               VALUE " ORDERS OF NO CUSTOMER".
           05  END-LOST-AMOUNT      PIC ZZ,ZZZ,ZZZ,ZZZ.99.
       PROCEDURE DIVISION.
       MAIN-PART.
           OPEN INPUT CARDS CUSTOMERS OUTPUT REPORT-FILE
           MOVE 061576 TO HEAD-DATE
           MOVE SPACES TO REPORT-LINE
           PERFORM HEADINGS
           PERFORM READ-ORDER
           PERFORM READ-CUSTOMER
           PERFORM ONE-CUSTOMER UNTIL NO-CUSTOMER
           PERFORM LOST-ORDER UNTIL NO-ORDER
           PERFORM END-TOTALS
           CLOSE CARDS CUSTOMERS REPORT-FILE
           STOP RUN.
       READ-ORDER.
           READ CARDS
               AT END
                   SET NO-ORDER TO TRUE
                   MOVE 99999999 TO ORDER-NUMBER
               NOT AT END
                   MOVE CARD-CUSTOMER TO ORDER-NUMBER
           END-READ.
       READ-CUSTOMER.
           READ CUSTOMERS
               AT END
                   SET NO-CUSTOMER TO TRUE
               NOT AT END
                   MOVE CUSTOMER-NUMBER TO HEAD-NUMBER
           END-READ.
       ONE-CUSTOMER.
           PERFORM LOST-ORDER UNTIL ORDER-NUMBER >= HEAD-NUMBER
           IF OVERFLOWS
               PERFORM HEADINGS
           END-IF
           IF ORDER-NUMBER = HEAD-NUMBER
               PERFORM CUSTOMER-BEGINS
               PERFORM CUSTOMER-ORDER
                   UNTIL ORDER-NUMBER NOT = HEAD-NUMBER
               PERFORM CUSTOMER-TOTALS
           ELSE
               ADD 1 TO IDLE
           END-IF
           PERFORM READ-CUSTOMER.
       CUSTOMER-BEGINS.
           MOVE CUSTOMER-NUMBER TO LINE-CUSTOMER
           MOVE CUSTOMER-NAME TO LINE-NAME
           MOVE CUSTOMER-CITY TO LINE-CITY
           MOVE CUSTOMER-REGION TO LINE-REGION
           MOVE CUSTOMER-DISCOUNT TO DISCOUNT
           MOVE DISCOUNT TO LINE-DISCOUNT
           MOVE 1 TO SPACES-DUE
           PERFORM SPACE-LINES
           MOVE CUSTOMER-LINE TO REPORT-TEXT
           MOVE 1 TO SPACES-AFTER
           PERFORM PRINT-LINE
           MOVE 0 TO ORDERS ALL-LESS ALL-NET.
       ONE-ORDER.
           IF OVERFLOWS
               PERFORM HEADINGS
           END-IF
           MOVE CARD-QUANTITY TO QUANTITY
           MOVE CARD-PRICE TO PRICE
           MULTIPLY QUANTITY BY PRICE GIVING AMOUNT
           MOVE CARD-ORDER TO LINE-ORDER
           MOVE CARD-DUE TO LINE-DUE
           MOVE CARD-ITEM TO LINE-ITEM
           MOVE QUANTITY TO LINE-QUANTITY
           MOVE PRICE TO LINE-PRICE
           MOVE AMOUNT TO LINE-AMOUNT.
       CUSTOMER-ORDER.
           PERFORM ONE-ORDER
           COMPUTE LESS-AMOUNT ROUNDED = AMOUNT * DISCOUNT / 100
           SUBTRACT LESS-AMOUNT FROM AMOUNT GIVING NET
           ADD 1 TO ORDERS
           ADD LESS-AMOUNT TO ALL-LESS
           ADD NET TO ALL-NET
           MOVE SPACE TO LINE-PRICED
           MOVE LESS-AMOUNT TO LINE-LESS
           MOVE NET TO LINE-NET
           PERFORM PRINT-ORDER.
       LOST-ORDER.
           PERFORM ONE-ORDER
           ADD 1 TO LOST
           ADD AMOUNT TO LOST-AMOUNT
           MOVE SPACES TO LINE-LOST
           MOVE "NO CUSTOMER" TO LINE-LOST-TEXT
           MOVE CARD-CUSTOMER TO LINE-LOST-NUMBER
           PERFORM PRINT-ORDER.
       PRINT-ORDER.
           MOVE ORDER-LINE TO REPORT-TEXT
           MOVE 1 TO SPACES-AFTER
           PERFORM PRINT-LINE
           PERFORM READ-ORDER.
       CUSTOMER-TOTALS.
           ADD 1 TO BUYERS
           ADD ORDERS TO WHOLE-ORDERS
           ADD ALL-LESS TO WHOLE-LESS
           ADD ALL-NET TO WHOLE-NET
           ADD CUSTOMER-BALANCE ALL-NET GIVING OWED
           SUBTRACT CUSTOMER-LIMIT FROM OWED GIVING OVER
           MOVE 1 TO SPACES-DUE
           PERFORM SPACE-LINES
           MOVE ORDERS TO TOTAL-ORDERS
           MOVE CUSTOMER-BALANCE TO TOTAL-BEFORE
           MOVE ALL-LESS TO TOTAL-LESS
           MOVE ALL-NET TO TOTAL-NET
           MOVE TOTAL-LINE TO REPORT-TEXT
           MOVE 1 TO SPACES-AFTER
           PERFORM PRINT-LINE
           MOVE OWED TO LINE-OWED
           IF OVER > 0
               MOVE OVER TO LINE-OVER
               MOVE OWED-LINE TO REPORT-TEXT
           ELSE
               MOVE OWED-LINE (1:40) TO REPORT-TEXT
           END-IF
           PERFORM PRINT-LINE.
       END-TOTALS.
           MOVE 2 TO SPACES-DUE
           PERFORM SPACE-LINES
           MOVE BUYERS TO END-BUYERS
           MOVE WHOLE-ORDERS TO END-ORDERS
           MOVE WHOLE-LESS TO END-LESS
           MOVE WHOLE-NET TO END-NET
           MOVE FIRST-END TO REPORT-TEXT
           MOVE 1 TO SPACES-AFTER
           PERFORM PRINT-LINE
           MOVE IDLE TO END-IDLE
           MOVE LOST TO END-LOST
           MOVE LOST-AMOUNT TO END-LOST-AMOUNT
           MOVE SECOND-END TO REPORT-TEXT
           PERFORM PRINT-LINE.
           COPY "headings.cpy".
           COPY "printer.cpy".
