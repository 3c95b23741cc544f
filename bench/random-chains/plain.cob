      *> The transfers of source.txt: cards on standard input, the
      *> report on standard output. ACCTS is a file by key in the
      *> folder that it runs in.
       IDENTIFICATION DIVISION.
       PROGRAM-ID. TRANSFERS.
       ENVIRONMENT DIVISION.
       INPUT-OUTPUT SECTION.
       FILE-CONTROL.
           COPY "select.cpy".
           SELECT ACCOUNTS ASSIGN TO "ACCTS"
               ORGANIZATION IS INDEXED
               ACCESS MODE IS RANDOM
               RECORD KEY IS ACCOUNT-KEY.
       DATA DIVISION.
       FILE SECTION.
       FD  CARDS.
       01  TRANSFER-CARD.
           05  FILLER               PIC X.
           05  CARD-FROM            PIC X(12).
           05  CARD-TO              PIC X(12).
           05  CARD-AMOUNT          PIC 9(5)V99.
           05  FILLER               PIC X(64).
       FD  ACCOUNTS.
           COPY "account.cpy".
       FD  REPORT-FILE.
           COPY "report.cpy".
       WORKING-STORAGE SECTION.
           COPY "place.cpy".
       01  SWITCHES.
           05  END-STATE            PIC X VALUE "N".
               88  ALL-READ         VALUE "Y".
           05  FOUND-STATE          PIC X.
               88  IS-FOUND         VALUE "Y".
       01  SUMS.
           05  PAGES                PIC S9(8) COMP-5 VALUE 0.
           05  AMOUNT               PIC S9(7)V99 COMP-5.
           05  BALANCE              PIC S9(9)V99 COMP-5.
           05  TRANSFERS-DONE       PIC S9(8) COMP-5 VALUE 0.
           05  ALL-AMOUNT           PIC S9(11)V99 COMP-5 VALUE 0.
           05  LOST-AMOUNT          PIC S9(11)V99 COMP-5 VALUE 0.
       01  HEADING-LINE.
           05  FILLER               PIC X(22) VALUE "TRANSFERS".
           05  HEAD-DATE            PIC Z9/99/99.
           05  FILLER               PIC X(26) VALUE SPACES.
           05  FILLER               PIC X(5) VALUE "PAGE".
           05  HEAD-PAGE            PIC ZZZZ.
       01  LOST-LINE.
           05  LOST-KEY             PIC X(12).
           05  FILLER               PIC X(38)
               VALUE "  NO SUCH ACCOUNT".
           05  LINE-LOST            PIC ZZ,ZZZ.99-.
           05  LINE-NOT-LOST REDEFINES LINE-LOST PIC X(10).
       01  OVERDRAWN-LINE.
           05  LINE-KEY             PIC X(12).
           05  FILLER               PIC XX VALUE SPACES.
           05  LINE-NAME            PIC X(16).
           05  FILLER               PIC X(15) VALUE "  OVERDRAWN".
           05  LINE-BALANCE         PIC ZZZ,ZZZ,ZZZ.99-.
       01  END-LINE.
           05  FILLER               PIC X VALUE SPACE.
           05  END-TRANSFERS        PIC ZZZZ9.
           05  FILLER               PIC X(17) VALUE " TRANSFERS".
           05  END-AMOUNT           PIC ZZ,ZZZ,ZZZ,ZZZ.99.
           05  FILLER               PIC X(15) VALUE "   NOT TAKEN".
           05  END-LOST             PIC ZZ,ZZZ,ZZZ,ZZZ.99.
       PROCEDURE DIVISION.
       MAIN-PART.
           OPEN INPUT CARDS OUTPUT REPORT-FILE I-O ACCOUNTS
           MOVE 061876 TO HEAD-DATE
           MOVE SPACES TO REPORT-LINE
           PERFORM HEADINGS
           PERFORM READ-CARD
           PERFORM ONE-CARD UNTIL ALL-READ
           PERFORM END-TOTALS
           CLOSE CARDS ACCOUNTS REPORT-FILE
           STOP RUN.
       READ-CARD.
           READ CARDS
               AT END SET ALL-READ TO TRUE
           END-READ.
       FIND-ACCOUNT.
           SET IS-FOUND TO TRUE
           READ ACCOUNTS
               INVALID KEY MOVE "N" TO FOUND-STATE
           END-READ.
       CHANGE-ACCOUNT.
           MOVE BALANCE TO ACCOUNT-BALANCE
           ADD 1 TO ACCOUNT-MOVES
           MOVE 061876 TO ACCOUNT-MOVED
           REWRITE ACCOUNT-RECORD.
       ONE-CARD.
           IF OVERFLOWS
               PERFORM HEADINGS
           END-IF
           MOVE 1 TO SPACES-AFTER
           MOVE CARD-FROM TO ACCOUNT-KEY
           PERFORM FIND-ACCOUNT
           IF IS-FOUND
               PERFORM ONE-TRANSFER
           ELSE
               MOVE CARD-FROM TO LOST-KEY
               MOVE SPACES TO LINE-NOT-LOST
               MOVE LOST-LINE TO REPORT-TEXT
               PERFORM PRINT-LINE
           END-IF
           PERFORM READ-CARD.
       ONE-TRANSFER.
           MOVE CARD-AMOUNT TO AMOUNT
           MOVE ACCOUNT-BALANCE TO BALANCE
           SUBTRACT AMOUNT FROM BALANCE
           PERFORM CHANGE-ACCOUNT
           IF BALANCE < 0
               MOVE CARD-FROM TO LINE-KEY
               MOVE ACCOUNT-NAME TO LINE-NAME
               MOVE BALANCE TO LINE-BALANCE
               MOVE OVERDRAWN-LINE TO REPORT-TEXT
               PERFORM PRINT-LINE
           END-IF
           MOVE CARD-TO TO ACCOUNT-KEY
           PERFORM FIND-ACCOUNT
           IF IS-FOUND
               MOVE ACCOUNT-BALANCE TO BALANCE
               ADD AMOUNT TO BALANCE
               PERFORM CHANGE-ACCOUNT
               ADD AMOUNT TO ALL-AMOUNT
               ADD 1 TO TRANSFERS-DONE
           ELSE
               ADD AMOUNT TO LOST-AMOUNT
               MOVE CARD-TO TO LOST-KEY
               MOVE AMOUNT TO LINE-LOST
               MOVE LOST-LINE TO REPORT-TEXT
               PERFORM PRINT-LINE
           END-IF.
       END-TOTALS.
           MOVE 1 TO SPACES-DUE
           PERFORM SPACE-LINES
           MOVE TRANSFERS-DONE TO END-TRANSFERS
           MOVE ALL-AMOUNT TO END-AMOUNT
           MOVE LOST-AMOUNT TO END-LOST
           MOVE END-LINE TO REPORT-TEXT
           MOVE 1 TO SPACES-AFTER
           PERFORM PRINT-LINE.
       HEADINGS.
           IF PLACE > 1
               PERFORM NEXT-PAGE
               MOVE 1 TO PLACE
           END-IF
           ADD 1 TO PAGES
           MOVE PAGES TO HEAD-PAGE
           MOVE HEADING-LINE TO REPORT-TEXT
           MOVE 2 TO SPACES-AFTER
           PERFORM PRINT-LINE
           MOVE "N" TO OVERFLOW-STATE.
           COPY "printer.cpy".
