      *> The short jobs of source.txt in one run: the job stream on
      *> standard input, the report on standard output. A job calls
      *> the program of its name. DAY is a relative file in the
      *> folder that this runs in.
       IDENTIFICATION DIVISION.
       PROGRAM-ID. JOBS.
       ENVIRONMENT DIVISION.
       INPUT-OUTPUT SECTION.
       FILE-CONTROL.
           COPY "select.cpy".
       DATA DIVISION.
       FILE SECTION.
       FD  CARDS IS GLOBAL.
       01  JOB-CARD.
           05  CARD-KIND            PIC X.
           05  CARD-ORDER.
               10  CARD-TEXTS       PIC X(24).
               10  CARD-QUANTITY    PIC 9(5).
               10  CARD-PRICE       PIC 9(5)V99.
           05  CARD-PICK REDEFINES CARD-ORDER.
               10  CARD-NUMBER      PIC 99.
               10  CARD-DELIVERED   PIC 9(5).
               10  FILLER           PIC X(29).
           05  FILLER               PIC X(59).
       01  STATEMENT.
           05  FILLER               PIC X(3).
           05  STATEMENT-KIND       PIC X(5).
           05  STATEMENT-TEXT       PIC X(6).
           05  FILLER               PIC X(82).
       FD  REPORT-FILE IS GLOBAL.
           COPY "report.cpy".
       WORKING-STORAGE SECTION.
       01  END-STATE                PIC X VALUE "N".
           88  ALL-READ             VALUE "Y".
       01  PROGRAM-NAME             PIC X(6).
       01  JOB-DATE                 PIC 9(6) IS GLOBAL.
       PROCEDURE DIVISION.
       MAIN-PART.
           OPEN INPUT CARDS OUTPUT REPORT-FILE
           MOVE SPACES TO REPORT-LINE
           PERFORM READ-CARD
           PERFORM ONE-CARD UNTIL ALL-READ
           CLOSE CARDS REPORT-FILE
           STOP RUN.
       READ-CARD.
           READ CARDS
               AT END SET ALL-READ TO TRUE
           END-READ.
       ONE-CARD.
           EVALUATE STATEMENT-KIND
               WHEN "LOAD"
                   MOVE STATEMENT-TEXT TO PROGRAM-NAME
               WHEN "DATE"
                   MOVE STATEMENT-TEXT TO JOB-DATE
               WHEN "RUN"
                   EVALUATE PROGRAM-NAME
                       WHEN "TAKEIN"
                           CALL "TAKEIN"
                       WHEN "PICKED"
                           CALL "PICKED"
                       WHEN OTHER
                           CALL "SHOWN"
                   END-EVALUATE
           END-EVALUATE
           PERFORM READ-CARD.

       IDENTIFICATION DIVISION.
       PROGRAM-ID. TAKEIN.
       ENVIRONMENT DIVISION.
       INPUT-OUTPUT SECTION.
       FILE-CONTROL.
           SELECT DAY-FILE ASSIGN TO "DAY"
               ORGANIZATION IS RELATIVE
               ACCESS MODE IS SEQUENTIAL.
       DATA DIVISION.
       FILE SECTION.
       FD  DAY-FILE.
           COPY "day.cpy".
       WORKING-STORAGE SECTION.
           COPY "place.cpy".
       01  SUMS.
           05  ORDERS               PIC S9(8) COMP-5.
           05  QUANTITY             PIC S9(8) COMP-5.
           05  PRICE                PIC S9(7)V99 COMP-5.
           05  AMOUNT               PIC S9(9)V99 COMP-5.
           05  ALL-AMOUNT           PIC S9(11)V99 COMP-5.
       01  TAKEN-LINE.
           05  FILLER               PIC X(10) VALUE "TAKEN IN".
           05  LINE-DATE            PIC Z9/99/99.
           05  FILLER               PIC XX VALUE SPACES.
           05  LINE-ORDERS          PIC ZZ9.
           05  FILLER               PIC X(20) VALUE " ORDERS".
           05  LINE-AMOUNT          PIC ZZ,ZZZ,ZZZ,ZZZ.99.
       PROCEDURE DIVISION.
       MAIN-PART.
           MOVE 1 TO PAGE-NUMBER PLACE
           MOVE 0 TO ORDERS ALL-AMOUNT
           OPEN OUTPUT DAY-FILE
           PERFORM READ-CARD
           PERFORM ONE-ORDER UNTIL CARD-KIND NOT = "O"
           MOVE JOB-DATE TO LINE-DATE
           MOVE ORDERS TO LINE-ORDERS
           MOVE ALL-AMOUNT TO LINE-AMOUNT
           MOVE TAKEN-LINE TO REPORT-TEXT
           MOVE 1 TO SPACES-AFTER
           PERFORM PRINT-LINE
           CLOSE DAY-FILE
           GOBACK.
       READ-CARD.
           READ CARDS
               AT END MOVE "/" TO CARD-KIND
           END-READ.
       ONE-ORDER.
           MOVE SPACES TO DAY-RECORD
           MOVE CARD-TEXTS TO DAY-TEXTS
           MOVE CARD-QUANTITY TO QUANTITY
           MOVE CARD-PRICE TO PRICE
           MULTIPLY QUANTITY BY PRICE GIVING AMOUNT
           ADD AMOUNT TO ALL-AMOUNT
           ADD 1 TO ORDERS
           MOVE QUANTITY TO DAY-QUANTITY
           MOVE PRICE TO DAY-PRICE
           MOVE AMOUNT TO DAY-AMOUNT
           MOVE JOB-DATE TO DAY-TAKEN
           WRITE DAY-RECORD
           PERFORM READ-CARD.
           COPY "printer.cpy".
       END PROGRAM TAKEIN.

       IDENTIFICATION DIVISION.
       PROGRAM-ID. PICKED.
       ENVIRONMENT DIVISION.
       INPUT-OUTPUT SECTION.
       FILE-CONTROL.
           SELECT DAY-FILE ASSIGN TO "DAY"
               ORGANIZATION IS RELATIVE
               ACCESS MODE IS RANDOM
               RELATIVE KEY IS RECORD-NUMBER.
       DATA DIVISION.
       FILE SECTION.
       FD  DAY-FILE.
           COPY "day.cpy".
       WORKING-STORAGE SECTION.
           COPY "place.cpy".
       01  RECORD-NUMBER            PIC 9(4) COMP-5.
       01  FOUND-STATE              PIC X.
           88  IS-FOUND             VALUE "Y".
       01  SUMS.
           05  DELIVERED            PIC S9(8) COMP-5.
           05  QUANTITY             PIC S9(8) COMP-5.
           05  PRICE                PIC S9(7)V99 COMP-5.
           05  AMOUNT               PIC S9(9)V99 COMP-5.
           05  ALL-AMOUNT           PIC S9(11)V99 COMP-5.
       01  SHORT-LINE.
           05  FILLER               PIC X(7) VALUE "SHORT".
           05  LINE-ORDER           PIC X(6).
           05  FILLER               PIC X VALUE SPACE.
           05  LINE-ITEM            PIC X(12).
           05  FILLER               PIC X VALUE SPACE.
           05  LINE-DELIVERED       PIC ZZ,ZZ9.
           05  FILLER               PIC X(5) VALUE "  OF".
           05  LINE-QUANTITY        PIC ZZ,ZZ9.
       01  LOST-LINE.
           05  FILLER               PIC X(11) VALUE "NO RECORD".
           05  LINE-NUMBER          PIC Z9.
       01  PICKED-LINE.
           05  FILLER               PIC X(10) VALUE "PICKED".
           05  LINE-DATE            PIC Z9/99/99.
           05  FILLER               PIC X(25) VALUE SPACES.
           05  LINE-AMOUNT          PIC ZZ,ZZZ,ZZZ,ZZZ.99.
       PROCEDURE DIVISION.
       MAIN-PART.
           MOVE 1 TO PAGE-NUMBER PLACE
           MOVE 0 TO ALL-AMOUNT
           MOVE 1 TO SPACES-AFTER
           OPEN I-O DAY-FILE
           PERFORM READ-CARD
           PERFORM ONE-PICK UNTIL CARD-KIND NOT = "P"
           MOVE JOB-DATE TO LINE-DATE
           MOVE ALL-AMOUNT TO LINE-AMOUNT
           MOVE PICKED-LINE TO REPORT-TEXT
           PERFORM PRINT-LINE
           CLOSE DAY-FILE
           GOBACK.
       READ-CARD.
           READ CARDS
               AT END MOVE "/" TO CARD-KIND
           END-READ.
       ONE-PICK.
           MOVE CARD-NUMBER TO RECORD-NUMBER
           SET IS-FOUND TO TRUE
           READ DAY-FILE
               INVALID KEY MOVE "N" TO FOUND-STATE
           END-READ
           IF IS-FOUND
               PERFORM PICK-RECORD
           ELSE
               MOVE CARD-NUMBER TO LINE-NUMBER
               MOVE LOST-LINE TO REPORT-TEXT
               PERFORM PRINT-LINE
           END-IF
           PERFORM READ-CARD.
       PICK-RECORD.
           MOVE CARD-DELIVERED TO DELIVERED
           MOVE DAY-QUANTITY TO QUANTITY
           MOVE DAY-PRICE TO PRICE
           MULTIPLY DELIVERED BY PRICE GIVING AMOUNT
           ADD AMOUNT TO ALL-AMOUNT
           MOVE DELIVERED TO DAY-QUANTITY
           MOVE AMOUNT TO DAY-AMOUNT
           IF DELIVERED < QUANTITY
               MOVE "S" TO DAY-STATUS
               MOVE DAY-ORDER TO LINE-ORDER
               MOVE DAY-ITEM TO LINE-ITEM
               MOVE DELIVERED TO LINE-DELIVERED
               MOVE QUANTITY TO LINE-QUANTITY
               MOVE SHORT-LINE TO REPORT-TEXT
               PERFORM PRINT-LINE
           ELSE
               MOVE "D" TO DAY-STATUS
           END-IF
           REWRITE DAY-RECORD.
           COPY "printer.cpy".
       END PROGRAM PICKED.

       IDENTIFICATION DIVISION.
       PROGRAM-ID. SHOWN.
       ENVIRONMENT DIVISION.
       INPUT-OUTPUT SECTION.
       FILE-CONTROL.
           SELECT DAY-FILE ASSIGN TO "DAY"
               ORGANIZATION IS RELATIVE
               ACCESS MODE IS SEQUENTIAL.
       DATA DIVISION.
       FILE SECTION.
       FD  DAY-FILE.
           COPY "day.cpy".
       WORKING-STORAGE SECTION.
           COPY "place.cpy".
       01  DAY-STATE                PIC X.
           88  DAY-ENDS             VALUE "Y".
       01  SUMS.
           05  SHORTS               PIC S9(8) COMP-5.
           05  AMOUNT               PIC S9(9)V99 COMP-5.
           05  ALL-AMOUNT           PIC S9(11)V99 COMP-5.
       01  ORDER-LINE.
           05  LINE-ORDER           PIC X(6).
           05  FILLER               PIC XX VALUE SPACES.
           05  LINE-CUSTOMER        PIC X(6).
           05  FILLER               PIC XX VALUE SPACES.
           05  LINE-ITEM            PIC X(12).
           05  FILLER               PIC X VALUE SPACE.
           05  LINE-QUANTITY        PIC ZZ,ZZ9.
           05  FILLER               PIC XX VALUE SPACES.
           05  LINE-PRICE           PIC ZZ,ZZZ.99.
           05  FILLER               PIC XX VALUE SPACES.
           05  LINE-AMOUNT          PIC ZZZ,ZZZ,ZZZ.99.
           05  FILLER               PIC X VALUE SPACE.
           05  LINE-STATUS          PIC X.
           05  FILLER               PIC X VALUE SPACE.
           05  LINE-TAKEN           PIC Z9/99/99.
       01  SHOWN-LINE.
           05  FILLER               PIC X(6) VALUE "SHORT".
           05  LINE-SHORTS          PIC ZZ9.
           05  FILLER               PIC X(36) VALUE SPACES.
           05  LINE-ALL             PIC ZZ,ZZZ,ZZZ,ZZZ.99.
       PROCEDURE DIVISION.
       MAIN-PART.
           MOVE 1 TO PAGE-NUMBER PLACE
           MOVE 0 TO SHORTS ALL-AMOUNT
           MOVE 1 TO SPACES-AFTER
           MOVE "N" TO DAY-STATE
           OPEN INPUT DAY-FILE
           PERFORM READ-DAY
           PERFORM ONE-RECORD UNTIL DAY-ENDS
           MOVE SHORTS TO LINE-SHORTS
           MOVE ALL-AMOUNT TO LINE-ALL
           MOVE SHOWN-LINE TO REPORT-TEXT
           PERFORM PRINT-LINE
           CLOSE DAY-FILE
           GOBACK.
       READ-DAY.
           READ DAY-FILE NEXT RECORD
               AT END SET DAY-ENDS TO TRUE
           END-READ.
       ONE-RECORD.
           MOVE DAY-AMOUNT TO AMOUNT
           ADD AMOUNT TO ALL-AMOUNT
           IF DAY-STATUS = "S"
               ADD 1 TO SHORTS
           END-IF
           MOVE DAY-ORDER TO LINE-ORDER
           MOVE DAY-CUSTOMER TO LINE-CUSTOMER
           MOVE DAY-ITEM TO LINE-ITEM
           MOVE DAY-QUANTITY TO LINE-QUANTITY
           MOVE DAY-PRICE TO LINE-PRICE
           MOVE AMOUNT TO LINE-AMOUNT
           MOVE DAY-STATUS TO LINE-STATUS
           MOVE DAY-TAKEN TO LINE-TAKEN
           MOVE ORDER-LINE TO REPORT-TEXT
           PERFORM PRINT-LINE
           PERFORM READ-DAY.
           COPY "printer.cpy".
       END PROGRAM SHOWN.
       END PROGRAM JOBS.
