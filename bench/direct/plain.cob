      *> The runs of source.txt and the list of machines: cards on
      *> standard input, both reports on standard output. MACHS is
      *> a relative file in the folder that it runs in.
       IDENTIFICATION DIVISION.
       PROGRAM-ID. MACHINE-RUNS.
       ENVIRONMENT DIVISION.
       INPUT-OUTPUT SECTION.
       FILE-CONTROL.
           COPY "select.cpy".
           SELECT MACHINES ASSIGN TO "MACHS"
               ORGANIZATION IS RELATIVE
               ACCESS MODE IS DYNAMIC
               RELATIVE KEY IS MACHINE-NUMBER.
       DATA DIVISION.
       FILE SECTION.
       FD  CARDS.
       01  RUN-CARD.
           05  FILLER               PIC X.
           05  CARD-NUMBER          PIC 9(4).
           05  CARD-HOURS           PIC 9(3)V9.
           05  CARD-PIECES          PIC 9(5).
           05  CARD-SCRAP           PIC 9(4).
           05  FILLER               PIC X(78).
       FD  MACHINES.
           COPY "machine.cpy".
       FD  REPORT-FILE.
           COPY "report.cpy".
       WORKING-STORAGE SECTION.
           COPY "place.cpy".
       01  MACHINE-NUMBER           PIC 9(8) COMP-5.
       01  SWITCHES.
           05  END-STATE            PIC X VALUE "N".
               88  ALL-READ         VALUE "Y".
           05  FOUND-STATE          PIC X.
               88  IS-FOUND         VALUE "Y".
       01  SUMS.
           05  PAGES                PIC S9(8) COMP-5 VALUE 0.
           05  HOURS                PIC S9(6)V9 COMP-5.
           05  PIECES               PIC S9(8) COMP-5.
           05  SCRAP                PIC S9(8) COMP-5.
           05  COST                 PIC S9(9)V99 COMP-5.
           05  RATE                 PIC S9(3)V99 COMP-5.
           05  RATIO                PIC S9(5)V9 COMP-5.
           05  LOST                 PIC S9(8) COMP-5 VALUE 0.
           05  ALL-HOURS            PIC S9(8)V9 COMP-5 VALUE 0.
           05  ALL-PIECES           PIC S9(9) COMP-5 VALUE 0.
           05  ALL-COST             PIC S9(11)V99 COMP-5 VALUE 0.
           05  ALL-RUNS             PIC S9(8) COMP-5 VALUE 0.
           05  MACHINE-COUNT        PIC S9(8) COMP-5 VALUE 0.
       01  HEADING-LINE.
           05  HEAD-TITLE           PIC X(32).
           05  HEAD-DATE            PIC Z9/99/99.
           05  FILLER               PIC X(36) VALUE SPACES.
           05  FILLER               PIC X(5) VALUE "PAGE".
           05  HEAD-PAGE            PIC ZZZZ.
       01  RUN-LINE.
           05  LINE-NUMBER          PIC ZZZZ.
           05  FILLER               PIC XX VALUE SPACES.
           05  LINE-NAME            PIC X(16).
           05  FILLER               PIC X VALUE SPACE.
           05  LINE-HOURS           PIC ZZZ.9.
           05  FILLER               PIC XX VALUE SPACES.
           05  LINE-PIECES          PIC ZZ,ZZ9.
           05  FILLER               PIC X VALUE SPACE.
           05  LINE-SCRAP           PIC Z,ZZ9 BLANK WHEN ZERO.
           05  FILLER               PIC XX VALUE SPACES.
           05  LINE-COST            PIC Z,ZZZ,ZZZ.99.
           05  FILLER               PIC XX VALUE SPACES.
           05  LINE-ALL-PIECES      PIC ZZZ,ZZZ,ZZ9.
           05  FILLER               PIC XX VALUE SPACES.
           05  LINE-ALL-COST        PIC ZZZ,ZZZ,ZZZ.99.
           05  FILLER               PIC X VALUE SPACE.
           05  LINE-MOST            PIC X(4).
           05  FILLER               PIC X VALUE SPACE.
           05  LINE-LEAST           PIC X(5).
       01  LOST-LINE.
           05  LOST-NUMBER          PIC ZZZZ.
           05  FILLER               PIC X(16)
               VALUE " NO SUCH MACHINE".
       01  RUNS-END.
           05  FILLER               PIC X VALUE SPACE.
           05  END-LOST             PIC ZZZZ9.
           05  FILLER               PIC X(18)
               VALUE " NO SUCH MACHINE".
           05  END-HOURS            PIC ZZ,ZZZ,ZZZ.9.
           05  FILLER               PIC X(22) VALUE SPACES.
           05  END-PIECES           PIC ZZZ,ZZZ,ZZ9.
           05  FILLER               PIC XX VALUE SPACES.
           05  END-COST             PIC ZZZ,ZZZ,ZZZ.99.
       01  MACHINE-LINE.
           05  LIST-NUMBER          PIC ZZZZ.
           05  FILLER               PIC XX VALUE SPACES.
           05  LIST-NAME            PIC X(16).
           05  FILLER               PIC X VALUE SPACE.
           05  LIST-RUNS            PIC Z,ZZ9 BLANK WHEN ZERO.
           05  FILLER               PIC X VALUE SPACE.
           05  LIST-HOURS           PIC ZZZ,ZZZ.9.
           05  FILLER               PIC X VALUE SPACE.
           05  LIST-PIECES          PIC Z,ZZZ,ZZ9.
           05  FILLER               PIC X VALUE SPACE.
           05  LIST-SCRAP           PIC ZZ,ZZ9 BLANK WHEN ZERO.
           05  FILLER               PIC XX VALUE SPACES.
           05  LIST-RATIO           PIC ZZZZZ.9.
           05  LIST-NO-RATIO REDEFINES LIST-RATIO PIC X(7).
           05  FILLER               PIC X VALUE SPACE.
           05  LIST-LEAST           PIC ZZ,ZZ9 BLANK WHEN ZERO.
           05  FILLER               PIC X VALUE SPACE.
           05  LIST-MOST            PIC ZZ,ZZ9 BLANK WHEN ZERO.
           05  FILLER               PIC X VALUE SPACE.
           05  LIST-COST            PIC ZZZ,ZZZ,ZZZ.99-.
           05  FILLER               PIC X VALUE SPACE.
           05  LIST-ALL-COST        PIC ZZ,ZZZ,ZZZ,ZZZ.99-.
           05  FILLER               PIC X VALUE SPACE.
           05  LIST-LAST            PIC Z9/99/99.
       01  LIST-END.
           05  FILLER               PIC XX VALUE SPACES.
           05  END-MACHINES         PIC ZZZ9.
           05  FILLER               PIC X(13) VALUE " MACHINES".
           05  END-RUNS             PIC Z,ZZZ,ZZ9.
           05  FILLER               PIC X(67) VALUE SPACES.
           05  END-ALL-COST         PIC ZZ,ZZZ,ZZZ,ZZZ.99-.
       PROCEDURE DIVISION.
       MAIN-PART.
           OPEN INPUT CARDS OUTPUT REPORT-FILE I-O MACHINES
           MOVE 061876 TO HEAD-DATE
           MOVE SPACES TO REPORT-LINE
           MOVE "RUNS OF MACHINES" TO HEAD-TITLE
           PERFORM HEADINGS
           PERFORM READ-CARD
           PERFORM ONE-RUN UNTIL ALL-READ
           PERFORM RUN-TOTALS
           CLOSE MACHINES
           MOVE "MACHINES" TO HEAD-TITLE
           MOVE 0 TO PAGES ALL-COST
           MOVE 1 TO PAGE-NUMBER PLACE
           MOVE "N" TO OVERFLOW-STATE END-STATE
           OPEN INPUT MACHINES
           PERFORM HEADINGS
           PERFORM READ-MACHINE
           PERFORM ONE-MACHINE UNTIL ALL-READ
           PERFORM LIST-TOTALS
           CLOSE CARDS MACHINES REPORT-FILE
           STOP RUN.
       READ-CARD.
           READ CARDS
               AT END SET ALL-READ TO TRUE
           END-READ.
       READ-MACHINE.
           READ MACHINES NEXT RECORD
               AT END SET ALL-READ TO TRUE
           END-READ.
       ONE-RUN.
           IF OVERFLOWS
               PERFORM HEADINGS
           END-IF
           MOVE 1 TO SPACES-AFTER
           MOVE CARD-NUMBER TO MACHINE-NUMBER
           SET IS-FOUND TO TRUE
           READ MACHINES
               INVALID KEY MOVE "N" TO FOUND-STATE
           END-READ
           IF IS-FOUND
               PERFORM RUN-OF-MACHINE
           ELSE
               ADD 1 TO LOST
               MOVE CARD-NUMBER TO LOST-NUMBER
               MOVE LOST-LINE TO REPORT-TEXT
               PERFORM PRINT-LINE
           END-IF
           PERFORM READ-CARD.
       RUN-OF-MACHINE.
           MOVE CARD-HOURS TO HOURS
           MOVE CARD-PIECES TO PIECES
           MOVE CARD-SCRAP TO SCRAP
           MOVE MACHINE-RATE TO RATE
           COMPUTE COST ROUNDED = HOURS * RATE
           ADD HOURS TO MACHINE-HOURS ALL-HOURS
           ADD PIECES TO MACHINE-PIECES ALL-PIECES
           ADD SCRAP TO MACHINE-SCRAP
           ADD COST TO MACHINE-COST ALL-COST
           ADD 1 TO MACHINE-RUNS
           MOVE 061876 TO MACHINE-LAST
           IF PIECES > MACHINE-MOST
               MOVE PIECES TO MACHINE-MOST
               MOVE "MOST" TO LINE-MOST
           ELSE
               MOVE SPACES TO LINE-MOST
           END-IF
           IF PIECES < MACHINE-LEAST
               MOVE PIECES TO MACHINE-LEAST
               MOVE "LEAST" TO LINE-LEAST
           ELSE
               MOVE SPACES TO LINE-LEAST
           END-IF
           REWRITE MACHINE-RECORD
           IF LINE-MOST NOT = SPACES OR LINE-LEAST NOT = SPACES
               PERFORM PRINT-RUN
           END-IF.
       PRINT-RUN.
           MOVE CARD-NUMBER TO LINE-NUMBER
           MOVE MACHINE-NAME TO LINE-NAME
           MOVE HOURS TO LINE-HOURS
           MOVE PIECES TO LINE-PIECES
           MOVE SCRAP TO LINE-SCRAP
           MOVE COST TO LINE-COST
           MOVE ALL-PIECES TO LINE-ALL-PIECES
           MOVE ALL-COST TO LINE-ALL-COST
           MOVE RUN-LINE TO REPORT-TEXT
           PERFORM PRINT-LINE.
       RUN-TOTALS.
           MOVE 1 TO SPACES-DUE
           PERFORM SPACE-LINES
           MOVE LOST TO END-LOST
           MOVE ALL-HOURS TO END-HOURS
           MOVE ALL-PIECES TO END-PIECES
           MOVE ALL-COST TO END-COST
           MOVE RUNS-END TO REPORT-TEXT
           MOVE 1 TO SPACES-AFTER
           PERFORM PRINT-LINE.
       ONE-MACHINE.
           IF OVERFLOWS
               PERFORM HEADINGS
           END-IF
           ADD 1 TO MACHINE-COUNT
           MOVE MACHINE-HOURS TO HOURS
           MOVE MACHINE-PIECES TO PIECES
           MOVE MACHINE-COST TO COST
           ADD COST TO ALL-COST
           ADD MACHINE-RUNS TO ALL-RUNS
           IF HOURS > 0
               DIVIDE PIECES BY HOURS GIVING RATIO ROUNDED
               MOVE RATIO TO LIST-RATIO
           ELSE
               MOVE SPACES TO LIST-NO-RATIO
           END-IF
           MOVE MACHINE-COUNT TO LIST-NUMBER
           MOVE MACHINE-NAME TO LIST-NAME
           MOVE MACHINE-RUNS TO LIST-RUNS
           MOVE HOURS TO LIST-HOURS
           MOVE PIECES TO LIST-PIECES
           MOVE MACHINE-SCRAP TO LIST-SCRAP
           MOVE MACHINE-LEAST TO LIST-LEAST
           MOVE MACHINE-MOST TO LIST-MOST
           MOVE COST TO LIST-COST
           MOVE ALL-COST TO LIST-ALL-COST
           MOVE MACHINE-LAST TO LIST-LAST
           MOVE MACHINE-LINE TO REPORT-TEXT
           MOVE 1 TO SPACES-AFTER
           PERFORM PRINT-LINE
           PERFORM READ-MACHINE.
       LIST-TOTALS.
           MOVE 1 TO SPACES-DUE
           PERFORM SPACE-LINES
           MOVE MACHINE-COUNT TO END-MACHINES
           MOVE ALL-RUNS TO END-RUNS
           MOVE ALL-COST TO END-ALL-COST
           MOVE LIST-END TO REPORT-TEXT
           MOVE 1 TO SPACES-AFTER
           PERFORM PRINT-LINE.
       HEADINGS.
           IF PLACE > 1
               PERFORM NEXT-PAGE
               MOVE 1 TO PLACE
           END-IF
           ADD 1 TO PAGES
           MOVE PAGES TO HEAD-PAGE
           MOVE HEADING-LINE TO REPORT-TEXT
           MOVE 2 TO SPACES-AFTER
           PERFORM PRINT-LINE
           MOVE "N" TO OVERFLOW-STATE.
           COPY "printer.cpy".
