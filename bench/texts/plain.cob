      *> The list of source.txt: cards on standard input, the report
      *> on standard output.
       IDENTIFICATION DIVISION.
       PROGRAM-ID. TEXTS.
       ENVIRONMENT DIVISION.
       INPUT-OUTPUT SECTION.
       FILE-CONTROL.
           COPY "select.cpy".
       DATA DIVISION.
       FILE SECTION.
       FD  CARDS.
       01  MEMBER-CARD.
           05  CARD-KIND            PIC X.
               88  IS-FIRM          VALUE "B".
           05  CARD-NAME            PIC X(20).
           05  CARD-FIRST           PIC X(12).
           05  CARD-SEX             PIC X.
           05  CARD-MARRIED         PIC X.
           05  CARD-STREET          PIC X(20).
           05  CARD-TOWN            PIC X(14).
           05  CARD-STATE           PIC X(2).
           05  CARD-ZIP.
               10  FILLER           PIC X(2).
               10  CARD-ZIP-END     PIC X(3).
           05  CARD-CLASS           PIC X.
           05  CARD-CODE            PIC X OCCURS 3.
           05  FILLER               PIC X(16).
       FD  REPORT-FILE.
           COPY "report.cpy".
       WORKING-STORAGE SECTION.
           COPY "place.cpy".
       01  SWITCHES.
           05  END-STATE            PIC X VALUE "N".
               88  ALL-READ         VALUE "Y".
           05  ORDER-STATE          PIC X.
               88  IS-IN-ORDER      VALUE "Y".
           05  SEEN-STATE           PIC X.
               88  IS-SEEN          VALUE "Y".
           05  LOOK-STATE           PIC X.
               88  IS-TO-LOOK-AT    VALUE "Y".
           05  NUMBER-STATE         PIC X.
               88  HAS-NO-NUMBER    VALUE "N".
       01  TEXTS.
           05  MEMBER-NAME          PIC X(20).
           05  NAME-BEFORE          PIC X(20) VALUE SPACES.
           05  TOWN-BEFORE          PIC X(14) VALUE SPACES.
           05  HOUSE                PIC X(4) JUSTIFIED RIGHT.
           05  REMARK               PIC X(7) VALUE SPACES.
           05  MEMBER-KEY.
               10  KEY-TOWN         PIC X(3).
               10  KEY-NAME         PIC X(4).
               10  KEY-ZIP          PIC X(3).
           05  GREATEST             PIC X(10) VALUE SPACES.
       01  COUNTS.
           05  PAGES                PIC S9(8) COMP-5 VALUE 0.
           05  EAST                 PIC S9(8) COMP-5 VALUE 0.
           05  TO-LOOK-AT           PIC S9(8) COMP-5 VALUE 0.
           05  N                    PIC S9(8) COMP-5.
       01  FIRST-HEADING.
           05  FILLER               PIC X(52)
               VALUE "MEMBERS AND FIRMS".
           05  HEAD-DATE            PIC Z9/99/99.
           05  FILLER               PIC X(24) VALUE SPACES.
           05  FILLER               PIC X(5) VALUE "PAGE".
           05  HEAD-PAGE            PIC ZZZZ.
       01  SECOND-HEADING.
           05  FILLER               PIC X(18) VALUE SPACES.
           05  FILLER               PIC X(26) VALUE "NAME".
           05  FILLER               PIC X(21) VALUE "STREET".
           05  FILLER               PIC X(24) VALUE "TOWN".
           05  FILLER               PIC X(9) VALUE "MEMBER".
           05  FILLER               PIC X(24) VALUE "INTERESTS".
           05  FILLER               PIC X(4) VALUE "ZONE".
       01  MEMBER-LINE.
           05  LINE-TITLE           PIC X(4).
           05  FILLER               PIC X VALUE SPACE.
           05  LINE-FIRST           PIC X(12).
           05  FILLER               PIC X VALUE SPACE.
           05  LINE-NAME            PIC X(20).
           05  FILLER               PIC X VALUE SPACE.
           05  LINE-HOUSE           PIC X(4).
           05  FILLER               PIC X VALUE SPACE.
           05  LINE-STREET          PIC X(20).
           05  FILLER               PIC X VALUE SPACE.
           05  LINE-TOWN            PIC X(14).
           05  FILLER               PIC X VALUE SPACE.
           05  LINE-STATE           PIC X(2).
           05  FILLER               PIC X VALUE SPACE.
           05  LINE-ZIP             PIC X(5).
           05  FILLER               PIC X VALUE SPACE.
           05  LINE-MEMBER          PIC X(8).
           05  LINE-INTERESTS OCCURS 3.
               10  FILLER           PIC X.
               10  LINE-INTEREST    PIC X(7).
           05  FILLER               PIC X VALUE SPACE.
           05  LINE-ZONE            PIC X(6).
           05  FILLER               PIC X VALUE SPACE.
           05  LINE-ORDER           PIC X.
       01  LOOK-LINE.
           05  FILLER               PIC X(38) VALUE SPACES.
           05  LINE-KEY             PIC X(10).
           05  FILLER               PIC X VALUE SPACE.
           05  LINE-REMARK          PIC X(7).
           05  FILLER               PIC X(6) VALUE SPACES.
           05  LINE-GREATEST        PIC X(10).
       01  END-LINE.
           05  FILLER               PIC X VALUE SPACE.
           05  END-EAST             PIC ZZZZ9.
           05  FILLER               PIC X(14) VALUE " IN THE EAST,".
           05  END-TO-LOOK-AT       PIC ZZZZ9.
           05  FILLER               PIC X(13) VALUE " TO LOOK AT".
           05  FILLER               PIC X(13) VALUE "GREATEST KEY".
           05  END-GREATEST         PIC X(10).
       PROCEDURE DIVISION.
       MAIN-PART.
           OPEN INPUT CARDS OUTPUT REPORT-FILE
           MOVE 061876 TO HEAD-DATE
           MOVE SPACES TO REPORT-LINE
           INITIALIZE MEMBER-LINE
           PERFORM HEADINGS
           PERFORM READ-CARD
           PERFORM ONE-CARD UNTIL ALL-READ
           PERFORM END-TOTALS
           CLOSE CARDS REPORT-FILE
           STOP RUN.
       READ-CARD.
           READ CARDS
               AT END SET ALL-READ TO TRUE
           END-READ.
       ONE-CARD.
           IF OVERFLOWS
               PERFORM HEADINGS
           END-IF
           PERFORM MOVE-NAME
           PERFORM SPLIT-STREET
           PERFORM ZONES
           PERFORM TITLES
           PERFORM IN-ORDER
           PERFORM MEMBERSHIPS
           PERFORM INTERESTS VARYING N FROM 1 BY 1 UNTIL N > 3
           PERFORM KEYS
           PERFORM REMARKS
           PERFORM PRINT-MEMBER
           MOVE CARD-TOWN TO TOWN-BEFORE
           MOVE MEMBER-NAME TO NAME-BEFORE
           PERFORM READ-CARD.
       MOVE-NAME.
           IF CARD-NAME = SPACES
               MOVE SPACES TO MEMBER-NAME
           ELSE
               PERFORM VARYING N FROM 1 BY 1
                   UNTIL CARD-NAME (N:1) NOT = SPACE
                   CONTINUE
               END-PERFORM
               MOVE CARD-NAME (N:) TO MEMBER-NAME
           END-IF.
       SPLIT-STREET.
           MOVE SPACES TO HOUSE
           IF CARD-STREET (1:1) < "0"
               OR CARD-STREET (1:1) > "9"
               MOVE "N" TO NUMBER-STATE
               MOVE CARD-STREET TO LINE-STREET
           ELSE
               MOVE "Y" TO NUMBER-STATE
               PERFORM VARYING N FROM 1 BY 1
                   UNTIL CARD-STREET (N:1) = SPACE
                   CONTINUE
               END-PERFORM
               MOVE CARD-STREET (1:N - 1) TO HOUSE
               MOVE CARD-STREET (N + 1:) TO LINE-STREET
           END-IF
           MOVE HOUSE TO LINE-HOUSE.
       ZONES.
           EVALUATE CARD-STATE
               WHEN "NY"
                   ADD 1 TO EAST
                   MOVE "EAST" TO LINE-ZONE
               WHEN "NJ"
                   MOVE "EAST" TO LINE-ZONE
               WHEN "OH"
                   MOVE "MIDDLE" TO LINE-ZONE
               WHEN "PA"
                   IF CARD-ZIP > "18500"
                       MOVE "MIDDLE" TO LINE-ZONE
                   ELSE
                       MOVE "WEST" TO LINE-ZONE
                   END-IF
               WHEN OTHER
                   MOVE "WEST" TO LINE-ZONE
           END-EVALUATE.
       TITLES.
           EVALUATE TRUE
               WHEN IS-FIRM
                   MOVE "FIRM" TO LINE-TITLE
               WHEN CARD-SEX = "M"
                   MOVE "MR." TO LINE-TITLE
               WHEN CARD-SEX = "D"
                   MOVE "DR." TO LINE-TITLE
               WHEN CARD-MARRIED = "S"
                   MOVE "MISS" TO LINE-TITLE
               WHEN OTHER
                   MOVE "MRS." TO LINE-TITLE
           END-EVALUATE.
       IN-ORDER.
           MOVE "N" TO ORDER-STATE
           IF IS-FIRM
               IF MEMBER-NAME > NAME-BEFORE
                   AND MEMBER-NAME NOT = SPACES
                   SET IS-IN-ORDER TO TRUE
               END-IF
           ELSE
               IF MEMBER-NAME >= NAME-BEFORE
                   AND CARD-FIRST NOT = MEMBER-NAME
                   SET IS-IN-ORDER TO TRUE
               END-IF
           END-IF.
       MEMBERSHIPS.
           EVALUATE CARD-CLASS
               WHEN "A"
                   MOVE "LIFE" TO LINE-MEMBER
               WHEN "B"
                   MOVE "PATRON" TO LINE-MEMBER
               WHEN "C"
                   MOVE "FULL" TO LINE-MEMBER
               WHEN OTHER
                   MOVE "JUNIOR" TO LINE-MEMBER
           END-EVALUATE.
       INTERESTS.
           EVALUATE CARD-CODE (N)
               WHEN "A"
                   MOVE "ART" TO LINE-INTEREST (N)
               WHEN "B"
                   MOVE "BOOKS" TO LINE-INTEREST (N)
               WHEN "M"
                   MOVE "MUSIC" TO LINE-INTEREST (N)
               WHEN "S"
                   MOVE "SPORT" TO LINE-INTEREST (N)
               WHEN "T"
                   MOVE "TRAVEL" TO LINE-INTEREST (N)
               WHEN OTHER
                   MOVE SPACES TO LINE-INTEREST (N)
           END-EVALUATE.
       KEYS.
           MOVE CARD-TOWN TO KEY-TOWN
           MOVE MEMBER-NAME TO KEY-NAME
           MOVE CARD-ZIP-END TO KEY-ZIP
           IF MEMBER-KEY > GREATEST
               MOVE MEMBER-KEY TO GREATEST
           END-IF.
       REMARKS.
           MOVE "N" TO SEEN-STATE LOOK-STATE
           IF (CARD-CLASS = "C" AND CARD-TOWN = TOWN-BEFORE)
               OR (CARD-CLASS > "C" AND CARD-SEX = "F"
                   AND NOT IS-IN-ORDER)
               SET IS-SEEN TO TRUE
           END-IF
           EVALUATE TRUE
               WHEN MEMBER-NAME = SPACES
                   MOVE "NO NAME" TO REMARK
               WHEN IS-SEEN
                   MOVE "SEE" TO REMARK
               WHEN HAS-NO-NUMBER
                   MOVE "STREET" TO REMARK
           END-EVALUATE
           IF (HAS-NO-NUMBER AND CARD-TOWN <= TOWN-BEFORE)
               OR MEMBER-NAME = SPACES
               OR (IS-SEEN AND CARD-FIRST >= "JOHN")
               SET IS-TO-LOOK-AT TO TRUE
           END-IF.
       PRINT-MEMBER.
           MOVE CARD-FIRST TO LINE-FIRST
           MOVE MEMBER-NAME TO LINE-NAME
           MOVE CARD-TOWN TO LINE-TOWN
           MOVE CARD-STATE TO LINE-STATE
           MOVE CARD-ZIP TO LINE-ZIP
           IF IS-IN-ORDER
               MOVE "*" TO LINE-ORDER
           ELSE
               MOVE SPACE TO LINE-ORDER
           END-IF
           MOVE MEMBER-LINE TO REPORT-TEXT
           MOVE 1 TO SPACES-AFTER
           PERFORM PRINT-LINE
           IF IS-TO-LOOK-AT
               ADD 1 TO TO-LOOK-AT
               MOVE MEMBER-KEY TO LINE-KEY
               MOVE REMARK TO LINE-REMARK
               MOVE GREATEST TO LINE-GREATEST
               MOVE LOOK-LINE TO REPORT-TEXT
               PERFORM PRINT-LINE
           END-IF.
       END-TOTALS.
           MOVE 1 TO SPACES-DUE
           PERFORM SPACE-LINES
           MOVE EAST TO END-EAST
           MOVE TO-LOOK-AT TO END-TO-LOOK-AT
           MOVE GREATEST TO END-GREATEST
           MOVE END-LINE TO REPORT-TEXT
           MOVE 1 TO SPACES-AFTER
           PERFORM PRINT-LINE.
           COPY "headings.cpy".
           COPY "printer.cpy".
