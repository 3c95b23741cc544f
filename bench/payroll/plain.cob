      *> The payroll of source.txt: cards on standard input, the
      *> report on standard output.
       IDENTIFICATION DIVISION.
       PROGRAM-ID. PAYROLL.
       ENVIRONMENT DIVISION.
       INPUT-OUTPUT SECTION.
       FILE-CONTROL.
           COPY "select.cpy".
       DATA DIVISION.
       FILE SECTION.
       FD  CARDS.
       01  HOURLY-CARD.
           05  CARD-KIND            PIC X.
               88  HAS-SALARY       VALUE "S".
           05  CARD-DEPARTMENT      PIC X(3).
           05  CARD-NUMBER          PIC 9(5).
           05  CARD-NAME            PIC X(18).
           05  CARD-EXEMPTIONS      PIC 99.
           05  CARD-EARNED          PIC 9(6)V99.
           05  CARD-INSURANCE       PIC 9(3)V99.
           05  CARD-LOAN            PIC 9(4)V99.
           05  CARD-STATE           PIC X(2).
           05  CARD-HOURS           PIC 99V99.
           05  CARD-RATE            PIC 9(3)V999.
           05  FILLER               PIC X(36).
       01  SALARY-CARD.
           05  FILLER               PIC X(50).
           05  CARD-SALARY          PIC 9(5)V99.
           05  FILLER               PIC X(39).
       FD  REPORT-FILE.
           COPY "report.cpy".
       WORKING-STORAGE SECTION.
           COPY "place.cpy".
       01  SWITCHES.
           05  END-STATE            PIC X VALUE "N".
               88  ALL-READ         VALUE "Y".
           05  DEPARTMENT           PIC X(3).
       01  WORK.
           05  HOURS                PIC S9(4)V99 COMP-5.
           05  RATE                 PIC S9(6)V999 COMP-5.
           05  REGULAR-HOURS        PIC S9(4)V99 COMP-5.
           05  OVERTIME             PIC S9(7)V99 COMP-5.
           05  GROSS                PIC S9(7)V99 COMP-5.
           05  EARNED               PIC S9(7)V99 COMP-5.
           05  EARNED-NOW           PIC S9(7)V99 COMP-5.
           05  ROOM                 PIC S9(7)V99 COMP-5.
           05  SOCIAL               PIC S9(7)V99 COMP-5.
           05  EXEMPTIONS           PIC S9(4) COMP-5.
           05  TAXABLE              PIC S9(7)V99 COMP-5.
           05  TAX                  PIC S9(7)V99 COMP-5.
           05  STATE-TAX            PIC S9(7)V99 COMP-5.
           05  INSURANCE            PIC S9(7)V99 COMP-5.
           05  LOAN                 PIC S9(7)V99 COMP-5.
           05  PAID-BACK            PIC S9(7)V99 COMP-5.
           05  NET                  PIC S9(7)V99 COMP-5.
           05  NET-BEFORE           PIC S9(7)V99 COMP-5.
       01  SUMS.
           05  PAGES                PIC S9(8) COMP-5 VALUE 0.
           05  DEP-COUNT            PIC S9(8) COMP-5 VALUE 0.
           05  DEP-GROSS            PIC S9(9)V99 COMP-5 VALUE 0.
           05  DEP-SOCIAL           PIC S9(9)V99 COMP-5 VALUE 0.
           05  DEP-TAX              PIC S9(9)V99 COMP-5 VALUE 0.
           05  DEP-STATE            PIC S9(9)V99 COMP-5 VALUE 0.
           05  DEP-NET              PIC S9(9)V99 COMP-5 VALUE 0.
           05  AVERAGE              PIC S9(9)V99 COMP-5.
           05  ALL-COUNT            PIC S9(8) COMP-5 VALUE 0.
           05  ALL-GROSS            PIC S9(9)V99 COMP-5 VALUE 0.
           05  ALL-SOCIAL           PIC S9(9)V99 COMP-5 VALUE 0.
           05  ALL-TAX              PIC S9(9)V99 COMP-5 VALUE 0.
           05  ALL-STATE            PIC S9(9)V99 COMP-5 VALUE 0.
           05  ALL-NET              PIC S9(9)V99 COMP-5 VALUE 0.
       01  FIRST-HEADING.
           05  FILLER               PIC X(28)
               VALUE "PAYROLL REGISTER".
           05  FILLER               PIC X(11) VALUE "WEEK ENDED".
           05  HEAD-DATE            PIC Z9/99/99.
           05  FILLER               PIC X(57) VALUE SPACES.
           05  FILLER               PIC X(5) VALUE "PAGE".
           05  HEAD-PAGE            PIC ZZZZ.
       01  SECOND-HEADING.
           05  FILLER               PIC X(28) VALUE "      EMPLOYEE".
           05  FILLER               PIC X(10) VALUE "HOURS".
           05  FILLER               PIC X(10) VALUE "RATE".
           05  FILLER               PIC X(7) VALUE "GROSS".
           05  FILLER               PIC X(15) VALUE "F.I.C.A.".
           05  FILLER               PIC X(8) VALUE "TAX".
           05  FILLER               PIC X(5) VALUE "STATE".
           05  FILLER               PIC X(14) VALUE "INSURANCE".
           05  FILLER               PIC X(12) VALUE "LOAN".
           05  FILLER               PIC X(3) VALUE "NET".
       01  EMPLOYEE-LINE.
           05  FILLER               PIC X VALUE SPACE.
           05  LINE-NUMBER          PIC ZZZZZ.
           05  FILLER               PIC XX VALUE SPACES.
           05  LINE-NAME            PIC X(18).
           05  FILLER               PIC XX VALUE SPACES.
           05  LINE-HOURLY.
               10  LINE-HOURS       PIC ZZ.99.
               10  FILLER           PIC X VALUE SPACE.
               10  LINE-OVERTIME    PIC X.
               10  FILLER           PIC X VALUE SPACE.
               10  LINE-RATE        PIC ZZZ.999.
           05  FILLER               PIC X VALUE SPACE.
           05  LINE-GROSS           PIC ZZ,ZZZ.99.
           05  FILLER               PIC XX VALUE SPACES.
           05  LINE-SOCIAL          PIC Z,ZZZ.99.
           05  FILLER               PIC XX VALUE SPACES.
           05  LINE-TAX             PIC Z,ZZZ.99.
           05  FILLER               PIC XX VALUE SPACES.
           05  LINE-STATE           PIC Z,ZZZ.99 BLANK WHEN ZERO.
           05  FILLER               PIC X(3) VALUE SPACES.
           05  LINE-INSURANCE       PIC ZZZ.99 BLANK WHEN ZERO.
           05  FILLER               PIC X VALUE SPACE.
           05  LINE-LOAN            PIC Z,ZZZ.99 BLANK WHEN ZERO.
           05  FILLER               PIC XX VALUE SPACES.
           05  LINE-NET             PIC ZZ,ZZZ.99-.
           05  FILLER               PIC XX VALUE SPACES.
           05  LINE-REMARK          PIC X(8).
       01  DEPARTMENT-LINE.
           05  FILLER               PIC X(13) VALUE "  DEPARTMENT".
           05  DEP-NAME             PIC X(3).
           05  FILLER               PIC XX VALUE SPACES.
           05  LINE-COUNT           PIC ZZZ9.
           05  FILLER               PIC X(19) VALUE " PAID".
           05  LINE-DEP-GROSS       PIC Z,ZZZ,ZZZ.99.
           05  FILLER               PIC X VALUE SPACE.
           05  LINE-DEP-SOCIAL      PIC Z,ZZZ,ZZZ.99.
           05  FILLER               PIC X VALUE SPACE.
           05  LINE-DEP-TAX         PIC Z,ZZZ,ZZZ.99.
           05  FILLER               PIC X VALUE SPACE.
           05  LINE-DEP-STATE       PIC Z,ZZZ,ZZZ.99
                                    BLANK WHEN ZERO.
           05  FILLER               PIC X(8) VALUE SPACES.
           05  LINE-DEP-NET         PIC Z,ZZZ,ZZZ.99CR.
       01  AVERAGE-LINE.
           05  FILLER               PIC X(44)
               VALUE "          AVERAGE GROSS PAY".
           05  LINE-AVERAGE         PIC ZZ,ZZZ.99.
       01  END-LINE.
           05  FILLER               PIC X(16) VALUE "  WHOLE SHOP".
           05  END-COUNT            PIC ZZ,ZZ9.
           05  FILLER               PIC X(9) VALUE " PAID".
           05  END-GROSS            PIC ZZZ,ZZZ,ZZZ.99.
           05  FILLER               PIC XX VALUE SPACES.
           05  END-SOCIAL           PIC ZZZ,ZZZ,ZZZ.99.
           05  FILLER               PIC XX VALUE SPACES.
           05  END-TAX              PIC ZZZ,ZZZ,ZZZ.99.
           05  FILLER               PIC XX VALUE SPACES.
           05  END-STATE-TAX        PIC ZZZ,ZZZ,ZZZ.99.
           05  FILLER               PIC X(5) VALUE SPACES.
           05  END-NET              PIC ZZZ,ZZZ,ZZZ.99CR.
       PROCEDURE DIVISION.
       MAIN-PART.
           OPEN INPUT CARDS OUTPUT REPORT-FILE
           MOVE 061876 TO HEAD-DATE
           MOVE SPACES TO REPORT-LINE
           PERFORM HEADINGS
           PERFORM READ-CARD
           MOVE CARD-DEPARTMENT TO DEPARTMENT
           PERFORM ONE-EMPLOYEE UNTIL ALL-READ
           PERFORM DEPARTMENT-TOTALS
           PERFORM ALL-TOTALS
           CLOSE CARDS REPORT-FILE
           STOP RUN.
       READ-CARD.
           READ CARDS
               AT END SET ALL-READ TO TRUE
           END-READ.
       ONE-EMPLOYEE.
           IF CARD-DEPARTMENT NOT = DEPARTMENT
               PERFORM DEPARTMENT-TOTALS
               MOVE CARD-DEPARTMENT TO DEPARTMENT
           END-IF
           IF OVERFLOWS
               PERFORM HEADINGS
           END-IF
           IF HAS-SALARY
               MOVE CARD-SALARY TO GROSS
               MOVE "         SALARY" TO LINE-HOURLY
           ELSE
               PERFORM WAGES
           END-IF
           PERFORM SOCIAL-TAX
           PERFORM FEDERAL-TAX
           PERFORM TAX-OF-STATE
           MOVE CARD-INSURANCE TO INSURANCE
           COMPUTE NET = GROSS - SOCIAL - TAX - STATE-TAX - INSURANCE
           MOVE NET TO NET-BEFORE
           PERFORM LOANS
           ADD 1 TO DEP-COUNT
           ADD GROSS TO DEP-GROSS
           ADD SOCIAL TO DEP-SOCIAL
           ADD TAX TO DEP-TAX
           ADD STATE-TAX TO DEP-STATE
           ADD NET TO DEP-NET
           PERFORM PRINT-EMPLOYEE
           PERFORM READ-CARD.
       WAGES.
           MOVE CARD-HOURS TO HOURS
           MOVE CARD-RATE TO RATE
           MOVE HOURS TO LINE-HOURS
           MOVE RATE TO LINE-RATE
           IF HOURS > 40
               MOVE 40 TO REGULAR-HOURS
               COMPUTE OVERTIME ROUNDED = (HOURS - 40) * RATE * 1.5
               MOVE "O" TO LINE-OVERTIME
           ELSE
               MOVE HOURS TO REGULAR-HOURS
               MOVE 0 TO OVERTIME
               MOVE SPACE TO LINE-OVERTIME
           END-IF
           COMPUTE GROSS ROUNDED = REGULAR-HOURS * RATE
           ADD OVERTIME TO GROSS.
       SOCIAL-TAX.
           MOVE CARD-EARNED TO EARNED
           ADD EARNED GROSS GIVING EARNED-NOW
           IF EARNED-NOW > 15300
               SUBTRACT EARNED FROM 15300 GIVING ROOM
               IF ROOM < 0
                   MOVE 0 TO ROOM
               END-IF
           ELSE
               MOVE GROSS TO ROOM
           END-IF
           COMPUTE SOCIAL ROUNDED = ROOM * 0.0585.
       FEDERAL-TAX.
           MOVE CARD-EXEMPTIONS TO EXEMPTIONS
           COMPUTE TAXABLE = GROSS - EXEMPTIONS * 14.40
           EVALUATE TRUE
               WHEN TAXABLE <= 25
                   MOVE 0 TO TAX
               WHEN TAXABLE <= 183
                   COMPUTE TAX ROUNDED = (TAXABLE - 25) * 0.16
               WHEN OTHER
                   COMPUTE TAX ROUNDED = (TAXABLE - 183) * 0.26
                   ADD 25.28 TO TAX
           END-EVALUATE.
       TAX-OF-STATE.
           EVALUATE CARD-STATE
               WHEN "NY"
                   COMPUTE STATE-TAX ROUNDED = GROSS * 0.025
               WHEN "NJ"
                   COMPUTE STATE-TAX ROUNDED = GROSS * 0.02
               WHEN OTHER
                   MOVE 0 TO STATE-TAX
           END-EVALUATE.
       LOANS.
           MOVE CARD-LOAN TO LOAN
           IF LOAN > 25
               MOVE 25 TO PAID-BACK
           ELSE
               MOVE LOAN TO PAID-BACK
           END-IF
           IF NET < PAID-BACK
               MOVE 0 TO PAID-BACK
           END-IF
           SUBTRACT PAID-BACK FROM NET.
       PRINT-EMPLOYEE.
           MOVE CARD-NUMBER TO LINE-NUMBER
           MOVE CARD-NAME TO LINE-NAME
           MOVE GROSS TO LINE-GROSS
           MOVE SOCIAL TO LINE-SOCIAL
           MOVE TAX TO LINE-TAX
           MOVE STATE-TAX TO LINE-STATE
           MOVE INSURANCE TO LINE-INSURANCE
           MOVE PAID-BACK TO LINE-LOAN
           MOVE NET TO LINE-NET
           IF NET-BEFORE < 0
               MOVE "NOT PAID" TO LINE-REMARK
           ELSE
               MOVE SPACES TO LINE-REMARK
           END-IF
           MOVE EMPLOYEE-LINE TO REPORT-TEXT
           MOVE 1 TO SPACES-AFTER
           PERFORM PRINT-LINE.
       DEPARTMENT-TOTALS.
           DIVIDE DEP-GROSS BY DEP-COUNT GIVING AVERAGE ROUNDED
           ADD DEP-COUNT TO ALL-COUNT
           ADD DEP-GROSS TO ALL-GROSS
           ADD DEP-SOCIAL TO ALL-SOCIAL
           ADD DEP-TAX TO ALL-TAX
           ADD DEP-STATE TO ALL-STATE
           ADD DEP-NET TO ALL-NET
           MOVE 1 TO SPACES-DUE
           PERFORM SPACE-LINES
           MOVE DEPARTMENT TO DEP-NAME
           MOVE DEP-COUNT TO LINE-COUNT
           MOVE DEP-GROSS TO LINE-DEP-GROSS
           MOVE DEP-SOCIAL TO LINE-DEP-SOCIAL
           MOVE DEP-TAX TO LINE-DEP-TAX
           MOVE DEP-STATE TO LINE-DEP-STATE
           MOVE DEP-NET TO LINE-DEP-NET
           MOVE DEPARTMENT-LINE TO REPORT-TEXT
           MOVE 1 TO SPACES-AFTER
           PERFORM PRINT-LINE
           MOVE AVERAGE TO LINE-AVERAGE
           MOVE AVERAGE-LINE TO REPORT-TEXT
           MOVE 2 TO SPACES-AFTER
           PERFORM PRINT-LINE
           MOVE 0 TO DEP-COUNT DEP-GROSS DEP-SOCIAL DEP-TAX
               DEP-STATE DEP-NET.
       ALL-TOTALS.
           MOVE ALL-COUNT TO END-COUNT
           MOVE ALL-GROSS TO END-GROSS
           MOVE ALL-SOCIAL TO END-SOCIAL
           MOVE ALL-TAX TO END-TAX
           MOVE ALL-STATE TO END-STATE-TAX
           MOVE ALL-NET TO END-NET
           MOVE END-LINE TO REPORT-TEXT
           MOVE 1 TO SPACES-AFTER
           PERFORM PRINT-LINE.
           COPY "headings.cpy".
           COPY "printer.cpy".
