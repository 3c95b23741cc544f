      *> Loads MACHS, a relative file in the folder that it runs in,
      *> from the line sequential file machines.txt. It isn't
      *> counted.
       IDENTIFICATION DIVISION.
       PROGRAM-ID. LOADS.
       ENVIRONMENT DIVISION.
       INPUT-OUTPUT SECTION.
       FILE-CONTROL.
           SELECT CARDS ASSIGN TO "machines.txt"
               ORGANIZATION IS LINE SEQUENTIAL.
           SELECT MACHINES ASSIGN TO "MACHS"
               ORGANIZATION IS RELATIVE
               ACCESS MODE IS SEQUENTIAL.
       DATA DIVISION.
       FILE SECTION.
       FD  CARDS.
       01  MACHINE-CARD.
           05  CARD-NAME            PIC X(16).
           05  CARD-HOURS           PIC 9(6)V9.
           05  CARD-PIECES          PIC 9(7).
           05  CARD-SCRAP           PIC 9(5).
           05  CARD-COST            PIC S9(9)V99.
           05  CARD-RATE            PIC 9(3)V99.
           05  CARD-RUNS            PIC 9(4).
           05  CARD-LAST            PIC 9(6).
           05  CARD-LEAST           PIC 9(5).
           05  CARD-MOST            PIC 9(5).
       FD  MACHINES.
           COPY "machine.cpy".
       WORKING-STORAGE SECTION.
       01  END-STATE                PIC X VALUE "N".
           88  ALL-READ             VALUE "Y".
       PROCEDURE DIVISION.
       MAIN-PART.
           OPEN INPUT CARDS OUTPUT MACHINES
           PERFORM UNTIL ALL-READ
               READ CARDS
                   AT END SET ALL-READ TO TRUE
                   NOT AT END PERFORM ONE-MACHINE
               END-READ
           END-PERFORM
           CLOSE CARDS MACHINES
           STOP RUN.
       ONE-MACHINE.
           MOVE SPACES TO MACHINE-RECORD
           MOVE CARD-NAME TO MACHINE-NAME
           MOVE CARD-HOURS TO MACHINE-HOURS
           MOVE CARD-PIECES TO MACHINE-PIECES
           MOVE CARD-SCRAP TO MACHINE-SCRAP
           MOVE CARD-COST TO MACHINE-COST
           MOVE CARD-RATE TO MACHINE-RATE
           MOVE CARD-RUNS TO MACHINE-RUNS
           MOVE CARD-LAST TO MACHINE-LAST
           MOVE CARD-LEAST TO MACHINE-LEAST
           MOVE CARD-MOST TO MACHINE-MOST
           WRITE MACHINE-RECORD.
