      *> Loads ACCTS, a file by key in the folder that it runs in,
      *> from the line sequential file accounts.txt. It isn't
      *> counted.
       IDENTIFICATION DIVISION.
       PROGRAM-ID. LOADS.
       ENVIRONMENT DIVISION.
       INPUT-OUTPUT SECTION.
       FILE-CONTROL.
           SELECT CARDS ASSIGN TO "accounts.txt"
               ORGANIZATION IS LINE SEQUENTIAL.
           SELECT ACCOUNTS ASSIGN TO "ACCTS"
               ORGANIZATION IS INDEXED
               ACCESS MODE IS SEQUENTIAL
               RECORD KEY IS ACCOUNT-KEY.
       DATA DIVISION.
       FILE SECTION.
       FD  CARDS.
       01  ACCOUNT-CARD.
           05  CARD-TEXTS           PIC X(28).
           05  CARD-BALANCE         PIC 9(9)V99.
       FD  ACCOUNTS.
           COPY "account.cpy".
       WORKING-STORAGE SECTION.
       01  END-STATE                PIC X VALUE "N".
           88  ALL-READ             VALUE "Y".
       PROCEDURE DIVISION.
       MAIN-PART.
           OPEN INPUT CARDS OUTPUT ACCOUNTS
           PERFORM UNTIL ALL-READ
               READ CARDS
                   AT END SET ALL-READ TO TRUE
                   NOT AT END
                       MOVE SPACES TO ACCOUNT-RECORD
                       MOVE CARD-TEXTS TO ACCOUNT-RECORD
                       MOVE CARD-BALANCE TO ACCOUNT-BALANCE
                       MOVE 0 TO ACCOUNT-MOVES
                       MOVE 061076 TO ACCOUNT-MOVED
                       WRITE ACCOUNT-RECORD
               END-READ
           END-PERFORM
           CLOSE CARDS ACCOUNTS
           STOP RUN.
