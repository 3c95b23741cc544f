      *> Loads ITEMS, a file by key in the folder that it runs in,
      *> from the line sequential file items.txt. It isn't counted.
       IDENTIFICATION DIVISION.
       PROGRAM-ID. LOADS.
       ENVIRONMENT DIVISION.
       INPUT-OUTPUT SECTION.
       FILE-CONTROL.
           SELECT CARDS ASSIGN TO "items.txt"
               ORGANIZATION IS LINE SEQUENTIAL.
           SELECT ITEMS ASSIGN TO "ITEMS"
               ORGANIZATION IS INDEXED
               ACCESS MODE IS SEQUENTIAL
               RECORD KEY IS ITEM-KEY.
       DATA DIVISION.
       FILE SECTION.
       FD  CARDS.
           COPY "card.cpy".
       FD  ITEMS.
           COPY "item.cpy".
       WORKING-STORAGE SECTION.
       01  END-STATE                PIC X VALUE "N".
           88  ALL-READ             VALUE "Y".
       PROCEDURE DIVISION.
       MAIN-PART.
           OPEN INPUT CARDS OUTPUT ITEMS
           PERFORM UNTIL ALL-READ
               READ CARDS
                   AT END SET ALL-READ TO TRUE
                   NOT AT END
                       MOVE CARD-TEXTS TO ITEM-RECORD
                       MOVE CARD-ON-HAND TO ITEM-ON-HAND
                       MOVE CARD-PRICE TO ITEM-PRICE
                       MOVE 061076 TO ITEM-MADE
                       WRITE ITEM-RECORD
               END-READ
           END-PERFORM
           CLOSE CARDS ITEMS
           STOP RUN.
