      *> Loads STOCK and PRICES, files by key in the folder that it
      *> runs in, from the line sequential files stock.txt and
      *> prices.txt. It isn't counted.
       IDENTIFICATION DIVISION.
       PROGRAM-ID. LOADS.
       ENVIRONMENT DIVISION.
       INPUT-OUTPUT SECTION.
       FILE-CONTROL.
           SELECT STOCK-CARDS ASSIGN TO "stock.txt"
               ORGANIZATION IS LINE SEQUENTIAL.
           SELECT PRICE-CARDS ASSIGN TO "prices.txt"
               ORGANIZATION IS LINE SEQUENTIAL.
           SELECT STOCK ASSIGN TO "STOCK"
               ORGANIZATION IS INDEXED
               ACCESS MODE IS SEQUENTIAL
               RECORD KEY IS STOCK-ITEM.
           SELECT PRICES ASSIGN TO "PRICES"
               ORGANIZATION IS INDEXED
               ACCESS MODE IS SEQUENTIAL
               RECORD KEY IS PRICE-ITEM.
       DATA DIVISION.
       FILE SECTION.
       FD  STOCK-CARDS.
       01  STOCK-CARD.
           05  CARD-ITEM            PIC X(6).
           05  CARD-BIN             PIC X(4).
           05  CARD-ON-HAND         PIC 9(7).
           05  CARD-LEAST           PIC 9(5).
       FD  PRICE-CARDS.
       01  PRICE-CARD.
           05  CARD-PRICED          PIC X(6).
           05  CARD-TEXT            PIC X(16).
           05  CARD-PRICE           PIC 9(4)V999.
       FD  STOCK.
           COPY "stock.cpy".
       FD  PRICES.
           COPY "prices.cpy".
       WORKING-STORAGE SECTION.
       01  END-STATE                PIC X VALUE "N".
           88  ALL-READ             VALUE "Y".
       PROCEDURE DIVISION.
       MAIN-PART.
           OPEN INPUT STOCK-CARDS PRICE-CARDS OUTPUT STOCK PRICES
           PERFORM UNTIL ALL-READ
               READ STOCK-CARDS
                   AT END SET ALL-READ TO TRUE
                   NOT AT END
                       MOVE SPACES TO STOCK-RECORD
                       MOVE CARD-ITEM TO STOCK-ITEM
                       MOVE CARD-BIN TO STOCK-BIN
                       MOVE CARD-ON-HAND TO STOCK-ON-HAND
                       MOVE CARD-LEAST TO STOCK-LEAST
                       MOVE 061076 TO STOCK-MOVED
                       WRITE STOCK-RECORD
               END-READ
           END-PERFORM
           MOVE "N" TO END-STATE
           PERFORM UNTIL ALL-READ
               READ PRICE-CARDS
                   AT END SET ALL-READ TO TRUE
                   NOT AT END
                       MOVE SPACES TO PRICE-RECORD
                       MOVE CARD-PRICED TO PRICE-ITEM
                       MOVE CARD-TEXT TO PRICE-TEXT
                       MOVE CARD-PRICE TO PRICE-AMOUNT
                       WRITE PRICE-RECORD
               END-READ
           END-PERFORM
           CLOSE STOCK-CARDS PRICE-CARDS STOCK PRICES
           STOP RUN.
