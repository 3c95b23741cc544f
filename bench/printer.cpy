      *> The printer of these benchmarks: a line in its place on
      *> its page, and the overflow of a page.
       PRINT-LINE.
           IF PLACE = 60
               SET OVERFLOWS TO TRUE
           END-IF
           MOVE PAGE-NUMBER TO REPORT-PAGE
           MOVE PLACE TO REPORT-PLACE
           WRITE REPORT-LINE
           MOVE SPACES-AFTER TO SPACES-DUE
           PERFORM SPACE-LINES.
       SPACE-LINES.
           MOVE PLACE TO PLACE-BEFORE
           ADD SPACES-DUE TO PLACE
           IF PLACE > 66
               SUBTRACT 66 FROM PLACE
               PERFORM NEXT-PAGE
           ELSE
               IF PLACE-BEFORE <= 60 AND PLACE > 60
                   SET OVERFLOWS TO TRUE
               END-IF
           END-IF.
       NEXT-PAGE.
           ADD 1 TO PAGE-NUMBER
           IF PAGE-NUMBER > 9999
               MOVE 0 TO PAGE-NUMBER
           END-IF.
