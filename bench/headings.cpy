      *> The two headings of a report on a new page.
       HEADINGS.
           IF PLACE > 1
               PERFORM NEXT-PAGE
               MOVE 1 TO PLACE
           END-IF
           ADD 1 TO PAGES
           MOVE PAGES TO HEAD-PAGE
           MOVE FIRST-HEADING TO REPORT-TEXT
           MOVE 2 TO SPACES-AFTER
           PERFORM PRINT-LINE
           MOVE SECOND-HEADING TO REPORT-TEXT
           PERFORM PRINT-LINE
           MOVE "N" TO OVERFLOW-STATE.
