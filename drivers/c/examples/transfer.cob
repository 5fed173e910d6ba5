      * Moves money from an account in PostgreSQL to one in MariaDB:
      * transfer FROM TO AMOUNT
       IDENTIFICATION DIVISION.
       PROGRAM-ID. TRANSFER.
       DATA DIVISION.
       WORKING-STORAGE SECTION.
       01 RC       USAGE BINARY-LONG.
       01 RM       USAGE BINARY-LONG.
       01 LINK     USAGE POINTER.
       01 RES      USAGE POINTER.
       01 FROM-ID  PIC X(9).
       01 TO-ID    PIC X(9).
       01 AMOUNT   PIC X(9).
       01 STATEMENT PIC X(100).
       PROCEDURE DIVISION.
           ACCEPT FROM-ID FROM ARGUMENT-VALUE.
           ACCEPT TO-ID FROM ARGUMENT-VALUE.
           ACCEPT AMOUNT FROM ARGUMENT-VALUE.
           CALL "tx_open" RETURNING RC.
           PERFORM STOP-IF-REFUSED.
           CALL "tx_begin" RETURNING RC.
           PERFORM STOP-IF-REFUSED.
           PERFORM PAY-BANK.
           IF RC = 0 PERFORM PAY-SHOP.
           IF RC = 0
              CALL "tx_commit" RETURNING RC
           ELSE
              DISPLAY "NOT TRANSFERRED" UPON SYSERR
              CALL "tx_rollback" RETURNING RM
           END-IF.
           CALL "tx_close" RETURNING RM.
           MOVE RC TO RETURN-CODE.
           STOP RUN.

      * 1 of libpq is PGRES_COMMAND_OK, 0 of TX is TX_OK.
       PAY-BANK.
           STRING "UPDATE account SET balance = balance - " AMOUNT
              " WHERE id = " FROM-ID X"00" DELIMITED BY SIZE
              INTO STATEMENT.
           CALL "gf_rmid" USING BY REFERENCE Z"bank" RETURNING RM.
           CALL "gf_pg_connection" USING BY VALUE RM RETURNING LINK.
           CALL "PQexec" USING BY VALUE LINK BY REFERENCE STATEMENT
              RETURNING RES.
           CALL "PQresultStatus" USING BY VALUE RES RETURNING RC.
           SUBTRACT 1 FROM RC.
           CALL "PQclear" USING BY VALUE RES RETURNING OMITTED.

       PAY-SHOP.
           STRING "UPDATE account SET balance = balance + " AMOUNT
              " WHERE id = " TO-ID X"00" DELIMITED BY SIZE
              INTO STATEMENT.
           CALL "gf_rmid" USING BY REFERENCE Z"shop" RETURNING RM.
           CALL "gf_mariadb_connection" USING BY VALUE RM
              RETURNING LINK.
           CALL "mysql_query" USING BY VALUE LINK
              BY REFERENCE STATEMENT RETURNING RC.

       STOP-IF-REFUSED.
           IF RC NOT = 0
              DISPLAY "NOT TRANSFERRED: " RC UPON SYSERR
              CALL "tx_close" RETURNING RM
              MOVE 1 TO RETURN-CODE
              STOP RUN
           END-IF.
