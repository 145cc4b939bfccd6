@setup
CREATE TABLE T (A NUMBER(2), B NUMBER(2) NOT NULL, X VARCHAR2(2));
INSERT INTO T VALUES (50, 1, 'p'), (60, 2, 'q'), (NULL, 3, NULL);
-- The table; the names in SET and then in WHERE; a column set twice.
UPDATE U SET A = 1;
UPDATE T SET C = 1 WHERE D = 1;
UPDATE T SET A = C + 1 WHERE D = 1;
UPDATE T SET A = 1, A = 2 WHERE D = 1;
UPDATE T SET A = 'p', A = 2;
-- Kinds, in SET and then in WHERE.
UPDATE T SET A = 'p' WHERE X = 1;
UPDATE T SET X = 1;
UPDATE T SET X = A + 1;
UPDATE T SET A = X + 1;
UPDATE T SET X = X - 1;
UPDATE T SET A = 1 WHERE X = 1;
UPDATE T SET A = 1 WHERE A = X;
UPDATE T SET A = 1 WHERE A IN (1, 'p');
UPDATE T SET A = 1 WHERE X BETWEEN 'a' AND 2;
-- Row by row, and column by column in the order of the table, size and NOT NULL. Then the rows have been read.
UPDATE T SET A = 100;
UPDATE T SET A = A + 45;
UPDATE T SET X = 'ppp';
UPDATE T SET B = NULL;
UPDATE T SET B = A + 1;
UPDATE T SET B = NULL, A = 100 WHERE B = 2;
-- A literal that is only compared may be long, and a value that comes into no row may be anything.
UPDATE T SET A = NULL, X = NULL WHERE A = 1234567890123456789 AND X = 'a text that is longer than its column can hold';
UPDATE T SET A = 100 WHERE B = 9;
SELECT ROWID, A, B, X FROM T;
@end
