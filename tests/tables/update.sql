@setup
CREATE TABLE T (A NUMBER(3), B NUMBER(3), X VARCHAR2(3), Y VARCHAR2(3));
INSERT INTO T VALUES (1, 10, 'p', 'q'), (2, NULL, 'r', NULL), (3, 30, NULL, 's');
-- All new values go by the old row, so two columns can be swapped. A sum with NULL is NULL.
UPDATE T SET A = B + 0, B = A + 0;
SELECT ROWID, A, B FROM T;
UPDATE T SET X = 'z', Y = NULL WHERE B >= 2;
UPDATE T SET X = '' WHERE B = 3;
UPDATE T SET A = A - 11 WHERE A IS NOT NULL;
SELECT ROWID, A, B, X, Y FROM T;
UPDATE T SET A = 5, B = A + 1;
-- A row whose values stay as they are counts too. A row keeps its rowid.
UPDATE T SET A = A + 0 WHERE B = 0;
UPDATE T SET A = 1 WHERE A = 99;
SELECT ROWID, A, B, X, Y FROM T;
@end
