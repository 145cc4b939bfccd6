@setup
CREATE TABLE T (K NUMBER PRIMARY KEY, U VARCHAR2(3) UNIQUE, N NUMBER);
-- NULL is the same as nothing, so a UNIQUE column may have it in many rows.
INSERT INTO T VALUES (1, 'a', 1), (2, NULL, 1), (3, NULL, 1);
INSERT INTO T VALUES (4, '', 1);
INSERT INTO T VALUES (NULL, 'b', 1);
-- Of two keys the first that was declared is told.
INSERT INTO T VALUES (2, 'a', 1);
INSERT INTO T VALUES (5, 'a', 1);
INSERT INTO T VALUES (5, 'b', 1), (5, 'c', 1);
INSERT INTO T VALUES (5, 'b', 1), (6, 'b', 1);
INSERT INTO T VALUES (5, 'A', 1);
UPDATE T SET K = 2 WHERE K = 1;
UPDATE T SET U = 'x' WHERE K >= 4;
UPDATE T SET U = NULL;
UPDATE T SET U = 'x' WHERE K = 3;
-- A key is free again where its row is gone.
DELETE FROM T WHERE K = 3;
INSERT INTO T VALUES (3, 'x', 2);
SELECT K, U, N FROM T;
@end
