@setup
CREATE TABLE T (A NUMBER(2), B VARCHAR2(2) NOT NULL);
-- The table; the names of the list; that they differ.
INSERT INTO X VALUES (1);
INSERT INTO X (A, A) VALUES ('p', 1, 2);
INSERT INTO T (A, C, C) VALUES (1);
INSERT INTO T (A, A, C) VALUES (1);
INSERT INTO T (B, A, B) VALUES (1);
-- Row by row the number of values, and from the left their kinds.
INSERT INTO T VALUES (1);
INSERT INTO T VALUES (1, 'p', 2);
INSERT INTO T (A) VALUES (1, 'p');
INSERT INTO T VALUES ('p', 1);
INSERT INTO T VALUES (1, 1);
INSERT INTO T (B, A) VALUES (1, 'p');
INSERT INTO T VALUES (1, 'ppp'), ('x', 'p');
INSERT INTO T VALUES (1, 'ppp'), (1);
-- Row by row, and column by column in the order of the table, size and NOT NULL.
INSERT INTO T VALUES (100, NULL);
INSERT INTO T (B, A) VALUES (NULL, 100);
INSERT INTO T VALUES (1, NULL), (100, 'p');
INSERT INTO T (A) VALUES (1);
INSERT INTO T VALUES (1, '');
INSERT INTO T VALUES (1, 'p'), (2, NULL);
-- A refused INSERT leaves no row and gives no rowid.
INSERT INTO T VALUES (NULL, 'p');
SELECT ROWID, A, B FROM T;
@end
