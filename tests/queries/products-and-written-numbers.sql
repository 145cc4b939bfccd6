@setup
CREATE TABLE T (A NUMBER, B NUMBER);
INSERT INTO T VALUES (2, 3), (NULL, 5), (-4, 5), (7, NULL), (0, 9);
-- A product is NULL where one side is.
SELECT SUM(A * B), COUNT(A * B), MIN(A * B), MAX(T.A * T.B), AVG(B * A) FROM T;
SELECT SUM(A * A), SUM(B * B) FROM T;
-- A written number is one for each row.
SELECT SUM(5), COUNT(7), AVG(-2), MIN(3), MAX(-03), COUNT(*) FROM T;
SELECT SUM(5), COUNT(7), MIN(3) FROM T WHERE A = 100;
SELECT SUM(999999999999999), SUM(-999999999999999) FROM T;
@end
