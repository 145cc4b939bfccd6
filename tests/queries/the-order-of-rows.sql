@setup
CREATE TABLE X (X VARCHAR2(15));
CREATE TABLE N (N NUMBER);
CREATE TABLE P (A NUMBER, B VARCHAR2(1));
INSERT INTO X VALUES ('B'), ('a'), ('9'), (NULL), ('AAAAAAAAAAAAAAA'), ('Å'), ('AA'), ('10'), ('A'), ('AAAAAAAAAAAAAA');
INSERT INTO N VALUES (9), (-10), (10), (0), (NULL), (-9), (999999999999999), (-999999999999999);
INSERT INTO P VALUES (1, 'x'), (2, 'x'), (1, 'y'), (NULL, 'x'), (2, NULL);
-- Texts go by their bytes and not by what they spell, and a beginning stands before the whole.
SELECT X FROM X;
SELECT X FROM X ORDER BY X DESC;
SELECT N FROM N;
SELECT N FROM N ORDER BY 1 DESC;
-- What ORDER BY leaves open goes by the items from left to right.
SELECT A, B FROM P;
SELECT A, B FROM P ORDER BY B DESC, A DESC;
SELECT A, B FROM P ORDER BY B;
SELECT B, A FROM P ORDER BY 2 ASC, 1 DESC;
-- The same row twice stays twice.
SELECT A FROM P ORDER BY A DESC;
@end
