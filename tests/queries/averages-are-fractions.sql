@setup
-- An average prints as its sum and its count, not reduced. Averages go by the fraction, and by the count where it is the same.
CREATE TABLE T (K VARCHAR2(1), V NUMBER);
INSERT INTO T VALUES ('a',3), ('a',4), ('b',1), ('c',1), ('c',1), ('c',0), ('d',1), ('d',1), ('d',0), ('d',0), ('e',1), ('e',0);
INSERT INTO T VALUES ('f',1), ('f',0), ('f',0), ('g',0), ('g',0), ('g',0), ('g',0), ('g',0), ('h',0), ('i',0), ('i',-1);
INSERT INTO T VALUES ('j',-1), ('j',-1), ('k',-1), ('l',-1), ('l',-2), ('m',NULL);
SELECT AVG(V), K FROM T GROUP BY K;
-- HAVING compares the fraction with a number.
SELECT K FROM T GROUP BY K HAVING AVG(V) = -1;
SELECT K FROM T GROUP BY K HAVING AVG(V) < 0;
SELECT K FROM T GROUP BY K HAVING AVG(V) >= 1;
SELECT K FROM T GROUP BY K HAVING AVG(V) <> 0;
SELECT AVG(V), AVG(2), AVG(-1) FROM T WHERE K <= 'b';
@end
