-- Queries over a star: sales joined to their products and stores. Each column that may be NULL has a NULL somewhere. A NULL is
-- joined to nothing, is no value of an aggregate, makes no condition true, and is a group of its own, which comes last.
@setup
CREATE TABLE PRODUCT (ID NUMBER UNIQUE, BRAND VARCHAR2(8), CLASS NUMBER);
CREATE TABLE STORE (ID NUMBER UNIQUE, CITY VARCHAR2(8), OPENED NUMBER);
CREATE TABLE SALE (PRODUCT NUMBER, STORE NUMBER, PIECES NUMBER, PRICE NUMBER);
-- Rows can stand as lines, as in a CSV file. A field without bytes is NULL.
@load PRODUCT
1,ACME,10
2,ACME,
3,,10
,BOLT,20
5,BOLT,20
@endload
@load STORE
1,OSLO,2001
2,"BERGEN",
3,,2010
,MOSS,2010
@endload
@load SALE
1,1,2,100
1,2,1,100
2,1,,40
3,1,5,7
3,3,1,
5,3,3,-20
5,,4,60
,1,2,30
,,,
9,1,1,1
2,2,6,41
@endload
-- A sale without a product, or with one that isn't there, is in no answer that joins products.
SELECT P.BRAND, COUNT(*), SUM(S.PRICE) FROM SALE S JOIN PRODUCT P ON S.PRODUCT = P.ID GROUP BY P.BRAND;
-- COUNT of a column counts its values, SUM of none is NULL; MIN and MAX pass NULL over.
SELECT S.STORE, COUNT(*), COUNT(S.PRICE), SUM(S.PRICE), MIN(S.PRICE), MAX(S.PRICE) FROM SALE S GROUP BY S.STORE;
-- AVG is a fraction of a sum and a count, as they are.
SELECT T.CITY, AVG(S.PRICE), AVG(S.PIECES) FROM SALE S JOIN STORE T ON S.STORE = T.ID GROUP BY T.CITY;
-- A product of two columns is NULL where one is.
SELECT P.CLASS, SUM(S.PIECES * S.PRICE), COUNT(S.PIECES * S.PRICE) FROM SALE S JOIN PRODUCT P ON S.PRODUCT = P.ID GROUP BY P.CLASS;
-- Both dimensions, conditions on all three tables.
SELECT P.BRAND, T.CITY, COUNT(*) FROM SALE S JOIN PRODUCT P ON S.PRODUCT = P.ID JOIN STORE T ON S.STORE = T.ID GROUP BY P.BRAND, T.CITY;
SELECT P.BRAND, T.CITY, S.PRICE FROM SALE S JOIN PRODUCT P ON S.PRODUCT = P.ID JOIN STORE T ON S.STORE = T.ID WHERE P.CLASS = 10 AND S.PIECES BETWEEN 1 AND 2 AND T.OPENED IN (2001, 2010);
SELECT S.PRODUCT, S.STORE FROM SALE S WHERE S.PRICE IS NULL;
SELECT S.PRODUCT, S.STORE FROM SALE S WHERE S.PRICE <> 100 AND S.STORE IS NOT NULL;
-- Two tables in FROM with the join in WHERE are the same star.
SELECT T.CITY, MAX(S.PIECES) FROM SALE S, STORE T WHERE S.STORE = T.ID AND T.CITY > 'BERGEN' GROUP BY T.CITY;
-- HAVING asks of groups, after they are made. ORDER BY takes positions and names; NULL is last, or first where DESC is said; ties
-- go by all items from the left.
SELECT P.BRAND AS B, COUNT(*) AS N FROM SALE S JOIN PRODUCT P ON S.PRODUCT = P.ID GROUP BY P.BRAND HAVING COUNT(*) > 2;
SELECT P.BRAND, SUM(S.PIECES) AS N FROM SALE S JOIN PRODUCT P ON S.PRODUCT = P.ID GROUP BY P.BRAND ORDER BY N DESC;
SELECT S.PRODUCT, S.PRICE FROM SALE S ORDER BY 2 DESC, S.PRODUCT;
SELECT P.CLASS, P.BRAND FROM PRODUCT P ORDER BY BRAND DESC;
-- Without GROUP BY the aggregates are over all tuples; of no tuples there is one row still.
SELECT COUNT(*), SUM(S.PRICE), MIN(T.CITY), MAX(P.BRAND) FROM SALE S JOIN PRODUCT P ON S.PRODUCT = P.ID JOIN STORE T ON S.STORE = T.ID;
SELECT COUNT(*), SUM(S.PRICE), MIN(S.PRICE) FROM SALE S WHERE S.PRICE > 1000;
-- Joins that make no star are refused.
SELECT S.PRICE FROM SALE S, STORE T;
@end
