@setup
-- Products and their sales. ID and NAME are keys of a product, and a sale refers to a product or to none.
CREATE TABLE PRODUCT (ID NUMBER PRIMARY KEY, NAME VARCHAR2(10) UNIQUE NOT NULL);
CREATE TABLE SALE (PID NUMBER REFERENCES PRODUCT (ID), AMOUNT NUMBER(4) NOT NULL);
INSERT INTO PRODUCT VALUES (1, 'RAKE'), (2, 'HOE');
INSERT INTO SALE VALUES (1, 30), (1, 20), (NULL, 5);

-- MV-06: two rows would have one key. Of two keys the first that was declared is told. A block is refused as a whole.
INSERT INTO PRODUCT VALUES (3, 'SAW'), (1, 'HOE');
BEGIN;
INSERT INTO PRODUCT VALUES (3, 'SAW');
INSERT INTO PRODUCT VALUES (4, 'SAW');
COMMIT;

-- MV-07: there is no product 9. MV-08: the rake has sales; the DELETE has read both products.
INSERT INTO SALE VALUES (9, 1);
DELETE FROM PRODUCT WHERE NAME = 'RAKE';

-- Rows are asked one by one before the keys, and each column for its size before NOT NULL.
INSERT INTO PRODUCT VALUES (1, NULL);
INSERT INTO PRODUCT VALUES (5, NULL), (6, 'A NAME TOO LONG');

-- MV-19: no SELECT in a block. MV-27: a foreign key refers to a key.
BEGIN;
DELETE FROM SALE;
SELECT COUNT(*) FROM SALE;
COMMIT;
CREATE TABLE STOCK (AMOUNT NUMBER REFERENCES SALE (AMOUNT));

-- All is as it was. A join leads to a key: each sale finds its product.
SELECT P.NAME, COUNT(*), SUM(S.AMOUNT) FROM SALE S JOIN PRODUCT P ON S.PID = P.ID GROUP BY P.NAME;

-- A block may bring a product and its sale, and take the sales of another before its number changes. Keys are asked over
-- the rows as a statement leaves them, so the hoe can take the number that the rake had.
BEGIN;
INSERT INTO PRODUCT VALUES (3, 'SAW');
INSERT INTO SALE VALUES (3, 7);
DELETE FROM SALE WHERE PID = 1;
UPDATE PRODUCT SET ID = ID - 1 WHERE ID < 3;
COMMIT;
SELECT ID, NAME FROM PRODUCT;
SELECT PID, AMOUNT FROM SALE;
@end
