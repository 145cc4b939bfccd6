@setup
-- A statement that can't be done is refused: it changes nothing, its reply says why, and the script goes on.
CREATE TABLE SALES (REGION VARCHAR2(10), AMOUNT NUMBER);

-- MV-02: there is no table SALE.
INSERT INTO SALE VALUES ('NORTH', 120);

-- MV-04: a value doesn't fit. Here the row has one value, and the table two columns.
INSERT INTO SALES VALUES ('NORTH');

-- MV-04 also: a number of more than 15 digits, and a text for a number. MV-03 and MV-01: the list names a column that isn't
-- there, or one twice.
INSERT INTO SALES VALUES ('NORTH', 1234567890123456);
INSERT INTO SALES VALUES ('NORTH', 'MUCH');
INSERT INTO SALES (REGION, CITY) VALUES ('NORTH', 120);
INSERT INTO SALES (REGION, REGION) VALUES ('NORTH', 'SOUTH');

-- An UPDATE is asked for the names of its SET list, then for those of WHERE, and then for the kinds.
UPDATE SALES SET AMOUNT = REGION + 1 WHERE CITY = 'OSLO';
UPDATE SALES SET AMOUNT = REGION + 1 WHERE REGION = 'OSLO';

-- MV-03: the table has no column CITY.
SELECT CITY, COUNT(*) FROM SALES GROUP BY CITY;
@end
