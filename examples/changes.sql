@setup
-- Accounts and their balances. INSERT, UPDATE and DELETE commit by themselves. The reply tells the SCN after the commit, in
-- ROWS how many rows were changed, and in READ how many were read.
CREATE TABLE ACCOUNT (OWNER VARCHAR2(10) NOT NULL, BALANCE NUMBER(4) NOT NULL);
INSERT INTO ACCOUNT VALUES ('ANN', 100), ('BOB', 40), ('CARL', 0);

-- An UPDATE reads all rows of its table, here 3, and changes those that meet WHERE. A new value is a literal, NULL, or an
-- old value plus or minus a number.
UPDATE ACCOUNT SET BALANCE = BALANCE + 5 WHERE BALANCE > 0;

-- A DELETE reads all rows too. Where none meets WHERE it is a commit all the same.
DELETE FROM ACCOUNT WHERE BALANCE < 0;
DELETE FROM ACCOUNT WHERE OWNER = 'CARL';
SELECT OWNER, BALANCE FROM ACCOUNT;

-- Between BEGIN and COMMIT stands a block: its statements are one commit. Each sees what those before it did, so the two
-- UPDATEs find DORA's row and read 3 rows each. That row is changed twice and counts twice.
BEGIN;
INSERT INTO ACCOUNT VALUES ('DORA', 0);
UPDATE ACCOUNT SET BALANCE = BALANCE - 30 WHERE OWNER = 'ANN';
UPDATE ACCOUNT SET BALANCE = BALANCE + 30 WHERE OWNER = 'DORA';
COMMIT;
SELECT OWNER, BALANCE FROM ACCOUNT;

-- Where a statement can't be done the whole block is refused. MV-05: a NOT NULL column gets NULL; AT 3: in the third
-- statement. The first two leave nothing, and the SCN stays.
BEGIN;
DELETE FROM ACCOUNT WHERE OWNER = 'BOB';
UPDATE ACCOUNT SET BALANCE = 0;
INSERT INTO ACCOUNT VALUES ('EMIL', NULL);
COMMIT;
SELECT OWNER, BALANCE FROM ACCOUNT;
@end
