@setup
-- Sales by region, and a summary of them that may answer queries.
CREATE TABLE SALES (REGION VARCHAR2(10), AMOUNT NUMBER);
INSERT INTO SALES VALUES ('NORTH', 120), ('SOUTH', 80), ('NORTH', 30);
CREATE MATERIALIZED VIEW BY_REGION BUILD IMMEDIATE ENABLE QUERY REWRITE AS
  SELECT REGION, SUM(AMOUNT), COUNT(*) FROM SALES GROUP BY REGION;

-- The summary is fresh, so it answers: no base row is read.
SELECT REGION, SUM(AMOUNT), COUNT(*) FROM SALES GROUP BY REGION;

@session 1
-- A sale makes the summary stale. The same query is answered from the sales until the next refresh.
INSERT INTO SALES VALUES ('EAST', 50);
SELECT REGION, SUM(AMOUNT), COUNT(*) FROM SALES GROUP BY REGION;
SHOW VIEW BY_REGION;

@session 2
-- A refresh has two parts. Between them session 1 goes on: see @order.
EXECUTE DBMS_MVIEW.REFRESH('BY_REGION', 'C');
SHOW VIEW BY_REGION;
EXECUTE DBMS_MVIEW.REFRESH('BY_REGION', 'C');
SELECT REGION, SUM(AMOUNT), COUNT(*) FROM SALES GROUP BY REGION;

-- The refresh of session 2 begins before the sale and is installed after it, so the summary is stale at once.
@order 2 1 2 1 1
@end
