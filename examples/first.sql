@setup
-- Sales, and a summary of them by region that may answer queries.
CREATE TABLE SALES (REGION VARCHAR2(10), AMOUNT NUMBER);
@load SALES
NORTH,120
SOUTH,80
NORTH,30
@endload
CREATE MATERIALIZED VIEW BY_REGION ENABLE QUERY REWRITE AS
  SELECT REGION, SUM(AMOUNT) FROM SALES GROUP BY REGION;

-- The report asks the sales. The summary is fresh and answers it.
SELECT REGION, SUM(AMOUNT) FROM SALES GROUP BY REGION;

-- One sale more makes the summary stale, so the sales answer.
INSERT INTO SALES VALUES ('EAST', 50);
SELECT REGION, SUM(AMOUNT) FROM SALES GROUP BY REGION;

-- A refresh computes the summary anew, and it answers again.
EXECUTE DBMS_MVIEW.REFRESH('BY_REGION', 'C');
SELECT REGION, SUM(AMOUNT) FROM SALES GROUP BY REGION;
@end
