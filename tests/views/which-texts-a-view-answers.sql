@setup
CREATE TABLE T (G VARCHAR2(4), A NUMBER);
CREATE TABLE U (G VARCHAR2(4), A NUMBER);
INSERT INTO T VALUES ('P', 1), ('P', 2), ('Q', 3);
CREATE MATERIALIZED VIEW V ENABLE QUERY REWRITE AS SELECT G, SUM(A) FROM T GROUP BY G;
-- The same words up to ORDER BY, whatever stands between them.
SELECT G, SUM(A) FROM T GROUP BY G;
select g ,
 sum ( a ) from t group by g ORDER BY 1;
SELECT G, SUM(A) FROM T GROUP BY G -- no G
  ORDER BY 2 DESC, G DESC;
-- Another table, another group, another condition.
SELECT G, SUM(A) FROM U GROUP BY G;
SELECT G, SUM(A) FROM T GROUP BY G, A;
SELECT G, SUM(A) FROM T WHERE A > 1 GROUP BY G;
@end
