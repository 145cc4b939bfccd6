@setup
CREATE TABLE T (A NUMBER);
INSERT INTO T VALUES (1), (2);
create materialized view v1 as select min(a) from t;
create materialized view v2 build immediate refresh complete on demand disable query rewrite as select max(a) from t;
create materialized view v3 refresh enable query rewrite as select sum(a) from t;
create materialized view v4 refresh force enable query rewrite as select count(a) from t;
create materialized view v5 refresh on demand enable query rewrite as select avg(a) from t;
create materialized view v6 build deferred refresh complete enable query rewrite as select count(*) from t;
SELECT MIN(A) FROM T;
SELECT MAX(A) FROM T;
SELECT SUM(A) FROM T;
SELECT COUNT(A) FROM T;
SELECT AVG(A) FROM T;
SELECT COUNT(*) FROM T;
EXECUTE DBMS_MVIEW.REFRESH('V6', 'C');
SELECT COUNT(*) FROM T;
@end
