"""3,000 rows, of which some are changed and 1,000 deleted between the begin and the install of a refresh."""
print("@setup\nCREATE TABLE T (N NUMBER PRIMARY KEY, A NUMBER);\n@load T")
print("\n".join("%d,0" % number for number in range(3000)) + "\n@endload")
print("""CREATE MATERIALIZED VIEW V AS SELECT COUNT(*), SUM(N), SUM(A) FROM T;
@session 1
EXECUTE DBMS_MVIEW.REFRESH('V', 'C');
SHOW VIEW V;
SELECT COUNT(*), SUM(N), SUM(A) FROM T;
SELECT N, A FROM T WHERE A > 0 ORDER BY N;
@session 2
UPDATE T SET A = 1 WHERE N IN (0, 5, 1023, 1024, 2046, 2047, 2048, 2999);
DELETE FROM T WHERE N BETWEEN 1000 AND 1999;
UPDATE T SET A = 2 WHERE N = 5;
INSERT INTO T VALUES (1000, 7);
@order 1 2 2 2 2 1
@end""")
