"""5,000 rows in 1,000 groups, and a join to 1,000 rows of 10 classes."""
print("@setup\nCREATE TABLE D (I NUMBER PRIMARY KEY, C NUMBER);\nCREATE TABLE T (G NUMBER REFERENCES D, N NUMBER);\n@load D")
print("\n".join("%d,%d" % (number, number % 10) for number in range(1000)) + "\n@endload\n@load T")
print("\n".join("%d,%d" % (number % 1000, number) for number in range(5000)) + "\n@endload")
print("""SELECT G, COUNT(*), SUM(N) FROM T GROUP BY G HAVING SUM(N) > 14970;
SELECT C, COUNT(*), SUM(N), MIN(N), MAX(N) FROM T JOIN D ON G = I GROUP BY C;
CREATE MATERIALIZED VIEW V ENABLE QUERY REWRITE AS SELECT G, COUNT(*), SUM(N) FROM T GROUP BY G HAVING SUM(N) > 14970;
SELECT G, COUNT(*), SUM(N) FROM T GROUP BY G HAVING SUM(N) > 14970 ORDER BY 3 DESC;
@end""")
