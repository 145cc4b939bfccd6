"""Creates 64 views, and then one more, which fits once another is gone."""
print("@setup\nCREATE TABLE T (A NUMBER);\nINSERT INTO T VALUES (5);")
for number in range(1, 66):
    print("CREATE MATERIALIZED VIEW V%d AS SELECT A FROM T;" % number)
print("CREATE MATERIALIZED VIEW V65 AS SELECT Z FROM X;")
print("CREATE MATERIALIZED VIEW V64 AS SELECT A FROM T;")
print("DROP MATERIALIZED VIEW V1;")
print("CREATE MATERIALIZED VIEW V65 AS SELECT A FROM T;")
print("SHOW VIEW V65;")
print("@end")
