"""Creates 64 tables, and then one more. A name that is taken goes first; a view is no table."""
print("@setup")
for number in range(1, 66):
    print("CREATE TABLE T%d (A NUMBER);" % number)
print("CREATE TABLE T64 (A NUMBER);")
print("CREATE MATERIALIZED VIEW V AS SELECT COUNT(*) FROM T64;")
print("INSERT INTO T64 VALUES (1);")
print("INSERT INTO T65 VALUES (1);")
print("@end")
