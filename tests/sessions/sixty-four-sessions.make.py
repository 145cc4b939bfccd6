"""Sessions 1 to 64 insert a row each, the last one first."""
print("@setup\nCREATE TABLE T (A NUMBER);")
for session in range(1, 65):
    print("@session %d\nINSERT INTO T VALUES (%d);" % (session, session))
print("SELECT COUNT(*), SUM(A) FROM T;")
print("@order", *range(64, 0, -1))
print("@end")
