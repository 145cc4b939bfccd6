"""3,000 rows with texts, the last one first."""
print("@setup\nCREATE TABLE T (A NUMBER, B VARCHAR2(20));\n@load T")
print("\n".join("%d,row %d" % (number, number) for number in range(3000, 0, -1)) + "\n@endload")
print("SELECT A, B FROM T;\n@end")
