"""A LOAD of 262,145 rows, one more than a table holds."""
print("@setup\nCREATE TABLE T (G VARCHAR2(4), A NUMBER);\n@load T")
print("P,1\n" * 262145 + "@endload\n@end")
