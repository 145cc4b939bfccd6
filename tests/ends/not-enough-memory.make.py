"""262,144 rows, each changed twice."""
print("@setup\nCREATE TABLE T (G VARCHAR2(4), A NUMBER);\n@load T")
print("P,1\n" * 262144 + "@endload")
print("UPDATE T SET A = 2;\n" * 2 + "@end")
