"""262,144 rows, changed four times: the fourth UPDATE would make more than the 1,048,576 row versions that are kept."""
print("@setup\nCREATE TABLE T (G VARCHAR2(4), A NUMBER);\n@load T")
print("P,1\n" * 262144 + "@endload")
print("UPDATE T SET A = 2;\n" * 4 + "@end")
