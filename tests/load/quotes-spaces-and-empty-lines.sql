@setup
CREATE TABLE T (A VARCHAR2(12), B VARCHAR2(12));
CREATE TABLE ONE (A NUMBER);
@load T
plain,"with, comma"
"a ""quote"" in",""
 spaced , kept

"it's",;--@
@endload
SELECT ROWID, A, B FROM T;
-- An empty line is no record. Two quotes are an empty field, which is NULL.
@load ONE

1

""
2
@endload
SELECT ROWID, A FROM ONE;
@end
