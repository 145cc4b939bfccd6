@setup
CREATE TABLE T (N NUMBER(3) NOT NULL, X VARCHAR2(3));
@load U
1,x
@endload
@load U
@endload
-- Record by record the number of fields, and from the left a field that is no number where one belongs.
@load T
1
2
@endload
@load T
1,x,y
@endload
@load T
-,x
@endload
@load T
1,x
+1,x
@endload
@load T
1,abcd
b,abc
@endload
@load T
 1,x
@endload
@load T
1.0,x
@endload
-- Then row by row size and NOT NULL, however many digits a number has.
@load T
1,abc
2,abcd
@endload
@load T
1000,x
@endload
@load T
-9999999999999999999999999999999999999999,x
@endload
@load T
1000000000000000000000000000000000000001,x
@endload
@load T
,x
1000000000000000000000000000000000000001,x
@endload
@load T
1,"a
b"
@endload
-- All or nothing.
@load T
1,abc
-2,
@endload
SELECT ROWID, N, X FROM T;
@end
