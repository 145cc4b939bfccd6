@setup
CREATE TABLE P (ID NUMBER PRIMARY KEY, NAME VARCHAR2(5) UNIQUE);
CREATE TABLE C (PID NUMBER REFERENCES P, A NUMBER);
@load P
1,one
2,
3,
@endload
@load P
4,four
4,five
@endload
@load P
4,one
@endload
@load P
,six
@endload
@load C
1,10
,20
3,30
@endload
@load C
2,1
9,1
@endload
DELETE FROM P WHERE ID = 3;
SELECT P.ID, P.NAME, C.A FROM C JOIN P ON C.PID = P.ID;
@end
