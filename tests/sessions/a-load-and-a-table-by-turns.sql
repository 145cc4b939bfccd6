@session 1
@load T
1
@endload
@load T
2
3
@endload
SELECT A FROM T;
@session 2
CREATE TABLE T (A NUMBER);
@order 1 2 1
@end
